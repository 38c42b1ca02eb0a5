// libbinder as C++ has it: Android 10's compiler and the one before Android 11 make unique_ptr of what may be null, Android 14's std::optional.
#pragma once
#include <binder/Parcel.h>
#include <binder/Status.h>
#include <memory>
#include <optional>
#include "text.h"

using namespace android;
using Text = String16;
using Status = binder::Status;
template <class T> using Many = std::vector<T>;
#ifdef OLDER
template <class T> using Maybe = std::unique_ptr<T>;
template <class T> static void fill(Maybe<T>& x) { x.reset(new T()); }
template <class T, class... A> static sp<T> made(A&&... a) { return new T(a...); }
static const char16_t* units_of(const String16& x) { return x.string(); }
static string message_of(const String8& x) { return string(x.string(), x.length()); }
#else
template <class T> using Maybe = std::optional<T>;
template <class T> static void fill(Maybe<T>& x) { x.emplace(); }
template <class T, class... A> static sp<T> made(A&&... a) { return sp<T>::make(a...); }
static const char16_t* units_of(const String16& x) { return x.c_str(); }
static string message_of(const String8& x) { return string(x.c_str(), x.length()); }
#endif

#include "values.h"

template <> struct V<String16> {
  static void draw(String16& x) {
    std::u16string u;
    for (uint32_t n = characters(); n > 0; n--) {
      uint32_t c = draw_char();
      if (c < 0x10000) { u += static_cast<char16_t>(c); continue; }
      u += static_cast<char16_t>(0xd7c0 + (c >> 10));
      u += static_cast<char16_t>(0xdc00 + (c & 0x3ff));
    }
    x = String16(u.data(), u.size());
  }
  static void show(string& s, const String16& x) {
    char unit[8];
    s += '"';
    for (size_t i = 0; i < x.size(); i++) { snprintf(unit, sizeof unit, "\\u%04x", units_of(x)[i]); s += unit; }
    s += '"';
  }
};

// ---------------------------------------------------------------- types by name

#include "types.h"

#define TYPE(NAME, T, WRITE, READ) add<T>(NAME, [](Parcel& p, const T& x) { return p.WRITE(x); }, [](const Parcel& p, T* x) { return p.READ(x); })
template <class T> using MaybeMany = Maybe<Many<T>>;
template <class T> using MaybeAll = Maybe<Many<Maybe<T>>>;

template <class T> static void add_record(const string& name) {
  TYPE(name, T, writeParcelable, readParcelable);
  TYPE(name + "?", Maybe<T>, writeNullableParcelable, readParcelable);
  TYPE(name + "[]", Many<T>, writeParcelableVector, readParcelableVector);
  TYPE(name + "[]?", MaybeAll<T>, writeParcelableVector, readParcelableVector);
#ifndef OLDER
  TYPE("List<" + name + ">", Many<T>, writeParcelableVector, readParcelableVector);
  TYPE("List<" + name + ">?", MaybeAll<T>, writeParcelableVector, readParcelableVector);
#endif
}
template <class T> static void add_enum(const string& name) {
#if !defined(OLDER) || defined(HAS_ENUM_VECTORS)
  TYPE(name + "[]", Many<T>, writeEnumVector, readEnumVector);
  TYPE(name + "[]?", MaybeMany<T>, writeEnumVector, readEnumVector);
#endif
}
static void add_built_in() {
  TYPE("boolean", bool, writeBool, readBool);
  TYPE("byte", int8_t, writeByte, readByte);
  TYPE("char", char16_t, writeChar, readChar);
  TYPE("int", int32_t, writeInt32, readInt32);
  TYPE("long", int64_t, writeInt64, readInt64);
  TYPE("String", String16, writeString16, readString16);
  TYPE("String?", Maybe<String16>, writeString16, readString16);
  TYPE("utf8", string, writeUtf8AsUtf16, readUtf8FromUtf16);
  TYPE("utf8?", Maybe<string>, writeUtf8AsUtf16, readUtf8FromUtf16);
  TYPE("boolean[]", Many<bool>, writeBoolVector, readBoolVector);
  TYPE("boolean[]?", MaybeMany<bool>, writeBoolVector, readBoolVector);
  TYPE("byte[]", Many<uint8_t>, writeByteVector, readByteVector);
  TYPE("byte[]?", MaybeMany<uint8_t>, writeByteVector, readByteVector);
  TYPE("signed[]", Many<int8_t>, writeByteVector, readByteVector);
  TYPE("signed[]?", MaybeMany<int8_t>, writeByteVector, readByteVector);
  TYPE("char[]", Many<char16_t>, writeCharVector, readCharVector);
  TYPE("char[]?", MaybeMany<char16_t>, writeCharVector, readCharVector);
  TYPE("int[]", Many<int32_t>, writeInt32Vector, readInt32Vector);
  TYPE("int[]?", MaybeMany<int32_t>, writeInt32Vector, readInt32Vector);
  TYPE("long[]", Many<int64_t>, writeInt64Vector, readInt64Vector);
  TYPE("long[]?", MaybeMany<int64_t>, writeInt64Vector, readInt64Vector);
  for (const char* name : {"String[]", "List<String>"}) TYPE(name, Many<String16>, writeString16Vector, readString16Vector);
  for (const char* name : {"String[]?", "List<String>?"}) TYPE(name, MaybeAll<String16>, writeString16Vector, readString16Vector);
  TYPE("utf8[]", Many<string>, writeUtf8VectorAsUtf16Vector, readUtf8VectorFromUtf16Vector);
  TYPE("utf8[]?", MaybeAll<string>, writeUtf8VectorAsUtf16Vector, readUtf8VectorFromUtf16Vector);
}

// ---------------------------------------------------------------- statuses, stubs and proxies

static Status status_of(int code, const string& message) { return Status::fromExceptionCode(code, String8(message.data(), message.size())); }
static Status status_of_error(int error, const string& message) {
  return Status::fromServiceSpecificError(error, String8(message.data(), message.size()));
}
static Status ok() { return Status::ok(); }
struct Failure { bool is_transport; int code, error; string message; };
static Failure failure_of(const Status& s) {
  return {s.exceptionCode() == Status::EX_TRANSACTION_FAILED, s.exceptionCode() == Status::EX_TRANSACTION_FAILED ? s.transactionError() : s.exceptionCode(),
          s.serviceSpecificErrorCode(), message_of(s.exceptionMessage())};
}
template <class Face> static auto proxy_of(const sp<IBinder>& binder) { return Face::asInterface(binder); }
template <class Stub> static sp<IBinder> stub_made() { return made<Stub>(); }
