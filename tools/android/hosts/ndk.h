// libbinder as its NDK has it, libbinder_ndk: every text is UTF-8, and one function for each direction takes every type.
#pragma once
#include <android/binder_interface_utils.h>
#include <android/binder_libbinder.h>
#include <android/binder_parcel_utils.h>
#include <binder/Binder.h>
#include <binder/Parcel.h>
#include <ndk/parcel_internal.h>
#include <memory>
#include <optional>
#include "text.h"

using namespace android;
using Text = string;
using Status = ndk::ScopedAStatus;
template <class T> using Many = std::vector<T>;
template <class T> using Maybe = std::optional<T>;
template <class T> static void fill(Maybe<T>& x) { x.emplace(); }

#include "values.h"

// ---------------------------------------------------------------- types by name

#include "types.h"

static AParcel view_of(const Parcel& p) { return AParcel(nullptr, const_cast<Parcel*>(&p), false); }
template <class T> static void add_one(const string& name) {
  add<T>(name, [](Parcel& p, const T& x) { AParcel a = view_of(p); return ndk::AParcel_writeData(&a, x); },
         [](const Parcel& p, T* x) { const AParcel a = view_of(p); return ndk::AParcel_readData(&a, x); });
}
template <class T> static void add_maybe(const string& name) {
  add<Maybe<T>>(name, [](Parcel& p, const Maybe<T>& x) { AParcel a = view_of(p); return ndk::AParcel_writeNullableData(&a, x); },
                [](const Parcel& p, Maybe<T>* x) { const AParcel a = view_of(p); return ndk::AParcel_readNullableData(&a, x); });
}
template <class T> static void add_scalar(const string& name) {
  add_one<T>(name);
  add_one<Many<T>>(name + "[]");
  add_maybe<Many<T>>(name + "[]?");
}
template <class T> static void add_record(const string& name) {
  add_one<T>(name);
  add_maybe<T>(name + "?");
  for (const string& many : {name + "[]", "List<" + name + ">"}) {
    add_one<Many<T>>(many);
    add_maybe<Many<Maybe<T>>>(many + "?");
  }
}
template <class T> static void add_enum(const string& name) { add_scalar<T>(name); }
static void add_built_in() {
  add_scalar<bool>("boolean");
  add_scalar<char16_t>("char");
  add_scalar<int32_t>("int");
  add_scalar<int64_t>("long");
  add_one<int8_t>("byte");
  add_one<Many<uint8_t>>("byte[]");
  add_maybe<Many<uint8_t>>("byte[]?");
  add_record<string>("String");
}

// ---------------------------------------------------------------- statuses, stubs and proxies

static Status status_of(int code, const string& message) { return Status::fromExceptionCodeWithMessage(code, message.c_str()); }
static Status status_of_error(int error, const string& message) { return Status::fromServiceSpecificErrorWithMessage(error, message.c_str()); }
static Status ok() { return Status::ok(); }
struct Failure { bool is_transport; int code, error; string message; };
static Failure failure_of(const Status& s) {
  bool is_transport = s.getExceptionCode() == EX_TRANSACTION_FAILED;
  return {is_transport, is_transport ? s.getStatus() : s.getExceptionCode(), s.getServiceSpecificError(), s.getMessage()};
}
template <class Face> static auto proxy_of(const sp<IBinder>& binder) { return Face::fromBinder(ndk::SpAIBinder(AIBinder_fromPlatformBinder(binder))); }
template <class Stub> static sp<IBinder> stub_made() { return AIBinder_toPlatformBinder(ndk::SharedRefBase::make<Stub>()->asBinder().get()); }
template <class T, class... A> static sp<T> made(A&&... a) { return sp<T>::make(a...); }
