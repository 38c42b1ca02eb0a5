// Values of every type: drawn, and shown as JSON. The glue says so of each declaration.
#pragma once
#include "dice.h"
#include "text.h"

template <class T> struct V;
template <class T> static void draw(T& x) { V<T>::draw(x); }
template <class T> static void show(string& s, const T& x) { V<T>::show(s, x); }
template <class T> static string text_of(const T& x) { string s; show(s, x); return s; }

template <class T> struct Number {
  static void draw(T& x) {
    static const int64_t edges[] = {0, 1, -1, 127, -128, 32767, 65535, 2147483647, -2147483648LL, INT64_MAX, INT64_MIN};
    x = static_cast<T>(below(3) == 0 ? edges[below(11)] : static_cast<int64_t>(draw_bits()) >> below(64));
  }
  static void show(string& s, const T& x) { s += std::to_string(static_cast<long long>(x)); }
};
template <> struct V<int8_t> : Number<int8_t> {};
template <> struct V<char16_t> : Number<char16_t> {};
template <> struct V<int32_t> : Number<int32_t> {};
template <> struct V<int64_t> : Number<int64_t> {};
template <> struct V<uint8_t> : Number<uint8_t> {  // an element of byte[]
  static void show(string& s, const uint8_t& x) { s += std::to_string(static_cast<int8_t>(x)); }
};
template <> struct V<bool> {
  static void draw(bool& x) { x = below(2); }
  static void show(string& s, const bool& x) { s += x ? "true" : "false"; }
};
template <> struct V<string> {
  static void draw(string& x) {
    x.clear();
    for (uint32_t n = characters(); n > 0; n--) add(x, draw_char());
  }
  static void add(string& x, uint32_t c) {
    if (c < 0x80) { x += static_cast<char>(c); return; }
    int tail = c < 0x800 ? 1 : c < 0x10000 ? 2 : 3;
    x += static_cast<char>((0xf00 >> (tail + 1) & 0xff) | c >> 6 * tail);
    while (tail-- > 0) x += static_cast<char>(0x80 | (c >> 6 * tail & 0x3f));
  }
  static void show(string& s, const string& x) {
    char unit[8];
    s += '"';
    for (unsigned char c : x) {
      if (c >= 0x20 && c != '"' && c != '\\' && c != 0x7f) { s += static_cast<char>(c); continue; }
      snprintf(unit, sizeof unit, "\\u%04x", c);
      s += unit;
    }
    s += '"';
  }
};
template <class T> struct V<Maybe<T>> {
  static void draw(Maybe<T>& x) {
    x.reset();
    if (below(3) == 0) return;
    fill(x);
    V<T>::draw(*x);
  }
  static void show(string& s, const Maybe<T>& x) { if (x) V<T>::show(s, *x); else s += "null"; }
};
template <class T> struct V<std::vector<T>> {
  static void draw(std::vector<T>& x) {
    x.clear();
    for (uint32_t n = length(); n > 0; n--) { T e{}; V<T>::draw(e); x.push_back(std::move(e)); }
  }
  static void show(string& s, const std::vector<T>& x) {
    s += '[';
    for (const auto& e : x) { if (s.back() != '[') s += ','; V<T>::show(s, e); }
    if (s.back() == ',') s.pop_back();
    s += ']';
  }
};

// Records: `each` hands every field to F.
template <class T> struct Each;
struct DrawField { template <class T> void operator()(const char*, T& x) { draw(x); } };
struct ShowField {
  string& s;
  template <class T> void operator()(const char* name, T& x) {
    s += (s.back() == '{' ? "\"" : ",\"") + string(name) + "\":";
    show(s, x);
  }
};
template <class T> struct Record {
  static void draw(T& x) { depth++; Each<T>::each(x, DrawField()); depth--; }
  static void show(string& s, const T& x) { s += '{'; Each<T>::each(const_cast<T&>(x), ShowField{s}); s += '}'; }
};
#define FIELDS_OF(T, ...) template <> struct Each<T> { template <class F> static void each(T& x, F f) { __VA_ARGS__ } };
// A record with a number and an array of itself: at times about as many in one another as 64 levels have room for, 31, each with its array.
template <class T> struct Chain : Record<T> {
  static void draw(T& x) {
    if (depth > 0 || below(8) > 0) return Record<T>::draw(x);
    T* at = &x;
    for (int n = 30 - below(3); n > 0; n--) { at->key = n; at->below.resize(1); at = &at->below[0]; }
  }
};

// Unions: `at` hands the member of a tag to F, as a type.
template <class T, typename T::Tag tag> struct Tag {
  static auto& get(T& x) { return x.template get<tag>(); }
  template <class M> static void set(T& x, M&& member) { x.template set<tag>(std::forward<M>(member)); }
};
template <class T> struct Members;
template <class T> struct DrawMember {
  T& x;
  template <class M> void operator()(const char*, M) {
    std::decay_t<decltype(M::get(x))> member{};
    ::draw(member);
    M::set(x, std::move(member));
  }
};
template <class T> struct ShowMember {
  string& s;
  T& x;
  template <class M> void operator()(const char* name, M) {
    s += "{\"" + string(name) + "\":";
    ::show(s, M::get(x));
    s += '}';
  }
};
template <class T> struct Union {
  static void draw(T& x) { depth++; Members<T>::at(below(Members<T>::count), DrawMember<T>{x}); depth--; }
  static void show(string& s, const T& x) { Members<T>::at(static_cast<uint32_t>(x.getTag()), ShowMember<T>{s, const_cast<T&>(x)}); }
};
#define MEMBERS_OF(T, COUNT, ...) \
  template <> struct Members<T> { \
    static constexpr uint32_t count = COUNT; \
    template <class F> static void at(uint32_t tag, F f) { switch (tag) { __VA_ARGS__ } } \
  };
