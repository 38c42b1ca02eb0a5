// The types that a host knows by name: how a value is drawn and written, and how one is read and shown.
#pragma once
#include <functional>

struct Type {
  string name;
  std::function<status_t(Parcel&, string&)> write;
  std::function<status_t(const Parcel&, string&)> read;
};
static std::vector<Type> types;

template <class T, class W, class R> static void add(const string& name, W w, R r) {
  types.push_back({name, [w](Parcel& p, string& s) { T x{}; draw(x); show(s, x); return w(p, x); },
                   [r](const Parcel& p, string& s) { T x{}; status_t e = r(p, &x); if (e == OK) show(s, x); return e; }});
}
static const Type& type_named(const string& name) {
  for (const Type& t : types) if (t.name == name) return t;
  die("no type " + name);
}
