// Calls: what handlers see and answer, and a proxy whose requests are kept and whose replies are given.
// The way of each argument is a letter: i in, o out, l an out List, x inout, r the result.
#pragma once
#include <tuple>
#include <type_traits>

static string saw, answer;

// The older compiler leaves fields of an `out` record without a value; the glue gives them one.
template <class T> inline void settle(T&) {}

template <class T> static T& in_place(const T& x) { return const_cast<T&>(x); }
template <class T> static T& in_place(T* x) { return *x; }

static Status failure() {
  static const char* messages[] = {"", "no such light", "zweiundzwanzig \xc3\xa4", "\xf0\x9f\x92\xa1 three"};
  int code = -1 - static_cast<int>(below(8));
  string message = messages[below(4)];
  answer = "{\"exception\":[" + std::to_string(code) + ',' + text_of(message);
  if (code != -8) {
    answer += "]}";
    return status_of(code, message);
  }
  int32_t error;
  draw(error);
  answer += ',' + std::to_string(error) + "]}";
  return status_of_error(error, message);
}

template <class... A> static Status handle(const char* ways, A&&... args) {
  const char* way = ways;
  string seen;
  auto look = [&](auto&& x) {
    char w = *way++;
    if (w == 'o') settle(in_place(x));
    if (w != 'r') list(seen, text_of(in_place(x)));
  };
  (look(args), ...);
  saw = '[' + seen + ']';
  if (below(5) == 0) return failure();
  way = ways;
  string outs, result;
  auto answer_by = [&](auto&& x) {
    char w = *way++;
    if (w == 'i') return;
    draw(in_place(x));
    if (w == 'r') result = text_of(in_place(x)); else list(outs, text_of(in_place(x)));
  };
  (answer_by(args), ...);
  answer = "{\"out\":[" + outs + ']' + (result.empty() ? "" : ",\"return\":" + result) + '}';
  return ok();
}

// In place of a service: keeps the request, and answers with a status and bytes.
struct Wire : BBinder {
  explicit Wire(const string& name) : face(name.c_str()) {}
  String16 face;
  status_t transport = OK;
  string request = "-", reply = "-";
  uint32_t code = 0, flags = 0;
  const String16& getInterfaceDescriptor() const override { return face; }
  status_t onTransact(uint32_t c, const Parcel& data, Parcel* out, uint32_t f) override {
    code = c;
    flags = f;
    request = hex_of(data.data(), data.dataSize());
    string bytes = bytes_of(reply);
    if (out != nullptr && transport == OK) out->setData(reinterpret_cast<const uint8_t*>(bytes.data()), bytes.size());
    return transport;
  }
};

static string outcome_of(const Status& s) {
  Failure f = failure_of(s);
  if (f.is_transport) return "{\"status\":" + std::to_string(f.code) + '}';
  string text = "{\"exception\":[" + std::to_string(f.code) + ',' + text_of(f.message);
  return text + (f.code == -8 ? ',' + std::to_string(f.error) : "") + "]}";
}

// What a proxy is given for an argument, and how a calls file says it: of an `out` array its length, of any other `out` argument nothing.
template <class T> static string open(T& x) { x = T(); return "null"; }
template <class T> static string open(Many<T>& x) { x = Many<T>(below(6)); return std::to_string(x.size()); }
template <class T> static string open(Maybe<Many<T>>& x) {
  x.reset();
  if (below(3) == 0) return "null";
  fill(x);
  *x = Many<T>(below(6));
  return std::to_string(x->size());
}
template <class T> static string given(char way, T& x) {
  if (way == 'o') return open(x);
  if (way == 'l') { x = T(); return "null"; }
  if (way == 'r') return "";
  draw(x);
  return text_of(x);
}

template <class A> using Kept = std::remove_pointer_t<std::decay_t<A>>;
template <class A, class T> static decltype(auto) handed(T& x) {
  if constexpr (std::is_pointer_v<A>) return &x; else return static_cast<const T&>(x);
}

// The reply that the next call gets; without one its request is printed.
struct Heard { status_t transport; string reply; };
static const Heard* heard = nullptr;

template <class T, class... A> static string taken(const char* way, A&... kept) {
  string outs, result;
  auto take = [&](auto& v) {
    char w = *way++;
    if (w == 'r') result = text_of(v); else if (w != 'i') list(outs, text_of(v));
  };
  (take(kept), ...);
  return "{\"out\":[" + outs + "],\"return\":" + (result.empty() ? "null" : result) + '}';
}

template <class Face, class... A> static void call(int n, const string& face, const string& name, const char* ways, Status (Face::*method)(A...)) {
  sp<Wire> wire = made<Wire>(face);
  if (heard != nullptr) { wire->transport = heard->transport; wire->reply = heard->reply; }
  auto proxy = proxy_of<Face>(wire);
  std::tuple<Kept<A>...> kept;
  string args;
  const char* way = ways;
  std::apply([&](auto&... x) {
    auto give = [&](auto& v) { string s = given(*way++, v); if (!s.empty()) list(args, s); };
    (give(x), ...);
  }, kept);
  Status got = std::apply([&](auto&... x) { return (proxy.get()->*method)(handed<A>(x)...); }, kept);
  std::cout << n << '\t';
  if (heard != nullptr) {
    std::cout << (got.isOk() ? std::apply([&](auto&... x) { return taken<Face>(ways, x...); }, kept) : outcome_of(got)) << std::endl;
    return;
  }
  std::cout << "{\"call\":\"" << face << '.' << name << "\",\"args\":[" << args << "]\t" << face << '\t' << wire->code << '\t' << wire->flags << '\t'
            << wire->request << '\n';
}
static std::vector<std::function<void(int)>> all_calls;
