// libbinder's own Parcel, Status and BBinder with what a compiler generates of a tree: draws values and calls, and prints what became of them.
//
//   host values SEED GROUPS   each line: TYPES, ENDS, JSON, HEX: the values of TYPES as JSON, written one behind another into a Parcel of these
//                             bytes, and the place behind each
//   host read                 answers each line TYPES, HEX by JSON, STATUS, PLACE: what a Parcel reads, the status of the value that it
//                             can't read (0 where it reads all, `memory` where it wants too much), and the place behind
//   host ask SEED COUNT       each line: N, CALL, INTERFACE, CODE, FLAGS, REQUEST: what the generated proxy sends in the N-th call of this seed; CALL is
//                             the start of its line in a calls file
//   host serve SEED           answers each line N, INTERFACE, CODE, FLAGS, HEX by N, TRANSPORT, SAW, ANSWER, REPLY of the generated stub
//   host hear SEED            answers each line N, TRANSPORT, HEX by N and what the proxy of the N-th call of this seed makes of that reply
//
// Columns stand between tabs. Texts are JSON, and bytes hexadecimal, `-` for none.
#include <sys/resource.h>
#include <iostream>
#include <new>
#include <stdexcept>
#ifdef NDK
#include "ndk.h"
#else
#include "cpp.h"
#endif
#include "calls.h"
#include "glue.h"

// The first values of the first group are large.
static const char* large_types[] = {"byte[]", "String", "long[]", "boolean[]?"};
static void print_values(uint32_t groups) {
  for (uint32_t g = 0; g < groups; g++) {
    Parcel p;
    string names, ends, json = "[";
    for (uint32_t i = 0; i < 255 && p.dataSize() < 900000; i++) {
      bool is_large = g == 0 && i < 4;
      const Type& t = is_large ? type_named(large_types[i]) : types[below(types.size())];
      if (is_large) large = 30001;
      const char* comma = i == 0 ? "" : ",";
      names += comma + t.name;
      json += comma;
      if (t.write(p, json) != OK) die("a value isn't written");
      ends += comma + std::to_string(p.dataSize());
    }
    std::cout << names << '\t' << ends << '\t' << json << "]\t" << hex_of(p.data(), p.dataSize()) << '\n';
  }
}

// What an action answers, or `memory` where it wants too much.
template <class F> static string limited(F action) {
  try {
    return std::to_string(action());
  } catch (const std::bad_alloc&) {
  } catch (const std::length_error&) {
  }
  return "memory";
}

static void give(Parcel& p, const string& hex) {
  string bytes = bytes_of(hex);
  p.setData(reinterpret_cast<const uint8_t*>(bytes.data()), bytes.size());
  p.setDataPosition(0);
}

static void answer_read(const std::vector<string>& words) {
  Parcel p;
  give(p, words[1]);
  string json, status = "0";
  for (const string& name : split(words[0], ',')) {
    string value;
    status = limited([&] { return type_named(name).read(p, value); });
    if (status != "0") break;
    json += (json.empty() ? "" : ",") + value;
  }
  std::cout << '[' << json << "]\t" << status << '\t' << p.dataPosition() << std::endl;
}

static void one_call(uint64_t seed, uint64_t n) {
  begin(seed * 1000003 + n);
  all_calls[below(all_calls.size())](n);
}

static void answer_request(uint64_t seed, const std::vector<string>& words) {
  begin(seed * 7919 + 31 * strtoull(words[0].c_str(), nullptr, 10) + 5);
  Parcel request, reply;
  give(request, words[4]);
  saw = "null";
  answer = "-";
  string status = limited([&] {
    return stub_of(words[1])->transact(strtoul(words[2].c_str(), nullptr, 10), request, &reply, strtoul(words[3].c_str(), nullptr, 10));
  });
  std::cout << words[0] << '\t' << status << '\t' << saw << '\t' << answer << '\t' << hex_of(reply.data(), reply.dataSize()) << std::endl;
}

static void answer_reply(uint64_t seed, const std::vector<string>& words) {
  Heard reply{atoi(words[1].c_str()), words[2]};
  heard = &reply;
  if (limited([&] { one_call(seed, strtoull(words[0].c_str(), nullptr, 10)); return 0; }) != "0") std::cout << words[0] << "\tmemory" << std::endl;
}

int main(int count, char** words) {
  // A count of the bytes may make a vector of so many elements before one of them is read, so memory is bounded here: on Android the process would
  // take it, or end where it gets none.
  rlimit bound{size_t{1} << 28, size_t{1} << 28};
  setrlimit(RLIMIT_AS, &bound);
  std::ios::sync_with_stdio(false);
  add_built_in();
  add_declared();
  add_calls();
  string mode = count > 1 ? words[1] : "";
  uint64_t seed = count > 2 ? strtoull(words[2], nullptr, 10) : 0;
  if (count == 4) {
    state = seed;
    uint32_t number = strtoul(words[3], nullptr, 10);
    if (mode == "values") print_values(number);
    else if (mode == "ask") for (uint32_t n = 0; n < number; n++) one_call(seed, n);
    else die("no mode " + mode);
    return 0;
  }
  for (string line; std::getline(std::cin, line);) {
    std::vector<string> columns = split(line, '\t');
    if (mode == "read") answer_read(columns);
    else if (mode == "serve") answer_request(seed, columns);
    else if (mode == "hear") answer_reply(seed, columns);
    else die("no mode " + mode);
  }
}
