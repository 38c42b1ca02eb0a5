// Lines, hexadecimal and JSON.
#pragma once
#include <cstdio>
#include <cstdlib>
#include <string>
#include <vector>

using std::string;

[[noreturn]] static void die(const string& why) {
  fprintf(stderr, "host: %s\n", why.c_str());
  exit(9);
}

// `-` for no bytes.
static string hex_of(const uint8_t* bytes, size_t size) {
  static const char* digits = "0123456789abcdef";
  string s;
  for (size_t i = 0; i < size; i++) { s += digits[bytes[i] >> 4]; s += digits[bytes[i] & 15]; }
  return s.empty() ? "-" : s;
}
static string bytes_of(const string& hex) {
  string b;
  for (size_t i = 0; hex != "-" && i + 1 < hex.size(); i += 2) b += static_cast<char>(stoi(hex.substr(i, 2), nullptr, 16));
  return b;
}
static std::vector<string> split(const string& s, char at) {
  std::vector<string> parts(1);
  for (char c : s) if (c == at) parts.emplace_back(); else parts.back() += c;
  return parts;
}
static void list(string& s, const string& value) { s += (s.empty() || s.back() == '[' ? "" : ",") + value; }
