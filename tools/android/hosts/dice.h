// What is drawn: numbers, lengths and characters, by a seed.
#pragma once
#include <cstdint>

static uint64_t state;
static uint64_t draw_bits() {  // splitmix64
  uint64_t z = (state += 0x9e3779b97f4a7c15);
  z = (z ^ (z >> 30)) * 0xbf58476d1ce4e5b9;
  z = (z ^ (z >> 27)) * 0x94d049bb133111eb;
  return z ^ (z >> 31);
}
static uint32_t below(uint32_t n) { return draw_bits() % n; }
static int depth = 0;       // of the records that are being drawn
static uint32_t large = 0;  // the length of the next sequence or text, where it isn't 0
static void begin(uint64_t seed) { state = seed; draw_bits(); depth = 0; large = 0; }
// Of a sequence; shorter the deeper it stands, since a record of records would grow too large.
static uint32_t length() {
  if (uint32_t n = large) { large = 0; return n; }
  return depth > 28 ? 0 : depth > 2 ? below(2) : depth > 0 ? below(4) : below(16) == 0 ? below(40) : below(5);
}
// Of a text.
static uint32_t characters() {
  if (large > 0) return length();
  return below(16) == 0 ? below(40) : below(6);
}
// A character that isn't a lone surrogate, of one to four bytes of UTF-8.
static uint32_t draw_char() {
  uint32_t c;
  switch (below(8)) {
    case 0: return below(0x20);
    case 1: return 0x80 + below(0x780);
    case 2: do c = 0x800 + below(0xf800); while (c >= 0xd800 && c < 0xe000); return c;
    case 3: return 0x10000 + below(0x100000);
    default: return 0x20 + below(0x5f);
  }
}
