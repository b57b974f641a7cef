// What the compiler calls for bytes in memory and for numbers of 128 bits. Not proved.
typedef unsigned long u64;
typedef unsigned char u8;
typedef __int128 i128;
typedef unsigned __int128 u128;

void *memset(void *to, int byte, u64 count) {
  u8 *at = to;
  u64 eight = (u8)byte * 0x0101010101010101ul;
  for (; count >= 8; count -= 8, at += 8) __builtin_memcpy(at, &eight, 8);
  for (; count; count--) *at++ = (u8)byte;
  return to;
}
void *memcpy(void *to, const void *from, u64 count) {
  u8 *at = to;
  const u8 *it = from;
  for (; count >= 8; count -= 8, at += 8, it += 8) {
    u64 eight;
    __builtin_memcpy(&eight, it, 8);
    __builtin_memcpy(at, &eight, 8);
  }
  for (; count; count--) *at++ = *it++;
  return to;
}
void *memmove(void *to, const void *from, u64 count) {
  if (to <= from || (u8 *)to >= (const u8 *)from + count) return memcpy(to, from, count);
  u8 *at = (u8 *)to + count;
  const u8 *it = (const u8 *)from + count;
  while (count--) *--at = *--it;
  return to;
}
int memcmp(const void *one, const void *other, u64 count) {
  const u8 *a = one, *b = other;
  for (; count; count--, a++, b++)
    if (*a != *b) return *a - *b;
  return 0;
}

union Wide { struct { u64 low, high; } half; i128 whole; };

// Halves of 32 bits, so that no product here is one of 128.
i128 __multi3(i128 one, i128 other) {
  union Wide a = {.whole = one}, b = {.whole = other}, made;
  u64 a0 = (unsigned)a.half.low, a1 = a.half.low >> 32, b0 = (unsigned)b.half.low, b1 = b.half.low >> 32;
  u64 p = a0 * b0, q = a1 * b0 + (p >> 32), r = a0 * b1 + (unsigned)q;
  made.half.low = (r << 32) | (unsigned)p;
  made.half.high = a1 * b1 + (q >> 32) + (r >> 32) + a.half.low * b.half.high + a.half.high * b.half.low;
  return made.whole;
}
i128 __lshrti3(i128 it, int by) {
  union Wide a = {.whole = it};
  if (by & 64) {
    a.half.low = a.half.high >> (by & 63);
    a.half.high = 0;
  } else if (by) {
    a.half.low = (a.half.low >> by) | (a.half.high << (64 - by));
    a.half.high >>= by;
  }
  return a.whole;
}
i128 __ashlti3(i128 it, int by) {
  union Wide a = {.whole = it};
  if (by & 64) {
    a.half.high = a.half.low << (by & 63);
    a.half.low = 0;
  } else if (by) {
    a.half.high = (a.half.high << by) | (a.half.low >> (64 - by));
    a.half.low <<= by;
  }
  return a.whole;
}
// Bit after bit: numbers this wide are divided only where the digits of one are written.
u128 __udivti3(u128 one, u128 by) {
  u128 made = 0, rest = 0;
  for (int bit = 127; bit >= 0; bit--) {
    rest = (rest << 1) | ((one >> bit) & 1);
    if (rest >= by) {
      rest -= by;
      made |= (u128)1 << bit;
    }
  }
  return made;
}
