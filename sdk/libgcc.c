/*
 * The arithmetic that compilers call functions for and that is not in arithmetic.S. libgcc has it too, but of the three
 * compilers only one comes with a libgcc for rv32i; sdk/build links this file for the others. Dividing by 0 gives all ones,
 * and the dividend as the rest.
 */
#include <stdint.h>

typedef union {
  uint64_t whole;
  struct { uint32_t low, high; } part;
} u64_parts;

/* Long division: the divisor is shifted up to the dividend, and taken off wherever it fits on its way down. */
static uint64_t
divide_long(uint64_t n, uint64_t d, uint64_t *rest)
{
  uint64_t quotient = 0, bit = 1;

  if (d == 0) {
    *rest = n;
    return ~0ull;
  }
  for (; d < n && d >> 63 == 0; d <<= 1)
    bit <<= 1;
  for (; bit != 0; bit >>= 1, d >>= 1)
    if (n >= d) {
      n -= d;
      quotient |= bit;
    }
  *rest = n;
  return quotient;
}

static uint64_t size_of_long(int64_t a) { return a < 0 ? -(uint64_t)a : (uint64_t)a; }

uint64_t __udivdi3(uint64_t n, uint64_t d) { uint64_t rest; return divide_long(n, d, &rest); }
uint64_t __umoddi3(uint64_t n, uint64_t d) { uint64_t rest; divide_long(n, d, &rest); return rest; }

int64_t
__divdi3(int64_t n, int64_t d)
{
  uint64_t rest, quotient = divide_long(size_of_long(n), size_of_long(d), &rest);
  return (int64_t)((n < 0) != (d < 0) && d != 0 ? -quotient : quotient);
}

int64_t
__moddi3(int64_t n, int64_t d)
{
  uint64_t rest;
  divide_long(size_of_long(n), size_of_long(d), &rest);
  return (int64_t)(n < 0 ? -rest : rest);
}

uint64_t
__ashldi3(uint64_t a, int count)
{
  u64_parts from = { a }, to;

  if (count == 0)
    return a;
  if (count >= 32) {
    to.part.high = from.part.low << (count - 32);
    to.part.low = 0;
  } else {
    to.part.high = from.part.high << count | from.part.low >> (32 - count);
    to.part.low = from.part.low << count;
  }
  return to.whole;
}

uint64_t
__lshrdi3(uint64_t a, int count)
{
  u64_parts from = { a }, to;

  if (count == 0)
    return a;
  if (count >= 32) {
    to.part.low = from.part.high >> (count - 32);
    to.part.high = 0;
  } else {
    to.part.low = from.part.low >> count | from.part.high << (32 - count);
    to.part.high = from.part.high >> count;
  }
  return to.whole;
}

int64_t
__ashrdi3(int64_t a, int count)
{
  u64_parts from = { (uint64_t)a }, to;
  uint32_t sign = (int32_t)from.part.high < 0 ? ~0u : 0;

  if (count == 0)
    return a;
  if (count >= 32) {
    to.part.low = (uint32_t)((int32_t)from.part.high >> (count - 32));
    to.part.high = sign;
  } else {
    to.part.low = from.part.low >> count | from.part.high << (32 - count);
    to.part.high = (uint32_t)((int32_t)from.part.high >> count);
  }
  return (int64_t)to.whole;
}

int
__ctzsi2(uint32_t a)
{
  int count = 0;

  for (; count < 32 && (a & 1) == 0; a >>= 1)
    count++;
  return count;
}

int
__clzsi2(uint32_t a)
{
  int count = 0;

  for (; count < 32 && a >> 31 == 0; a <<= 1)
    count++;
  return count;
}

int
__popcountsi2(uint32_t a)
{
  int count = 0;

  for (; a != 0; a &= a - 1)
    count++;
  return count;
}

int __ctzdi2(uint64_t a) { return (uint32_t)a != 0 ? __ctzsi2((uint32_t)a) : 32 + __ctzsi2((uint32_t)(a >> 32)); }
int __clzdi2(uint64_t a) { return a >> 32 != 0 ? __clzsi2((uint32_t)(a >> 32)) : 32 + __clzsi2((uint32_t)a); }
int __popcountdi2(uint64_t a) { return __popcountsi2((uint32_t)a) + __popcountsi2((uint32_t)(a >> 32)); }
int __ffssi2(uint32_t a) { return a == 0 ? 0 : 1 + __ctzsi2(a); }
int __ffsdi2(uint64_t a) { return a == 0 ? 0 : 1 + __ctzdi2(a); }
int __paritysi2(uint32_t a) { return __popcountsi2(a) & 1; }
int __paritydi2(uint64_t a) { return __popcountdi2(a) & 1; }
uint32_t __bswapsi2(uint32_t a) { return a << 24 | (a << 8 & 0xFF0000) | (a >> 8 & 0xFF00) | a >> 24; }
uint64_t __bswapdi2(uint64_t a) { return (uint64_t)__bswapsi2((uint32_t)a) << 32 | __bswapsi2((uint32_t)(a >> 32)); }
