/*
 * 20,000 pairs of numbers through each operation and conversion of float and double: denormals, infinities and what is no number
 * among them. A line is the sum of the results' bits, and the same from the host's compiler. The input may give a first number.
 */
#include <stdint.h>
#include <stdio.h>
#include <stdlib.h>

enum { PAIRS = 20000 };

typedef union { float number; uint32_t bits; } single;
typedef union { double number; uint64_t bits; } twofold;

static uint32_t state;

static uint32_t
next(void)
{
  state ^= state << 13;
  state ^= state >> 17;
  state ^= state << 5;
  return state;
}

/* Sums of bits. */
enum sum {
  ADD, SUBTRACT, MULTIPLY, DIVIDE, NEGATE, COMPARE, TO_OTHER, TO_INT, TO_UNSIGNED, TO_LONG, TO_UNSIGNED_LONG,
  OF_INT, OF_UNSIGNED, OF_LONG, OF_UNSIGNED_LONG, SUMS
};

static const char *const names[] = {
  "+", "-", "*", "/", "negated", "compared", "to the other type", "to int", "to unsigned", "to long long", "to unsigned long long",
  "of int", "of unsigned", "of long long", "of unsigned long long"
};

static uint32_t sums[2][SUMS];

static void
add(int type, enum sum sum, uint64_t bits)
{
  uint32_t s = sums[type][sum];

  s = (s << 5 | s >> 27) + (uint32_t)bits;
  sums[type][sum] = (s << 5 | s >> 27) + (uint32_t)(bits >> 32);
}

/* What is no number has many forms, of which processors choose each its own: here they are one. */
static uint64_t of_single(float x) { single s = { x }; return x != x ? 0x7FC00000 : s.bits; }
static uint64_t of_twofold(double x) { twofold t = { x }; return x != x ? 0x7FF8000000000000 : t.bits; }

/*
 * Any number, by its sign, exponent and digits. One in eight is at the least or the greatest exponent, where denormals, infinities
 * and NaNs are; many are near 1, so that sums and products are exact, rounded or cancelled; many have few digits.
 */
static uint64_t
any(int exponent_bits, int digits)
{
  uint64_t all = ((uint64_t)1 << digits) - 1, fraction = ((uint64_t)next() << 32 | next()) & all;
  uint32_t most = (1u << exponent_bits) - 1, exponent;
  uint32_t kind = next() % 16;

  if (kind == 0)
    exponent = 0;
  else if (kind == 1)
    exponent = most;
  else if (kind < 6)
    exponent = next() & most;
  else
    exponent = most / 2 - 35 + next() % 70;
  kind = next() % 8;
  if (kind == 0)
    fraction = 0;
  else if (kind == 1)
    fraction = all;
  else if (kind < 4)
    fraction &= all << (next() % (uint32_t)digits) & all;
  return ((uint64_t)(next() & 1) << exponent_bits | exponent) << digits | fraction;
}

static float any_single(void) { single s; s.bits = (uint32_t)any(8, 23); return s.number; }
static double any_twofold(void) { twofold t; t.bits = any(11, 52); return t.number; }

static uint64_t
any_integer(void)
{
  uint64_t n = (uint64_t)next() << 32 | next();

  n >>= next() & 63;
  return (next() & 1) != 0 ? n : ~n;
}

#define SHORT 2147483648.0
#define LONG 9223372036854775808.0

/* One pair of a type: of is its bits. A conversion to an integer is done where the integer has the number. */
#define PAIR(name, type, kind, of, of_other, other) \
static void \
name(type a, type b, uint64_t n) \
{ \
  add(kind, ADD, of(a + b)); \
  add(kind, SUBTRACT, of(a - b)); \
  add(kind, MULTIPLY, of(a * b)); \
  add(kind, DIVIDE, of(a / b)); \
  add(kind, NEGATE, of(-a)); \
  add(kind, COMPARE, (uint64_t)((a == b) | (a != b) << 1 | (a < b) << 2 | (a <= b) << 3 | (a > b) << 4 | (a >= b) << 5)); \
  add(kind, TO_OTHER, of_other((other)a)); \
  if (a > (type)-SHORT && a < (type)SHORT) \
    add(kind, TO_INT, (uint32_t)(int32_t)a); \
  if (a > -1 && a < (type)(2 * SHORT)) \
    add(kind, TO_UNSIGNED, (uint32_t)a); \
  if (a > (type)-LONG && a < (type)LONG) \
    add(kind, TO_LONG, (uint64_t)(int64_t)a); \
  if (a > -1 && a < (type)(2 * LONG)) \
    add(kind, TO_UNSIGNED_LONG, (uint64_t)a); \
  add(kind, OF_INT, of((type)(int32_t)(uint32_t)n)); \
  add(kind, OF_UNSIGNED, of((type)(uint32_t)n)); \
  add(kind, OF_LONG, of((type)(int64_t)n)); \
  add(kind, OF_UNSIGNED_LONG, of((type)n)); \
}

PAIR(singles, float, 0, of_single, of_twofold, double)
PAIR(twofolds, double, 1, of_twofold, of_single, float)

int
main(void)
{
  static const char *const types[] = { "float", "double" };
  char line[32];
  int i, type;

  state = fgets(line, sizeof line, stdin) != NULL ? (uint32_t)strtoul(line, NULL, 10) | 1 : 2463534242u;
  for (i = 0; i < PAIRS; i++) {
    float a = any_single(), b = any_single();
    double c = any_twofold(), d = any_twofold();
    singles(a, b, any_integer());
    twofolds(c, d, any_integer());
  }
  for (type = 0; type < 2; type++)
    for (i = 0; i < SUMS; i++)
      printf("%08x %s %s\n", sums[type][i], types[type], names[i]);
  return 0;
}
