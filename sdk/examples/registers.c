/*
 * Calls each function that compilers call for arithmetic and moves of memory, on random numbers, and looks which registers it
 * changes: libgcc's floats count on __mulsi3 to change ra and a0 to a3 alone, and every function keeps sp, gp, tp and s0 to s11.
 * Products and quotients are worked out a second time, bit by bit.
 */
#include <stdint.h>
#include <stdio.h>
#include <string.h>

enum { CALLS = 400 };

/* What the registers x1 to x31 hold before a call and behind it. Word 0 is the function. */
uint32_t before[32], after[32];

/* Loads the registers, but for sp, gp and tp, calls the function, and stores all of them. Its own are on the stack meanwhile. */
void call(void);
__asm__(
  ".macro each instruction, from\n"
  "\\instruction t0, 20(\\from)\n\\instruction t1, 24(\\from)\n\\instruction t2, 28(\\from)\n\\instruction s0, 32(\\from)\n"
  "\\instruction s1, 36(\\from)\n\\instruction a0, 40(\\from)\n\\instruction a1, 44(\\from)\n\\instruction a2, 48(\\from)\n"
  "\\instruction a3, 52(\\from)\n\\instruction a4, 56(\\from)\n\\instruction a5, 60(\\from)\n\\instruction a6, 64(\\from)\n"
  "\\instruction a7, 68(\\from)\n\\instruction s2, 72(\\from)\n\\instruction s3, 76(\\from)\n\\instruction s4, 80(\\from)\n"
  "\\instruction s5, 84(\\from)\n\\instruction s6, 88(\\from)\n\\instruction s7, 92(\\from)\n\\instruction s8, 96(\\from)\n"
  "\\instruction s9, 100(\\from)\n\\instruction s10, 104(\\from)\n\\instruction s11, 108(\\from)\n\\instruction t3, 112(\\from)\n"
  "\\instruction t4, 116(\\from)\n\\instruction t5, 120(\\from)\n"
  ".endm\n"
  ".text\n"
  ".globl call\n"
  "call: addi sp, sp, -128\n"
  "sw ra, 4(sp)\n"
  "each sw, sp\n"
  "lui t6, %hi(before)\n"
  "addi t6, t6, %lo(before)\n"
  "sw sp, 8(t6)\n"
  "sw gp, 12(t6)\n"
  "sw tp, 16(t6)\n"
  "each lw, t6\n"
  "lw ra, 0(t6)\n"
  "lw t6, 124(t6)\n"
  "jalr ra, ra\n"
  "sw t6, 0(sp)\n"                 /* below it are 128 bytes of call's own */
  "lui t6, %hi(after)\n"
  "addi t6, t6, %lo(after)\n"
  "sw sp, 8(t6)\n"
  "sw gp, 12(t6)\n"
  "sw tp, 16(t6)\n"
  "each sw, t6\n"
  "lw t5, 0(sp)\n"
  "sw t5, 124(t6)\n"
  "lui t6, %hi(before)\n"
  "addi t6, t6, %lo(before)\n"
  "lw sp, 8(t6)\n"
  "lw gp, 12(t6)\n"
  "lw tp, 16(t6)\n"
  "lw ra, 4(sp)\n"
  "each lw, sp\n"
  "addi sp, sp, 128\n"
  "ret\n");

/* Registers as bits: those that any function may change, and those that __mulsi3 and divisions may. */
#define ANY 0xF003FCE2u
#define PRODUCT 0x00003C02u
#define DIVISION 0x00003C62u

enum kind { MULTIPLY, QUOTIENT, REST, SHIFT, BITS, MOVE };

#define FUNCTIONS(each) \
  each(__mulsi3, MULTIPLY, 4, 0, PRODUCT) each(__muldi3, MULTIPLY, 8, 0, ANY) \
  each(__udivsi3, QUOTIENT, 4, 0, DIVISION) each(__umodsi3, REST, 4, 0, DIVISION) \
  each(__divsi3, QUOTIENT, 4, 1, DIVISION) each(__modsi3, REST, 4, 1, DIVISION) \
  each(__udivdi3, QUOTIENT, 8, 0, ANY) each(__umoddi3, REST, 8, 0, ANY) \
  each(__divdi3, QUOTIENT, 8, 1, ANY) each(__moddi3, REST, 8, 1, ANY) \
  each(__ashldi3, SHIFT, 8, 0, ANY) each(__lshrdi3, SHIFT, 8, 0, ANY) each(__ashrdi3, SHIFT, 8, 1, ANY) \
  each(__clzsi2, BITS, 4, 0, ANY) each(__ctzsi2, BITS, 4, 0, ANY) each(__popcountsi2, BITS, 4, 0, ANY) \
  each(__clzdi2, BITS, 8, 0, ANY) each(__ctzdi2, BITS, 8, 0, ANY) each(__popcountdi2, BITS, 8, 0, ANY) \
  each(memcpy, MOVE, 4, 0, ANY) each(memmove, MOVE, 4, 0, ANY) each(memset, MOVE, 4, 0, ANY) each(memcmp, MOVE, 4, 0, ANY)

/* The compiler knows these names as functions of its own, so they have others here. */
#define DECLARE(name, kind, bytes, is_signed, free) extern const char of_##name[] __asm__(#name);
#define ROW(name, kind, bytes, is_signed, free) { #name, of_##name, kind, bytes, is_signed, free },

FUNCTIONS(DECLARE)

static const struct function {
  const char *name, *code;
  enum kind kind;
  int bytes, is_signed;
  uint32_t free;
} functions[] = { FUNCTIONS(ROW) };

static uint32_t state = 1;

static uint32_t
next(void)
{
  state ^= state << 13;
  state ^= state >> 17;
  state ^= state << 5;
  return state;
}

/* Many numbers are short, or have many ones in front, or are 0. */
static uint64_t
any(int bytes)
{
  uint64_t n = (uint64_t)next() << 32 | next();
  int shift = (int)(next() % 80);

  n = shift < 64 ? n >> shift : 0;
  if (next() % 4 == 0)
    n = ~n;
  return bytes == 4 ? (uint32_t)n : n;
}

static uint64_t
product(uint64_t a, uint64_t b)
{
  uint64_t sum = 0;

  for (; b != 0; b >>= 1, a += a)
    if ((b & 1) != 0)
      sum += a;
  return sum;
}

static uint64_t
divide(uint64_t n, uint64_t d, uint64_t *rest)
{
  uint64_t quotient = 0;
  int bit, over;

  *rest = 0;
  for (bit = 0; bit < 64; bit++, n += n) {
    over = *rest >> 63 != 0;
    *rest += *rest + (n >> 63);
    quotient += quotient;
    if (over || *rest >= d) {
      *rest -= d;
      quotient++;
    }
  }
  return quotient;
}

static uint64_t size_of(int64_t n) { return n < 0 ? -(uint64_t)n : (uint64_t)n; }

static uint64_t
result(const struct function *function, uint64_t a, uint64_t b)
{
  uint64_t quotient, rest;

  if (function->kind == MULTIPLY)
    return product(a, b);
  if (function->is_signed && function->bytes == 4) {
    a = (uint64_t)(int64_t)(int32_t)(uint32_t)a;
    b = (uint64_t)(int64_t)(int32_t)(uint32_t)b;
  }
  if (!function->is_signed)
    quotient = divide(a, b, &rest);
  else {
    quotient = divide(size_of((int64_t)a), size_of((int64_t)b), &rest);
    if ((int64_t)(a ^ b) < 0)
      quotient = -quotient;
    if ((int64_t)a < 0)
      rest = -rest;
  }
  return function->kind == QUOTIENT ? quotient : rest;
}

/* One call. Returns the registers that it changed and may not, as bits; bit 0 is a wrong result. */
static uint32_t
try(const struct function *function)
{
  static uint32_t memory[64];
  uint64_t a = any(function->bytes), b = any(function->bytes), got;
  uint32_t wrong = 0;
  int i;

  if (b == 0 && (function->kind == QUOTIENT || function->kind == REST))
    b = 1;
  if (function->kind == SHIFT)
    b = next() % 64;
  if (function->kind == BITS && a == 0)
    a = 1;
  for (i = 1; i < 32; i++)
    before[i] = next();
  before[0] = (uint32_t)(uintptr_t)function->code;
  before[10] = (uint32_t)a;
  before[function->bytes == 4 ? 11 : 12] = (uint32_t)b;
  if (function->bytes == 8) {
    before[11] = (uint32_t)(a >> 32);
    before[13] = (uint32_t)(b >> 32);
  }
  if (function->kind == MOVE) {
    before[10] = (uint32_t)(uintptr_t)memory + next() % 64;
    before[11] = (uint32_t)(uintptr_t)memory + next() % 64 + (function->code == of_memmove ? 0 : 128);
    before[12] = next() % 64;
  }
  call();
  for (i = 1; i < 32; i++)
    if (after[i] != before[i])
      wrong |= (uint32_t)1 << i;
  wrong &= ~function->free;
  if (function->kind == MULTIPLY || function->kind == QUOTIENT || function->kind == REST) {
    got = function->bytes == 4 ? after[10] : (uint64_t)after[11] << 32 | after[10];
    a = result(function, a, b);
    if (got != (function->bytes == 4 ? (uint32_t)a : a))
      wrong |= 1;
  }
  return wrong;
}

int
main(void)
{
  static const char *const names[] = {
    "result", "ra", "sp", "gp", "tp", "t0", "t1", "t2", "s0", "s1", "a0", "a1", "a2", "a3", "a4", "a5",
    "a6", "a7", "s2", "s3", "s4", "s5", "s6", "s7", "s8", "s9", "s10", "s11", "t3", "t4", "t5", "t6"
  };
  uint32_t wrong, all = 0;
  size_t n;
  int i;

  for (n = 0; n < sizeof functions / sizeof functions[0]; n++) {
    wrong = 0;
    for (i = 0; i < CALLS; i++)
      wrong |= try(&functions[n]);
    printf("%s:%s", functions[n].name, wrong == 0 ? " right" : "");
    for (i = 0; i < 32; i++)
      if ((wrong >> i & 1) != 0)
        printf(" %s", names[i]);
    printf("\n");
    all |= wrong;
  }
  return all != 0;
}
