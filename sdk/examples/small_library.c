/*
 * Arithmetic that RV32I has no instructions for, and the small C library. It prints what it prints on any machine: compare with the
 * same program for the host.
 */
#include <ctype.h>
#include <limits.h>
#include <stdint.h>
#include <stdio.h>
#include <stdlib.h>
#include <string.h>

/* Read by name, so that the compiler cannot work anything out in advance. */
static volatile int32_t words[] = { 0, -1, 7, -7, 1000003, INT32_MAX, INT32_MIN };
static volatile int64_t longs[] = { 0, -1, 10, -4294967297, 1234567890123456789, INT64_MIN };
enum { WORDS = sizeof words / sizeof words[0], LONGS = sizeof longs / sizeof longs[0] };

static uint32_t sum;

static void
add(uint64_t n)
{
  sum = (sum ^ (uint32_t)n ^ (uint32_t)(n >> 32)) * 16777619u + 1;
}

static void
arithmetic(void)
{
  int i, j;

  for (i = 0; i < WORDS; i++)
    for (j = 0; j < WORDS; j++) {
      int32_t a = words[i], b = words[j];
      add((uint32_t)a * (uint32_t)b);
      add((uint64_t)((int64_t)a * b));
      add((uint64_t)(uint32_t)a * (uint32_t)b);
      if (b != 0 && !(a == INT32_MIN && b == -1)) {
        add((uint32_t)(a / b));
        add((uint32_t)(a % b));
      }
      if (b != 0) {
        add((uint32_t)a / (uint32_t)b);
        add((uint32_t)a % (uint32_t)b);
      }
    }
  printf("words %08x\n", sum);
  for (i = 0; i < LONGS; i++) {
    int64_t a = longs[i];
    for (j = 0; j < LONGS; j++) {
      int64_t b = longs[j];
      add((uint64_t)a * (uint64_t)b);
      if (b != 0 && !(a == INT64_MIN && b == -1)) {
        add((uint64_t)(a / b));
        add((uint64_t)(a % b));
      }
      if (b != 0) {
        add((uint64_t)a / (uint64_t)b);
        add((uint64_t)a % (uint64_t)b);
      }
    }
    for (j = 0; j < 64; j++) {
      add((uint64_t)a << j);
      add((uint64_t)a >> j);
      add((uint64_t)(a >> j));
    }
    add((uint64_t)__builtin_popcountll((uint64_t)a) + (uint64_t)__builtin_parityll((uint64_t)a) + (uint64_t)__builtin_ffsll(a));
    if (a != 0)
      add((uint64_t)__builtin_ctzll((uint64_t)a) * 64 + (uint64_t)__builtin_clzll((uint64_t)a));
    add(__builtin_bswap64((uint64_t)a));
  }
  printf("longs %08x\n", sum);
}

static void
formats(void)
{
  const char *volatile word = "truncated";
  char text[12];

  printf("[%d] [%5d] [%-5d] [%05d] [%+d] [% d] [%.3d] [%8.3d]\n", 42, 42, 42, 42, 42, 42, 42, -42);
  printf("[%d] [%u] [%x] [%X] [%#x] [%o] [%#o]\n", INT_MIN, UINT_MAX, 0xBEEF, 0xBEEF, 0xBEEF, 8, 8);
  printf("[%lld] [%llu] [%llx] [%hhd] [%hd] [%zu]\n", LLONG_MIN, ULLONG_MAX, 0x123456789ABCDEFull, (signed char)-1, (short)1, sizeof(int));
  printf("[%c] [%3c] [%-3c] [%s] [%8s] [%-8s] [%.2s] [%*s] [%%]\n", 'a', 'b', 'c', "word", "word", "word", "word", 6, "far");
  printf("%d %s\n", snprintf(text, sizeof text, "%s and %d", word, 1), text);
}

static int
by_value(const void *a, const void *b)
{
  int x = *(const int *)a, y = *(const int *)b;

  return x < y ? -1 : x > y;
}

static void
strings(void)
{
  char text[64] = "one two", other[32], *end, *copy;
  unsigned char bytes[40];
  volatile size_t most = 5;
  int i;

  strcat(strcpy(other, "three"), " four");
  strncat(text, other, most);
  printf("%s, %s, %d %d\n", text, other, (int)strlen(text), (int)strspn(text, "eno"));
  printf("%s %s %s %d\n", strchr(text, 't'), strrchr(text, 't'), strstr(text, "wo"), (int)strcspn(text, " "));
  printf("%d %d %d %d\n", strcmp("a", "b") < 0, strcmp("b", "a") > 0, strcmp("a", "a"), strncmp("abc", "abd", 2));
  for (i = 0; i < 40; i++)
    bytes[i] = (unsigned char)i;
  memmove(bytes + 3, bytes, 30);
  memmove(bytes, bytes + 5, 30);
  memset(bytes + 35, 0xAA, 5);
  for (i = 0; i < 40; i++)
    add(bytes[i]);
  copy = strdup("copied");
  printf("%08x %d %s %d\n", sum, memcmp(bytes, bytes + 1, 9) != 0, copy, memchr(copy, 'p', 6) == copy + 2);
  free(copy);
  i = (int)strtol(" -0x1fz", &end, 0);
  printf("%d %s %d %d %u\n", i, end, atoi("  123 "), (int)strtol("-777", NULL, 8), (unsigned)strtoul("4294967295", NULL, 10));
  printf("%d%d%d%d %c%c\n", isdigit('5') != 0, isalpha('5') != 0, isspace('\t') != 0, ispunct('!') != 0, toupper('q'), tolower('Q'));
}

static void
memory(void)
{
  int *kept[20], i, j, wrong = 0, numbers[100], key = 61, *found;

  for (i = 0; i < 20; i++) {
    kept[i] = malloc((size_t)(i + 1) * 40);
    for (j = 0; j < (i + 1) * 10; j++)
      kept[i][j] = i;
  }
  for (i = 0; i < 20; i += 2)
    free(kept[i]);
  for (i = 1; i < 20; i += 2)
    kept[i] = realloc(kept[i], (size_t)(i + 1) * 80);
  for (i = 0; i < 20; i += 2) {
    kept[i] = calloc((size_t)i + 1, 40);
    for (j = 0; j < (i + 1) * 10; j++)
      wrong += kept[i][j] != 0;
  }
  for (i = 1; i < 20; i += 2)
    for (j = 0; j < (i + 1) * 10; j++)
      wrong += kept[i][j] != i;
  for (i = 0; i < 20; i++)
    free(kept[i]);

  for (i = 0; i < 100; i++)
    numbers[i] = i * 61 % 100;
  qsort(numbers, 100, sizeof numbers[0], by_value);
  for (i = 0; i < 100; i++)
    wrong += numbers[i] != i;
  found = bsearch(&key, numbers, 100, sizeof numbers[0], by_value);
  printf("%d wrong, found %d\n", wrong, found == NULL ? -1 : *found);
}

int
main(void)
{
  arithmetic();
  formats();
  strings();
  memory();
  return 0;
}
