/*
 * What has to last where a program that is built --long goes on in a fresh child: registers, globals, the heap, memory of its own, the stack up to its
 * top, files, and where the input stands. It works longer than its fuel, and says what has come of it.
 */
#include <stdio.h>
#include <stdlib.h>
#include <string.h>
#include "det.h"

static unsigned global = 1;
static _Thread_local unsigned own = 2;

static unsigned
turn(unsigned n, unsigned times)
{
  for (; times > 0; times--) {
    n ^= n << 13;
    n ^= n >> 17;
    n ^= n << 5;
  }
  return n;
}

/* A frame in each page of the stack. */
static unsigned
deep(unsigned n, int levels)
{
  volatile unsigned frame[1000];
  unsigned below;

  frame[0] = n;
  frame[999] = turn(n, 400);
  below = levels > 0 ? deep(frame[999], levels - 1) : 0;
  return frame[0] + frame[999] + below;
}

static unsigned
sum_of(const unsigned *words, int count)
{
  unsigned all = 0;
  int i;

  for (i = 0; i < count; i++)
    all = all * 31 + words[i];
  return all;
}

static void
read_input(void)
{
  char line[80];
  int lines = 0;

  while (fgets(line, sizeof line, stdin) != NULL) {
    global = turn(global, 700);
    printf("%d: %s", ++lines, line);
  }
}

static void
use_a_file(void)
{
  char kept[16];
  uint32_t got;
  int i;

  det_file_new("sums", 4, 0);
  for (i = 0; i < 20; i++) {
    own = turn(own, 300);
    det_file_put("sums", 4, &own, sizeof own, 1);
  }
  det_file_get("sums", 4, kept, sizeof kept, 64, &got);
  printf("file: %u %08x\n", (unsigned)got, sum_of((unsigned *)(void *)kept, 4));
}

int
main(void)
{
  unsigned *heap = malloc(50000 * sizeof *heap), *mine = det_allocate_own(50000 * sizeof *mine), reading, i;

  for (i = 0; i < 50000; i++) {
    heap[i] = i * 7 + 1;
    mine[i] = heap[i] ^ 0x5555;
  }
  read_input();
  printf("stack: %08x\n", deep(5, 200));
  use_a_file();
  while (det_clock(&reading) == 0)
    printf("clock: %u\n", reading);
  while (det_random(&reading) == 0)
    printf("random: %u\n", reading);
  printf("sums: %08x %08x %08x %08x\n", sum_of(heap, 50000), sum_of(mine, 50000), global, own);
  return 77;
}
