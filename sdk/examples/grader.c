/*
 * Runs three answers to an exercise, each in a space of its own, for at most 20,000 instructions: one is right, one goes on for ever,
 * one reads what it may not. None can harm the grader, and the marks are the same on every machine.
 *
 * det_put copies the grader's memory to the child, gives it registers, and starts it with a limit; det_get reads its registers, and
 * waits until it has stopped.
 */
#include <stdio.h>
#include <string.h>
#include "det.h"

enum { LIMIT = 20000 };

/* The exercise: the sum of the numbers from 1 to n. Answers return by det_return, since nobody has called them. */
static void
right(int n)
{
  int i, sum = 0;

  for (i = 1; i <= n; i++)
    sum += i;
  det_return((uint32_t)sum);
}

static void
endless(int n)
{
  volatile int i = n, sum = 0;

  while (i > 0)
    sum += i;
  det_return((uint32_t)sum);
}

static void
wild(int n)
{
  volatile uint32_t *sums = (volatile uint32_t *)0x80000000u;

  det_return(sums[n]);
}

static void
grade(const char *name, void (*answer)(int), uint32_t child)
{
  struct det_registers start, end;

  /* All of a child's memory is a copy of ours: code, data, and a stack, which it begins at the top. */
  memset(&start, 0, sizeof start);
  start.pc = (uint32_t)(uintptr_t)answer;
  start.x[1] = 0xFFFFFFF0;              /* sp */
  start.x[9] = 100;                     /* a0: the argument */
  __asm__("mv %0, gp" : "=r"(start.x[2]));
  __asm__("mv %0, tp" : "=r"(start.x[3]));
  det_put(DET_REGS | DET_COPY, child, &start, 0, 0, 0xFFFFF000, 0);
  det_put(DET_COPY | DET_START | DET_LIMIT, child, NULL, 0xFFFFF000, 0xFFFFF000, DET_PAGE, LIMIT);

  det_get(DET_REGS, child, &end, 0, 0, 0);
  if (end.cause == DET_RETURNED)
    printf("%s: %s\n", name, end.value == 5050 ? "right" : "wrong");
  else if (end.cause == DET_LIMITED)
    printf("%s: not done after %d instructions\n", name, LIMIT);
  else
    printf("%s: stopped by cause %u, value %08x\n", name, end.cause, end.value);
}

int
main(void)
{
  grade("right", right, 0);
  grade("endless", endless, 1);
  grade("wild", wild, 2);
  return 0;
}
