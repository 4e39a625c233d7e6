/*
 * A sieve in four threads: each strikes the multiples of its own numbers out of one table. Some places are struck by several threads,
 * all of which write 1 there. That is no conflict where the threads are joined with Agree.
 */
#include <stdio.h>
#include "det.h"

enum { END = 400, THREADS = 4 };

static char struck[END];

static uint32_t
strike(void *argument)
{
  int number, multiple;

  for (number = 2 + *(int *)argument; number * number < END; number += THREADS)
    for (multiple = number * number; multiple < END; multiple += number)
      struck[multiple] = 1;
  return 0;
}

int
main(void)
{
  int i, number, left = 0, last = 0;

  for (i = 0; i < THREADS; i++)
    det_thread_create((uint32_t)i, strike, &i);
  for (i = 0; i < THREADS; i++)
    if (det_thread_join_agree((uint32_t)i).cause != DET_RETURNED)
      return 1;
  for (number = 2; number < END; number++)
    if (!struck[number]) {
      left++;
      last = number;
    }
  printf("%d numbers below %d are prime, the last one is %d\n", left, END, last);
  return 0;
}
