/*
 * Two threads each add 1 to one counter. With pthreads this prints 2 or, now and then, 1. Here the second join stops the root with
 * the cause conflict and the counter's address, in every run: both threads have changed that byte.
 */
#include <stdio.h>
#include "det.h"

static uint32_t
add_one(void *counter)
{
  ++*(int *)counter;
  return 0;
}

int
main(void)
{
  int *counter = det_allocate(sizeof *counter);   /* the heap begins at 0x40000000 */

  det_thread_create(0, add_one, counter);
  det_thread_create(1, add_one, counter);
  det_thread_join(0);
  printf("the first thread is joined: %d\n", *counter);
  det_thread_join(1);
  printf("this line is never reached: %d\n", *counter);
  return 0;
}
