/*
 * The bounded buffer of every book on pthreads, ported: three producers put numbers into a buffer of four places, two consumers take them out, under one
 * mutex and two conditions. It is run with a quantum of 37 events and with one of 1,000, each twice. In which order the numbers pass depends on the
 * quantum and on nothing else, so both times it is the same.
 */
#include <stdio.h>
#include <string.h>
#include "threads.h"

enum { PLACES = 4, PRODUCERS = 3, CONSUMERS = 2, EACH = 20, ALL = PRODUCERS * EACH };

static struct mutex mutex;
static struct condition not_full, not_empty;
static int buffer[PLACES], count, next_in, next_out;

/* What was taken, in the order in which it was. */
static int taken, order[ALL], sums[CONSUMERS];

static uint32_t
produce(void *argument)
{
  int me = *(int *)argument, i;

  for (i = 0; i < EACH; i++) {
    mutex_lock(&mutex);
    while (count == PLACES)
      condition_wait(&not_full, &mutex);
    buffer[next_in] = me * EACH + i;
    next_in = next_in == PLACES - 1 ? 0 : next_in + 1;
    count++;
    condition_signal(&not_empty);
    mutex_unlock(&mutex);
  }
  return EACH;
}

static uint32_t
consume(void *argument)
{
  int me = *(int *)argument;
  uint32_t mine = 0;

  mutex_lock(&mutex);
  while (taken < ALL) {
    if (count == 0) {
      condition_wait(&not_empty, &mutex);
      continue;
    }
    order[taken++] = buffer[next_out];
    sums[me] += buffer[next_out];
    next_out = next_out == PLACES - 1 ? 0 : next_out + 1;
    count--;
    mine++;
    condition_signal(&not_full);
    mutex_unlock(&mutex);
    mutex_lock(&mutex);
  }
  condition_broadcast(&not_empty);
  mutex_unlock(&mutex);
  return mine;
}

/* Whether each number was taken once, those of each producer in their order. */
static int
in_order(void)
{
  int last[PRODUCERS] = { -1, EACH - 1, 2 * EACH - 1 }, i, of;

  for (i = 0; i < ALL; i++) {
    of = order[i] / EACH;
    if (order[i] != last[of] + 1)
      return 0;
    last[of]++;
  }
  return 1;
}

static void
run(uint32_t quantum)
{
  static int numbers[PRODUCERS] = { 0, 1, 2 };
  int threads[PRODUCERS + CONSUMERS], i;
  uint32_t put = 0, got = 0;

  taken = 0;
  memset(sums, 0, sizeof sums);
  for (i = 0; i < PRODUCERS; i++)
    threads[i] = thread_create(produce, &numbers[i]);
  for (i = 0; i < CONSUMERS; i++)
    threads[PRODUCERS + i] = thread_create(consume, &numbers[i]);
  if (threads_run(quantum) != 0)
    printf("some wait for ever\n");
  for (i = 0; i < PRODUCERS; i++)
    put += thread_join(threads[i]).value;
  for (i = 0; i < CONSUMERS; i++)
    got += thread_join(threads[PRODUCERS + i]).value;
  printf("quantum %u: %u put, %u taken, sum %d, each once and in order: %s\n", quantum, put, got, sums[0] + sums[1], in_order() ? "yes" : "no");
}

int
main(void)
{
  static int before[ALL];

  run(37);
  memcpy(before, order, sizeof order);
  run(37);
  printf("the same order twice: %s\n", memcmp(before, order, sizeof order) == 0 ? "yes" : "no");
  run(1000);
  memcpy(before, order, sizeof order);
  run(1000);
  printf("the same order twice: %s\n", memcmp(before, order, sizeof order) == 0 ? "yes" : "no");
  return 0;
}
