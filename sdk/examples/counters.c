/*
 * Four threads add 100 times each to one counter: without a lock, with a lock by test and set, and with a mutex.
 *
 * Each thread works on a copy in its quantum, and all do the same instructions, so in each round all of them store the same number: what three of four
 * add is lost, and always is. A flag in memory does not help, since each sees its own copy of it. The mutex has an owner, which the scheduler gives it
 * between rounds, and loses nothing.
 */
#include <stdio.h>
#include "threads.h"

enum { COUNT = 4, EACH = 100, QUANTUM = 100 };

static volatile int counter, flag;
static struct mutex mutex;

static uint32_t
add(void *argument)
{
  int i;

  (void)argument;
  for (i = 0; i < EACH; i++)
    counter++;
  return 0;
}

static uint32_t
test_and_set(void *argument)
{
  int i;

  (void)argument;
  for (i = 0; i < EACH; i++) {
    while (flag)
      ;
    flag = 1;
    counter++;
    flag = 0;
  }
  return 0;
}

static uint32_t
lock_and_add(void *argument)
{
  int i;

  (void)argument;
  for (i = 0; i < EACH; i++) {
    mutex_lock(&mutex);
    counter++;
    mutex_unlock(&mutex);
  }
  return 0;
}

static void
run(const char *name, uint32_t (*function)(void *))
{
  int threads[COUNT], i;

  counter = 0;
  for (i = 0; i < COUNT; i++)
    threads[i] = thread_create(function, NULL);
  if (threads_run(QUANTUM) != 0)
    printf("some wait for ever\n");
  for (i = 0; i < COUNT; i++)
    thread_join(threads[i]);
  printf("%s: %d of %d\n", name, counter, COUNT * EACH);
}

int
main(void)
{
  run("no lock", add);
  run("test and set", test_and_set);
  run("mutex", lock_and_add);
  return 0;
}
