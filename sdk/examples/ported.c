/*
 * A program for pthreads, ported as a whole: its main is a thread, too. Beside it what pthreads has the same of: values, a barrier of a mutex and a
 * condition, threads that make threads, an end by thread_exit; and what is told here where a machine would hang or crash: threads that wait for
 * one another for ever, and one that was stopped by a trap.
 */
#include <stdio.h>
#include <string.h>
#include "threads.h"

enum { PARTS = 6 };

static struct mutex mutex, left, right;
static struct condition all_here, never;
static int here;
static uint32_t *parts;

static void
say(const char *text)
{
  thread_write(text, strlen(text));
}

/* No thread goes on before all have come. */
static void
barrier(void)
{
  mutex_lock(&mutex);
  if (++here == PARTS)
    condition_broadcast(&all_here);
  while (here < PARTS)
    condition_wait(&all_here, &mutex);
  mutex_unlock(&mutex);
}

/* Each writes its part, and behind the barrier adds up what all have written. */
static uint32_t
add_up(void *argument)
{
  uint32_t me = *(uint32_t *)argument, sum = 0;
  int i;

  parts[me] = (me + 1) * (me + 1);
  barrier();
  for (i = 0; i < PARTS; i++)
    sum += parts[i];
  if (me % 2 == 0)
    thread_exit(sum);
  return sum;
}

static uint32_t
wild(void *argument)
{
  return *(uint32_t *)argument;
}

/* The lowest byte of this array lies below the stack. */
static uint32_t
deep(void *argument)
{
  volatile char room[THREAD_STACK];

  room[*(int *)argument] = 1;
  return (uint32_t)room[*(int *)argument];
}

static uint32_t
set(void *argument)
{
  *(volatile int *)argument = 1;
  return (uint32_t)thread_self();
}

/* Two that take two mutexes in opposite orders. */
static uint32_t
left_first(void *argument)
{
  (void)argument;
  mutex_lock(&left);
  thread_yield();
  mutex_lock(&right);
  return 0;
}

static uint32_t
right_first(void *argument)
{
  (void)argument;
  mutex_lock(&right);
  thread_yield();
  mutex_lock(&left);
  return 0;
}

static uint32_t
program(void *argument)
{
  char line[64];
  uint32_t numbers[PARTS];             /* a local, which the threads read by their arguments */
  int threads[PARTS], i, child;
  volatile int seen = 0;
  struct det_end end;

  (void)argument;
  parts = thread_allocate(PARTS * sizeof *parts);
  for (i = 0; i < PARTS; i++) {
    numbers[i] = (uint32_t)i;
    threads[i] = thread_create(add_up, &numbers[i]);
  }
  for (i = 0; i < PARTS; i++) {
    end = thread_join(threads[i]);
    snprintf(line, sizeof line, "thread %d: %u\n", threads[i], end.value);
    say(line);
  }

  child = thread_create(set, (void *)(uintptr_t)&seen);
  while (!seen)                        /* what it stores is seen a round later */
    thread_yield();
  snprintf(line, sizeof line, "seen from thread %u\n", thread_join(child).value);
  say(line);

  end = thread_join(thread_create(wild, (void *)4));
  snprintf(line, sizeof line, "wild: cause %u, value %08x\n", end.cause, end.value);
  say(line);
  end = thread_join(thread_create(deep, &numbers[0]));
  snprintf(line, sizeof line, "deep: cause %u\n", end.cause);
  say(line);

  thread_create(left_first, NULL);
  thread_create(right_first, NULL);
  mutex_lock(&mutex);
  condition_wait(&never, &mutex);
  return 0;
}

int
main(void)
{
  int left_over;

  thread_create(program, NULL);
  left_over = threads_run(500);
  printf("%d wait for ever\n", left_over);
  return 0;
}
