/*
 * What pthread.h needs beyond threads.h: threads that begin in a function of pthreads, keys, and a heap that one thread uses at a time. sdk/build
 * -pthread links it, and has calls of malloc and the like go to the functions __wrap_malloc and so on.
 */
#include <stdlib.h>
#include <string.h>
#include "include/pthread.h"

enum { KEYS = 32, STACK = 262144 };

/* The numbers of ESRCH and EAGAIN: the small library has no errno.h. */
enum { NO_SUCH_THREAD = 3, NO_MORE = 11 };

struct start {
  void *(*function)(void *);
  void *argument;
};

/* ---- Threads ---- */

static struct start starts[THREADS];
static struct mutex starting;

static uint32_t
begin(void *argument)
{
  struct start *start = argument, mine = *start;

  start->function = NULL;
  return (uint32_t)(uintptr_t)mine.function(mine.argument);
}

/* A place for what a thread begins with, which is free again once the thread has begun; as many as there may be threads. */
static struct start *
free_start(void)
{
  int n;

  for (n = 0; n < THREADS - 1 && starts[n].function != NULL; n++)
    ;
  return &starts[n];
}

int
pthread_create(pthread_t *thread, const pthread_attr_t *attributes, void *(*function)(void *), void *argument)
{
  struct start *start;

  mutex_lock(&starting);
  start = free_start();
  *start = (struct start){ function, argument };
  thread_stack = attributes != NULL && attributes->stack > STACK ? attributes->stack : STACK;
  *thread = thread_create(begin, start);
  if (*thread < 0)
    start->function = NULL;
  mutex_unlock(&starting);
  return *thread < 0 ? NO_MORE : 0;
}

static void
put_number(char *to, uint32_t n)
{
  int at;

  for (at = 7; at >= 0; at--, n >>= 4)
    to[at] = "0123456789abcdef"[n & 15];
}

/* A trap of a thread is the program's. */
static void __attribute__((noreturn))
stop_as(struct det_end end)
{
  char line[] = "pthread: a thread has stopped, cause ........ value ........\n";

  put_number(strstr(line, "cause ") + 6, end.cause);
  put_number(strstr(line, "value ") + 6, end.value);
  thread_write(line, sizeof line - 1);
  for (;;)
    __asm__ volatile("ebreak");
}

int
pthread_join(pthread_t thread, void **value)
{
  struct det_end end;

  if (thread < 0 || thread >= THREADS)
    return NO_SUCH_THREAD;
  end = thread_await(thread);
  if (end.cause != DET_RETURNED)
    stop_as(end);
  if (value != NULL)
    *value = (void *)(uintptr_t)end.value;
  return 0;
}

/* Where main does so the threads go on, and the program returns 0 once none can. */
void
pthread_exit(void *value)
{
  if (thread_self() < THREADS)
    thread_exit((uint32_t)(uintptr_t)value);
  threads_run(thread_quantum);
  exit(0);
}

/* What the kit's library asks of a program with threads (weak there): memory and the console come by the root. */

int
det_in_thread(void)
{
  return thread_self() < THREADS;
}

void *
det_thread_allocate(uint32_t count)
{
  return thread_allocate(count);
}

void
det_thread_write(const void *bytes, uint32_t count)
{
  thread_write(bytes, count);
}

/* ---- Once, and keys ---- */

int
pthread_once(pthread_once_t *once, void (*function)(void))
{
  static struct mutex mutex;

  mutex_lock(&mutex);
  if (*once == 0)
    function();
  *once = 1;
  mutex_unlock(&mutex);
  return 0;
}

static int keys;
static _Thread_local const void *values[KEYS];

int
pthread_key_create(pthread_key_t *key, void (*function)(void *))
{
  (void)function;
  if (keys == KEYS)
    return NO_MORE;
  *key = keys++;
  return 0;
}

void *
pthread_getspecific(pthread_key_t key)
{
  return (void *)(uintptr_t)values[key];
}

int
pthread_setspecific(pthread_key_t key, const void *value)
{
  values[key] = value;
  return 0;
}

/* ---- The heap ---- */

static struct mutex heap;

void *__real_malloc(size_t count);
void *__real_calloc(size_t items, size_t size);
void *__real_realloc(void *old, size_t count);
void __real_free(void *old);

/* Functions of the heap call one another, so whoever holds it may lock it again. */
static _Thread_local int depth;

static void
lock_heap(void)
{
  if (depth++ == 0)
    mutex_lock(&heap);
}

static void
unlock_heap(void)
{
  if (--depth == 0)
    mutex_unlock(&heap);
}

void *
__wrap_malloc(size_t count)
{
  void *at;

  lock_heap();
  at = __real_malloc(count);
  unlock_heap();
  return at;
}

void *
__wrap_calloc(size_t items, size_t size)
{
  void *at;

  lock_heap();
  at = __real_calloc(items, size);
  unlock_heap();
  return at;
}

void *
__wrap_realloc(void *old, size_t count)
{
  void *at;

  lock_heap();
  at = __real_realloc(old, count);
  unlock_heap();
  return at;
}

void
__wrap_free(void *old)
{
  lock_heap();
  __real_free(old);
  unlock_heap();
}
