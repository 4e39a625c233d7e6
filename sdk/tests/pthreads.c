/*
 * A program for pthreads as they are: a queue of jobs, workers that allocate and that use stacks of 40,000 bytes, main that makes jobs and waits. Built
 * by the host's compiler it writes the same lines.
 */
#include <pthread.h>
#include <stdio.h>
#include <stdlib.h>
#include <string.h>

enum { JOBS = 37, WORKERS = 3, LAST = -1 };

static pthread_mutex_t mutex = PTHREAD_MUTEX_INITIALIZER;
static pthread_cond_t more = PTHREAD_COND_INITIALIZER, done = PTHREAD_COND_INITIALIZER;
static pthread_once_t once = PTHREAD_ONCE_INIT;
static pthread_key_t key;
static int queue[JOBS + WORKERS], made, taken, finished, begun;
static char *results[JOBS];

static void
begin(void)
{
  pthread_key_create(&key, NULL);
  begun++;
}

static int
next_job(void)
{
  int job;

  pthread_mutex_lock(&mutex);
  while (taken == made)
    pthread_cond_wait(&more, &mutex);
  job = queue[taken++];
  pthread_mutex_unlock(&mutex);
  return job;
}

static void
do_job(int job)
{
  char local[40000];

  memset(local, 'a' + job % 26, sizeof local);
  results[job] = malloc(100 + (size_t)job);
  memcpy(results[job], local, 99);
  results[job][job + 1] = 0;
  free(malloc(200000));
}

static void *
work(void *argument)
{
  int job, count = 0;

  pthread_once(&once, begin);
  pthread_setspecific(key, argument);
  while ((job = next_job()) != LAST) {
    do_job(job);
    pthread_mutex_lock(&mutex);
    count++;
    finished++;
    pthread_cond_signal(&done);
    pthread_mutex_unlock(&mutex);
  }
  if (pthread_getspecific(key) != argument)
    return NULL;
  pthread_exit((void *)(size_t)count);
}

static void
give(int job)
{
  pthread_mutex_lock(&mutex);
  queue[made++] = job;
  pthread_cond_broadcast(&more);
  pthread_mutex_unlock(&mutex);
}

int
main(void)
{
  pthread_t workers[WORKERS];
  void *value;
  int i, all = 0;

  for (i = 0; i < WORKERS; i++)
    if (pthread_create(&workers[i], NULL, work, &workers[i]) != 0)
      return 1;
  for (i = 0; i < JOBS; i++)
    give(i);
  pthread_mutex_lock(&mutex);
  while (finished < JOBS)
    pthread_cond_wait(&done, &mutex);
  pthread_mutex_unlock(&mutex);
  for (i = 0; i < WORKERS; i++)
    give(LAST);
  for (i = 0; i < WORKERS; i++) {
    pthread_join(workers[i], &value);
    all += (int)(size_t)value;
  }
  for (i = 0; i < JOBS; i += 9)
    printf("%d %s\n", i, results[i]);
  printf("%d jobs, begun %d\n", all, begun);
  return all;
}
