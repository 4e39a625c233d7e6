/*
 * pthreads over threads.h: sdk/build -pthread. docs/PROGRAMS.md, "Programs for pthreads", says what a program may do.
 *
 * What main was stays the root: it goes on alone, and where it waits, joins or unlocks the threads run in rounds. So a run is the same on every machine.
 * Functions return 0, or the number of an error as pthreads have it.
 */
#ifndef PTHREAD_H
#define PTHREAD_H

#include <stddef.h>
#include "threads.h"

typedef int pthread_t;
typedef struct { size_t stack; } pthread_attr_t;
typedef struct mutex pthread_mutex_t;
typedef struct condition pthread_cond_t;
typedef int pthread_mutexattr_t, pthread_condattr_t, pthread_once_t, pthread_key_t;

#define PTHREAD_MUTEX_INITIALIZER { 0 }
#define PTHREAD_COND_INITIALIZER { 0 }
#define PTHREAD_ONCE_INIT 0
#define PTHREAD_CREATE_JOINABLE 0
#define PTHREAD_CREATE_DETACHED 1

/* Of the attributes the size of the stack counts, 262,144 bytes if none is said; the errors are EAGAIN, where there are 64 threads, or no memory is left. */
int pthread_create(pthread_t *thread, const pthread_attr_t *attributes, void *(*function)(void *), void *argument);

/* Where a trap has stopped the thread the program stops as breakpoint, and the console says which trap. */
int pthread_join(pthread_t thread, void **value);

void pthread_exit(void *value) __attribute__((noreturn));

static inline pthread_t pthread_self(void) { return thread_self(); }
static inline int pthread_equal(pthread_t a, pthread_t b) { return a == b; }
static inline int sched_yield(void) { thread_yield(); return 0; }

/* A detached thread keeps its number. */
static inline int pthread_detach(pthread_t thread) { (void)thread; return 0; }

static inline int pthread_attr_init(pthread_attr_t *attributes) { attributes->stack = 0; return 0; }
static inline int pthread_attr_destroy(pthread_attr_t *attributes) { (void)attributes; return 0; }
static inline int pthread_attr_setstacksize(pthread_attr_t *attributes, size_t count) { attributes->stack = count; return 0; }
static inline int pthread_attr_setdetachstate(pthread_attr_t *attributes, int state) { (void)attributes; (void)state; return 0; }

/* All mutexes are alike: none may be locked again by its owner. */
static inline int pthread_mutex_init(pthread_mutex_t *m, const pthread_mutexattr_t *a) { (void)a; *m = (struct mutex){ 0 }; return 0; }
static inline int pthread_mutex_destroy(pthread_mutex_t *mutex) { (void)mutex; return 0; }
static inline int pthread_mutex_lock(pthread_mutex_t *mutex) { mutex_lock(mutex); return 0; }
static inline int pthread_mutex_unlock(pthread_mutex_t *mutex) { mutex_unlock(mutex); return 0; }

static inline int pthread_cond_init(pthread_cond_t *c, const pthread_condattr_t *a) { (void)a; *c = (struct condition){ 0 }; return 0; }
static inline int pthread_cond_destroy(pthread_cond_t *condition) { (void)condition; return 0; }
static inline int pthread_cond_wait(pthread_cond_t *condition, pthread_mutex_t *mutex) { condition_wait(condition, mutex); return 0; }
static inline int pthread_cond_signal(pthread_cond_t *condition) { condition_signal(condition); return 0; }
static inline int pthread_cond_broadcast(pthread_cond_t *condition) { condition_broadcast(condition); return 0; }

int pthread_once(pthread_once_t *once, void (*function)(void));

/* Up to 32 keys. No function is called for what a thread leaves in one. */
int pthread_key_create(pthread_key_t *key, void (*function)(void *));
void *pthread_getspecific(pthread_key_t key);
int pthread_setspecific(pthread_key_t key, const void *value);

#endif
