/*
 * Threads that share one memory, for programs that were written for pthreads. docs/PROGRAMS.md says how such a program is ported, and
 * docs/KERNEL.md, "For programmers: threads in rounds of quanta", what a thread sees when.
 *
 * The root makes threads and calls threads_run. There they run in rounds: each for at most a quantum of events, on a copy of the memory as it
 * was when the round began; then what they wrote is put together. So a thread sees what others wrote from the next round on. Where two wrote one byte
 * in one round, the thread of the higher number decides: a variable that several threads write needs a mutex, here as anywhere.
 *
 * A thread that asks the scheduler for something stops, and goes on in a later round; while it waits it takes no events. It asks for a mutex of
 * another owner, and whenever it waits, signals to one that waits, yields, creates, joins, allocates or writes.
 */
#ifndef THREADS_H
#define THREADS_H

#include <stdint.h>
#include "det.h"

enum {
  THREADS = 64,            /* so many at one time: the children 0 to 63 of the root */
  THREAD_STACK = 16384,    /* bytes, and below them a page that no one may touch */
  THREAD_QUANTUM = 100000  /* events */
};

/* How many bytes the stack of a thread has that is made from now on. */
extern uint32_t thread_stack;

/* How many events a round has where the root waits. threads_run sets it. */
extern uint32_t thread_quantum;

/*
 * A mutex has an owner from its first lock on, also while nobody holds it: the owner locks and unlocks it without the scheduler. It passes to the
 * thread that has waited longest once its owner does not hold it. All zeros is a mutex without an owner.
 */
struct mutex {
  volatile uint8_t owner;            /* its number and 1; written by the scheduler alone */
  volatile uint8_t wanted;           /* some thread waits for it; written by the scheduler alone */
  volatile uint8_t held[THREADS + 1];  /* each byte is written by the thread of its number, the last by the root; the owner's counts */
};

/* All zeros is a condition for which nobody waits. */
struct condition {
  volatile uint32_t waiting;         /* how many threads wait; written by the scheduler alone */
};

/* ---- For the root ---- */

/*
 * Runs all threads until none can go on, each for so many events a round, one at least. Returns how many have not ended, which wait for what does not
 * come: 0, mostly.
 */
int threads_run(uint32_t quantum);

/* ---- For the root while no threads run, and for threads ---- */

/* A thread that begins in the function. Its number, 0 to 63; or -1 where there are as many as there may be, or no memory for its stack. */
int thread_create(uint32_t (*function)(void *), void *argument);

/*
 * How a thread has ended: the cause DET_RETURNED and what it returned, or the trap that stopped it. A thread waits for that; the root finds
 * DET_FRESH where it has not ended. Its number is free from then on.
 */
struct det_end thread_join(int thread);

/* The same, but the root waits for it, too. */
struct det_end thread_await(int thread);

/* ---- For threads, and for the root. Where the root waits, the threads run in rounds; where none can go on it stops as breakpoint ---- */

/* The number of a thread; 64 in the root. */
int thread_self(void);

/* Of a thread alone. */
void __attribute__((noreturn)) thread_exit(uint32_t value);

/* Ends this thread's part of the round: it goes on in the next one, with what all have written until now. The root lets the threads have a round. */
void thread_yield(void);

void mutex_lock(struct mutex *mutex);
void mutex_unlock(struct mutex *mutex);

/* Gives the mutex back and waits for a signal, both at once, and has the mutex again behind it. */
void condition_wait(struct condition *condition, struct mutex *mutex);

/* Wakes the thread that has waited longest, or all; nothing where none waits. */
void condition_signal(struct condition *condition);
void condition_broadcast(struct condition *condition);

/* Zeroed memory that all threads share, as det_allocate gives the root; NULL where there is none. (No thread calls det_allocate or malloc.) */
void *thread_allocate(uint32_t count);

/* Writes to the console, which only the root has. (No thread calls printf: snprintf, and then this.) */
void thread_write(const void *bytes, uint32_t count);

#endif
