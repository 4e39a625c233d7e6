/*
 * The scheduler of threads.h.
 *
 * A thread is a child of the root. Its memory below DET_SHARED_END comes by each QSTART and goes by each QCOMMIT; its stack lies there too, so a
 * pointer to a local is good in every thread. From DET_SHARED_END on it has memory of its own: its _Thread_local variables.
 *
 * How a thread asks: it writes a request into its row of the table and returns (Ret), which ends its part of the round. The commit brings the request;
 * the scheduler does what is asked, and then starts the thread with the limit 0 (Put), as it was started at first. So it waits for a quantum again,
 * and goes on behind its Ret. A thread that is not started is in no round, and takes no events.
 */
#include <string.h>
#include "threads.h"

enum request { NOTHING, END, YIELD, LOCK, WAIT, SIGNAL, BROADCAST, CREATE, JOIN, ALLOCATE, WRITE };

/* FREE: no thread has the number. LIVE: takes part in rounds. ENDED: returned or was stopped by a trap, and not joined yet. */
enum state { FREE, LIVE, LOCKING, WAITING, JOINING, ENDED };

/* The row of the root, which takes part in no round: it goes on between two. */
#define ROOT THREADS

/* A row has 64 bytes, so its number is no division. */
struct __attribute__((aligned(64))) thread {
  /* written by the thread */
  volatile enum request request;
  volatile uint32_t of, with;

  /* written by the scheduler, between rounds. The request becomes NOTHING when the thread goes on */
  uint32_t (*function)(void *);
  void *argument;
  char *stack;
  uint32_t room;             /* of the stack */
  volatile struct det_end answer;
  enum state state;
  uint32_t turn;             /* since when it waits */
};

uint32_t thread_stack = THREAD_STACK;
uint32_t thread_quantum = THREAD_QUANTUM;

static struct thread threads[THREADS + 1];
static int used;             /* the numbers below it are or were threads */
static uint32_t turns;
static _Thread_local struct thread *self;
static _Thread_local int me = ROOT;          /* the number of its row */

/* ---- A thread ---- */

/* Of the root: below. */
static int one_round(void);
static void root_waits(enum state state, uint32_t of, uint32_t with);
static void wake(struct condition *condition);

static void
ask(enum request request, uint32_t of, uint32_t with)
{
  self->of = of;
  self->with = with;
  self->request = request;
  det_call(DET_CALL_RET, 0, 0, 0, 0, 0, 0, 0);
}

void
thread_exit(uint32_t value)
{
  self->request = END;
  det_return(value);
}

static void
begin(struct thread *thread)
{
  det_console_forget();
  self = thread;
  me = (int)(thread - threads);
  thread_exit(thread->function(thread->argument));
}

int
thread_self(void)
{
  return me;
}

void
thread_yield(void)
{
  if (me != ROOT)
    ask(YIELD, 0, 0);
  else
    one_round();
}

/*
 * First the thread says that it holds the mutex, and then it looks whether it is the owner: its quantum may end between the two, and then the scheduler
 * takes no mutex away from an owner that says so.
 */
void
mutex_lock(struct mutex *mutex)
{
  if (me == ROOT) {
    root_waits(LOCKING, det_address(mutex), 0);
    return;
  }
  if (!mutex->held[me]) {
    mutex->held[me] = 1;
    if (mutex->owner == me + 1)
      return;
    mutex->held[me] = 0;
  }
  ask(LOCK, det_address(mutex), 0);
}

/*
 * A thread that goes on until its quantum ends might hold the mutex again by then, so it yields where another wants it. The root yields at each: a loop
 * of it that locks, looks and unlocks would go on for ever else.
 */
void
mutex_unlock(struct mutex *mutex)
{
  mutex->held[me] = 0;
  if (me == ROOT || mutex->wanted)
    thread_yield();
}

void
condition_wait(struct condition *condition, struct mutex *mutex)
{
  if (me != ROOT) {
    ask(WAIT, det_address(condition), det_address(mutex));
    return;
  }
  mutex->held[ROOT] = 0;
  condition->waiting++;
  root_waits(WAITING, det_address(condition), det_address(mutex));
}

void
condition_signal(struct condition *condition)
{
  if (condition->waiting == 0)
    return;
  if (me != ROOT)
    ask(SIGNAL, det_address(condition), 0);
  else
    wake(condition);
}

void
condition_broadcast(struct condition *condition)
{
  if (me != ROOT && condition->waiting > 0)
    ask(BROADCAST, det_address(condition), 0);
  while (me == ROOT && condition->waiting > 0)
    wake(condition);
}

void *
thread_allocate(uint32_t count)
{
  if (me == ROOT)
    return det_allocate(count);
  ask(ALLOCATE, count, 0);
  return (void *)(uintptr_t)self->answer.value;
}

void
thread_write(const void *bytes, uint32_t count)
{
  if (me == ROOT)
    det_write(bytes, count);
  else
    ask(WRITE, det_address(bytes), count);
}

/* ---- The scheduler ---- */

/* The _Thread_local variables, as det.ld places them. */
#define VARIABLES 0xC0400000u
#define VARIABLES_SIZE 0x00400000u

/* A stack for the thread, as large as thread_stack says, and a page below it that no one may touch. It stays with the number. */
static int
has_stack(struct thread *thread)
{
  uint32_t room = (thread_stack + DET_PAGE - 1) & -(uint32_t)DET_PAGE;

  if (thread->stack != NULL && thread->room >= room)
    return 1;
  thread->stack = det_allocate(DET_PAGE + room);
  if (thread->stack == NULL)
    return 0;
  thread->room = room;
  det_get(DET_PERM, DET_NOBODY, NULL, 0, det_address(thread->stack), DET_PAGE);
  return 1;
}

static int
make(uint32_t (*function)(void *), void *argument)
{
  struct det_registers block;
  struct thread *thread;
  int n;

  for (n = 0; n < THREADS && threads[n].state != FREE; n++)
    ;
  if (n == THREADS)
    return -1;
  thread = &threads[n];
  if (!has_stack(thread))
    return -1;
  thread->request = NOTHING;
  thread->function = function;
  thread->argument = argument;
  thread->state = LIVE;
  if (used <= n)
    used = n + 1;

  memset(&block, 0, sizeof block);
  block.pc = (uint32_t)(uintptr_t)begin;
  block.x[1] = det_address(thread->stack + DET_PAGE + thread->room);
  __asm__("mv %0, gp" : "=r"(block.x[2]));
  __asm__("mv %0, tp" : "=r"(block.x[3]));
  block.x[9] = det_address(thread);
  det_put(DET_REGS | DET_COPY | DET_START | DET_LIMIT, (uint32_t)n, &block, VARIABLES, VARIABLES, VARIABLES_SIZE, 0);
  return n;
}

/* What was asked is done: the thread waits for a quantum. */
static void
go_on(struct thread *thread)
{
  thread->request = NOTHING;
  thread->state = LIVE;
  if (thread != &threads[ROOT])
    det_put(DET_START | DET_LIMIT, (uint32_t)(thread - threads), NULL, 0, 0, 0, 0);
}

/* The thread that waits so since longest for this, or NULL. */
static struct thread *
first(enum state state, uint32_t of)
{
  struct thread *root = &threads[ROOT], *thread, *found = root->state == state && root->of == of ? root : NULL;

  for (thread = threads; thread < threads + used; thread++)
    if (thread->state == state && thread->of == of && (found == NULL || thread->turn < found->turn))
      found = thread;
  return found;
}

static void
wait_for(struct thread *thread, enum state state, uint32_t of)
{
  thread->state = state;
  thread->of = of;
  thread->turn = turns++;
}

/* A thread that was woken waits for its mutex next. */
static void
wake(struct condition *condition)
{
  struct thread *thread = first(WAITING, det_address(condition));

  if (thread != NULL) {
    condition->waiting--;
    wait_for(thread, LOCKING, thread->with);
  }
}

static struct det_end
join(int thread)
{
  threads[thread].state = FREE;
  return det_wait((uint32_t)thread);
}

static void
serve(struct thread *thread)
{
  struct condition *condition = (struct condition *)(uintptr_t)thread->of;

  switch (thread->request) {
  case END:
    thread->state = ENDED;
    return;
  case LOCK:
    wait_for(thread, LOCKING, thread->of);
    return;
  case WAIT:
    ((struct mutex *)(uintptr_t)thread->with)->held[thread - threads] = 0;
    condition->waiting++;
    wait_for(thread, WAITING, thread->of);
    return;
  case JOIN:
    wait_for(thread, JOINING, thread->of);
    return;
  case SIGNAL:
    wake(condition);
    break;
  case BROADCAST:
    while (condition->waiting > 0)
      wake(condition);
    break;
  case CREATE:
    thread->answer.value = (uint32_t)make((uint32_t (*)(void *))(uintptr_t)thread->of, (void *)(uintptr_t)thread->with);
    break;
  case ALLOCATE:
    thread->answer.value = det_address(det_allocate(thread->of));
    break;
  case WRITE:
    det_write((const void *)(uintptr_t)thread->of, thread->with);
    break;
  default:
    break;
  }
  go_on(thread);
}

/* Some thread waits for the mutex. */
static void
grant_mutex(struct mutex *mutex)
{
  struct thread *thread;

  mutex->wanted = 1;
  if (mutex->owner != 0 && mutex->held[mutex->owner - 1])
    return;
  thread = first(LOCKING, det_address(mutex));
  mutex->owner = (uint8_t)(thread - threads + 1);
  mutex->held[thread - threads] = 1;
  go_on(thread);
  mutex->wanted = first(LOCKING, det_address(mutex)) != NULL;
}

static void
grant_to(struct thread *thread)
{
  if (thread->state == JOINING && threads[thread->of].state == ENDED) {
    thread->answer = join((int)thread->of);
    go_on(thread);
  }
  if (thread->state == LOCKING)
    grant_mutex((struct mutex *)(uintptr_t)thread->of);
}

/* Lets each thread go on whose mutex is free, or whose other thread has ended; those that have waited longest first. */
static void
grant(void)
{
  int n;

  for (n = 0; n < used; n++)
    if (threads[n].state == LOCKING || threads[n].state == JOINING)
      grant_to(&threads[n]);
  if (threads[ROOT].state == LOCKING || threads[ROOT].state == JOINING)
    grant_to(&threads[ROOT]);
}

/* How many threads take part in the next round. */
static uint32_t
count_live(void)
{
  struct thread *thread;
  uint32_t live = 0;

  for (thread = threads; thread < threads + used; thread++)
    live += thread->state == LIVE;
  return live;
}

/* Of the threads in a round this one does not wait for a quantum: it has asked, or was stopped. Whether that is so. */
static int
has_stopped(struct thread *thread)
{
  struct det_registers block;

  det_get(DET_REGS, (uint32_t)(thread - threads), &block, 0, 0, 0);
  if (block.cause == DET_LIMITED)
    return 0;                  /* also one whose quantum has ended between its request and its Ret */
  if (block.cause == DET_RETURNED && thread->request != NOTHING)
    serve(thread);
  else
    thread->state = ENDED;
  return 1;
}

/* Returns 0 where no thread can go on. */
static int
one_round(void)
{
  struct thread *thread;
  uint32_t live = count_live(), waiting;

  if (live == 0)
    return 0;
  det_quantum_start(0, (uint32_t)used, thread_quantum);
  waiting = det_quantum_commit(0, (uint32_t)used);
  /* Where not all wait for a quantum some have asked, and any of the others was stopped by a trap, or has no fuel. */
  for (thread = threads; thread < threads + used && waiting < live; thread++)
    if (thread->state == LIVE)
      live -= (uint32_t)has_stopped(thread);
  grant();
  return 1;
}

int
threads_run(uint32_t quantum)
{
  struct thread *thread;
  int left = 0;

  thread_quantum = quantum;
  while (one_round())
    ;
  for (thread = threads; thread < threads + used; thread++)
    left += thread->state != FREE && thread->state != ENDED;
  return left;
}

/* The root waits in one of these states, for what threads do in rounds; where none can go on that never comes, so it stops as breakpoint. */
static void
root_waits(enum state state, uint32_t of, uint32_t with)
{
  static const char deadlock[] = "threads: a deadlock\n";

  threads[ROOT].with = with;
  wait_for(&threads[ROOT], state, of);
  grant();
  while (threads[ROOT].state != LIVE)
    if (!one_round()) {
      det_write(deadlock, sizeof deadlock - 1);
      __asm__ volatile("ebreak");
    }
}

/* ---- Either ---- */

int
thread_create(uint32_t (*function)(void *), void *argument)
{
  if (me == ROOT)
    return make(function, argument);
  ask(CREATE, (uint32_t)(uintptr_t)function, det_address(argument));
  return (int)self->answer.value;
}

static struct det_end
answer_of(struct thread *thread)
{
  return (struct det_end){ thread->answer.cause, thread->answer.value, 0 };
}

struct det_end
thread_await(int thread)
{
  if (me != ROOT)
    ask(JOIN, (uint32_t)thread, 0);
  else
    root_waits(JOINING, (uint32_t)thread, 0);
  return answer_of(&threads[me]);
}

struct det_end
thread_join(int thread)
{
  if (me != ROOT)
    return thread_await(thread);
  return threads[thread].state == ENDED ? join(thread) : (struct det_end){ DET_FRESH, 0, 0 };
}
