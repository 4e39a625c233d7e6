/* Disturbs a program at its calls of libc, as a busy host may at any time. tools/stress makes a library of it and
   preloads it.

   Calls may do all that the shim does: a call may take long, a wait on a futex may end for no reason, a signal may come
   at any instruction, a read or a write may answer EINTR or take fewer bytes. A right program writes the same bytes.

   The environment says what the shim does; it does nothing else.

     STRESS_SEED=N        a thread's choices follow from this number and the number of the thread
     STRESS_NAP_US=N      the longest nap, in microseconds (default 100)
     STRESS_CALLS=1       naps before and after calls
     STRESS_PLACES=A,..   naps where functions of the program begin: their addresses as nm prints them
     STRESS_WAKES=1       some waits on a futex end at once: woken, interrupted, or as if the word had changed
     STRESS_SIGNAL_US=N   each thread gets signals, 0 to 2 N microseconds apart, whose handler naps
     STRESS_RESTART=1     these signals do not interrupt system calls
     STRESS_INTERRUPTS=1  some reads and writes answer EINTR
     STRESS_SHORTS=1      some reads and writes take fewer bytes
     STRESS_PROBE=1       prints at how many places it would nap, and ends with status 97

   For x86-64 Linux with glibc. */
#define _GNU_SOURCE
#include <dlfcn.h>
#include <errno.h>
#include <fcntl.h>
#include <link.h>
#include <linux/futex.h>
#include <pthread.h>
#include <sched.h>
#include <signal.h>
#include <stdarg.h>
#include <stdint.h>
#include <stdio.h>
#include <stdlib.h>
#include <string.h>
#include <sys/mman.h>
#include <sys/syscall.h>
#include <time.h>
#include <ucontext.h>
#include <unistd.h>

enum {
    /* A call or a place naps once in NAP_ONE_IN times, and yields as often. Naps and signals of a thread become rarer
       with each RARER_AFTER of them, so that a long program ends in good time. The calls of the allocator are so frequent
       that the shim disturbs only one in HEAP_ONE_IN. */
    NAP_ONE_IN = 4,
    RARER_AFTER = 64,
    HEAP_ONE_IN = 16,
    /* The longest of each nap is that of all, halved 0 to NAP_SCALES - 1 times. */
    NAP_SCALES = 8,
    WAKE_ONE_IN = 3,
    IO_ONE_IN = 2,
    PLACE_ROOM = 64,
    PROBE_STATUS = 97,
    SIGNAL = SIGUSR2,
};

/* The allocator of glibc under its own names. */
extern void *__libc_malloc(size_t);
extern void *__libc_realloc(void *, size_t);
extern void __libc_free(void *);

/* What the environment says. Before the constructor nothing is done. */
static uint64_t seed;
static unsigned long nap_us = 100, signal_us;
static int calls, wakes, restart, interrupts, shorts;

/* libc's own functions, which the ones below go before. */
static long (*real_syscall)(long, ...);
static ssize_t (*real_read)(int, void *, size_t);
static ssize_t (*real_write)(int, const void *, size_t);
static int (*real_open)(const char *, int, ...);
static int (*real_close)(int);
static int (*real_yield)(void);
static int (*real_create)(pthread_t *, const pthread_attr_t *, void *(*)(void *), void *);
static int (*real_join)(pthread_t, void **);

/* ---- Choices ---- */

static __thread uint64_t stream;
static uint64_t threads;

/* The next number of this thread's (splitmix64). */
static uint64_t draw(void) {
    uint64_t x = stream += 0x9E3779B97F4A7C15u;
    x = (x ^ (x >> 30)) * 0xBF58476D1CE4E5B9u;
    x = (x ^ (x >> 27)) * 0x94D049BB133111EBu;
    return x ^ (x >> 31);
}

static int one_in(unsigned n) { return draw() % n == 0; }

/* Each thread has a stream of its own: its number is that of its creation. */
static void begin_stream(uint64_t number) { stream = (seed << 16) ^ (number * 0xD1B54A32D192ED03u); }

/* ---- Naps ---- */

/* Sleeps: in most naps much shorter than in the longest, so that naps of each scale come. */
static void sleep_some(void) {
    uint64_t longest = (nap_us * 1000) >> (draw() % NAP_SCALES);
    uint64_t ns = draw() % (longest + 1);
    struct timespec t = {.tv_sec = ns / 1000000000, .tv_nsec = ns % 1000000000};
    nanosleep(&t, NULL);
}

/* How often this thread might have had a nap, and a signal. */
static __thread unsigned chances, signals;

/* A nap, a yield or nothing, by chance. It keeps errno. */
static void nap(void) {
    int kept = errno;
    unsigned often = NAP_ONE_IN + chances++ / RARER_AFTER;
    if (one_in(often)) sleep_some();
    else if (one_in(often)) real_yield();
    errno = kept;
}

static void nap_at_call(void) {
    if (calls) nap();
}

static void nap_at_heap(void) {
    if (calls && one_in(HEAP_ONE_IN)) nap();
}

/* ---- Signals: a timer for each thread ---- */

static __thread int timer;

/* The timer goes off once more, after a time by chance. */
static void arm(void) {
    uint64_t ns = 1 + draw() % (2000 * signal_us * (1 + signals++ / RARER_AFTER));
    struct itimerspec t = {.it_value = {.tv_sec = ns / 1000000000, .tv_nsec = ns % 1000000000}};
    real_syscall(SYS_timer_settime, timer, 0, &t, NULL);
}

static void on_signal(int number) {
    int kept = errno;
    (void)number;
    if (one_in(2)) sleep_some();
    else real_yield();
    arm();
    errno = kept;
}

static void begin_signals(void) {
    if (!signal_us) return;
    struct sigevent e;
    memset(&e, 0, sizeof e);
    e.sigev_notify = SIGEV_THREAD_ID;
    e.sigev_signo = SIGNAL;
    e._sigev_un._tid = real_syscall(SYS_gettid);
    if (real_syscall(SYS_timer_create, CLOCK_MONOTONIC, &e, &timer) == 0) arm();
}

static void end_signals(void) {
    if (signal_us) real_syscall(SYS_timer_delete, timer);
}

/* ---- Places: a trap takes the place of the push that a function begins with; its handler naps, and pushes ---- */

struct place {
    uint8_t *at;
    int pushed;
    int length;
};

static struct place places[PLACE_ROOM];
static int place_count;

enum { PUSH = 0x50, REX_B = 0x41, TRAP = 0xcc };

/* The registers in the order of their numbers in instructions. */
static const int REGISTERS[] = {REG_RAX, REG_RCX, REG_RDX, REG_RBX, REG_RSP, REG_RBP, REG_RSI, REG_RDI,
                                REG_R8,  REG_R9,  REG_R10, REG_R11, REG_R12, REG_R13, REG_R14, REG_R15};

static void on_trap(int number, siginfo_t *info, void *context) {
    greg_t *registers = ((ucontext_t *)context)->uc_mcontext.gregs;
    uint8_t *at = (uint8_t *)registers[REG_RIP] - 1;
    (void)info;
    for (int i = 0; i < place_count; i++) {
        if (places[i].at != at) continue;
        nap();
        greg_t value = registers[places[i].pushed];
        registers[REG_RSP] -= sizeof value;
        memcpy((void *)registers[REG_RSP], &value, sizeof value);
        registers[REG_RIP] += places[i].length - 1;
        return;
    }
    /* A trap of the program's own. */
    signal(number, SIG_DFL);
    raise(number);
}

/* Puts a trap in the place of a push; answers whether there was one. */
static int add_place(uint8_t *at) {
    int wide = at[0] == REX_B;
    uint8_t *code = at + wide;
    size_t page = sysconf(_SC_PAGESIZE);
    uint8_t *from = (uint8_t *)((uintptr_t)at & ~(page - 1));
    if (place_count == PLACE_ROOM || (*code & ~7) != PUSH) return 0;
    if (mprotect(from, page, PROT_READ | PROT_WRITE | PROT_EXEC) != 0) return 0;
    places[place_count++] = (struct place){at, REGISTERS[(*code & 7) + 8 * wide], 1 + wide};
    *at = TRAP;
    mprotect(from, page, PROT_READ | PROT_EXEC);
    return 1;
}

/* The first object is the program itself. */
static int program_base(struct dl_phdr_info *info, size_t size, void *base) {
    (void)size;
    *(uintptr_t *)base = info->dlpi_addr;
    return 1;
}

static void add_places(const char *list) {
    uintptr_t base = 0;
    dl_iterate_phdr(program_base, &base);
    while (list && *list) {
        char *end;
        uintptr_t address = strtoul(list, &end, 16);
        if (end == list) return;
        add_place((uint8_t *)(base + address));
        list = *end == ',' ? end + 1 : end;
    }
}

/* ---- The beginning ---- */

static unsigned long number_of(const char *name, unsigned long otherwise) {
    const char *value = getenv(name);
    return value ? strtoul(value, NULL, 10) : otherwise;
}

static void handle(int number, void (*plain)(int), void (*full)(int, siginfo_t *, void *), int flags) {
    struct sigaction action;
    memset(&action, 0, sizeof action);
    action.sa_flags = flags;
    if (full) action.sa_sigaction = full;
    else action.sa_handler = plain;
    sigaction(number, &action, NULL);
}

__attribute__((constructor)) static void begin(void) {
    *(void **)&real_syscall = dlsym(RTLD_NEXT, "syscall");
    *(void **)&real_read = dlsym(RTLD_NEXT, "read");
    *(void **)&real_write = dlsym(RTLD_NEXT, "write");
    *(void **)&real_open = dlsym(RTLD_NEXT, "open");
    *(void **)&real_close = dlsym(RTLD_NEXT, "close");
    *(void **)&real_yield = dlsym(RTLD_NEXT, "sched_yield");
    *(void **)&real_create = dlsym(RTLD_NEXT, "pthread_create");
    *(void **)&real_join = dlsym(RTLD_NEXT, "pthread_join");
    seed = number_of("STRESS_SEED", 0);
    nap_us = number_of("STRESS_NAP_US", nap_us);
    restart = number_of("STRESS_RESTART", 0);
    add_places(getenv("STRESS_PLACES"));
    if (number_of("STRESS_PROBE", 0)) {
        printf("%d\n", place_count);
        fflush(stdout);
        _exit(PROBE_STATUS);
    }
    begin_stream(threads++);
    if (place_count) handle(SIGTRAP, NULL, on_trap, SA_SIGINFO);
    signal_us = number_of("STRESS_SIGNAL_US", 0);
    if (signal_us) handle(SIGNAL, on_signal, NULL, restart ? SA_RESTART : 0);
    begin_signals();
    wakes = number_of("STRESS_WAKES", 0);
    interrupts = number_of("STRESS_INTERRUPTS", 0);
    shorts = number_of("STRESS_SHORTS", 0);
    calls = number_of("STRESS_CALLS", 0);
}

/* ---- The calls ---- */

/* Whether a call is a wait on a futex. */
static int waits(long number, long operation) {
    int command = operation & FUTEX_CMD_MASK;
    return number == SYS_futex && (command == FUTEX_WAIT || command == FUTEX_WAIT_BITSET);
}

/* What a wait answers that ends at once. */
static long end_at_once(void) {
    static const int causes[] = {0, EINTR, EAGAIN};
    int cause = causes[draw() % (sizeof causes / sizeof *causes)];
    if (cause == 0) return 0;
    errno = cause;
    return -1;
}

long syscall(long number, ...) {
    va_list rest;
    va_start(rest, number);
    long a = va_arg(rest, long), b = va_arg(rest, long), c = va_arg(rest, long);
    long d = va_arg(rest, long), e = va_arg(rest, long), f = va_arg(rest, long);
    va_end(rest);
    nap_at_call();
    if (wakes && waits(number, b) && one_in(WAKE_ONE_IN)) return end_at_once();
    long answer = real_syscall(number, a, b, c, d, e, f);
    nap_at_call();
    return answer;
}

void *malloc(size_t size) {
    nap_at_heap();
    return __libc_malloc(size);
}

void *realloc(void *old, size_t size) {
    nap_at_heap();
    return __libc_realloc(old, size);
}

void free(void *old) {
    nap_at_heap();
    __libc_free(old);
}

int sched_yield(void) {
    nap_at_call();
    return real_yield();
}

/* Whether a read or a write is answered with EINTR. */
static int is_interrupted(void) {
    if (!interrupts || !one_in(IO_ONE_IN)) return 0;
    errno = EINTR;
    return 1;
}

/* How many bytes a read or a write takes. */
static size_t part_of(size_t size) { return shorts && size > 1 && one_in(IO_ONE_IN) ? 1 + draw() % (size - 1) : size; }

ssize_t read(int file, void *bytes, size_t size) {
    nap_at_call();
    if (is_interrupted()) return -1;
    return real_read(file, bytes, part_of(size));
}

ssize_t write(int file, const void *bytes, size_t size) {
    nap_at_call();
    if (is_interrupted()) return -1;
    return real_write(file, bytes, part_of(size));
}

int open(const char *name, int flags, ...) {
    va_list rest;
    va_start(rest, flags);
    mode_t mode = va_arg(rest, int);
    va_end(rest);
    nap_at_call();
    return real_open(name, flags, mode);
}

int close(int file) {
    nap_at_call();
    return real_close(file);
}

/* What a new thread does, and its number. */
struct start {
    void *(*function)(void *);
    void *argument;
    uint64_t number;
};

static void *start_thread(void *about) {
    struct start start = *(struct start *)about;
    __libc_free(about);
    begin_stream(start.number);
    begin_signals();
    nap_at_call();
    void *answer = start.function(start.argument);
    nap_at_call();
    end_signals();
    return answer;
}

int pthread_create(pthread_t *thread, const pthread_attr_t *attributes, void *(*function)(void *), void *argument) {
    struct start *start = __libc_malloc(sizeof *start);
    if (!start) return EAGAIN;
    *start = (struct start){function, argument, __atomic_fetch_add(&threads, 1, __ATOMIC_RELAXED)};
    nap_at_call();
    int fault = real_create(thread, attributes, start_thread, start);
    if (fault) __libc_free(start);
    nap_at_call();
    return fault;
}

int pthread_join(pthread_t thread, void **answer) {
    nap_at_call();
    return real_join(thread, answer);
}
