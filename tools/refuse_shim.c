/* Refuses memory: malloc, realloc, calloc and the like answer that there is none. tools/refuse_memory makes a library
   of it and preloads it.

     REFUSE_AT=N      refuses growth N of the program, counted from 0 over all threads
     REFUSE_ON=1      refuses all later ones, too
     REFUSE_COUNT=F   counts growths in the first eight bytes of the file F, which must have them
     REFUSE_PROBE=1   ends with status 97 at once

   For Linux with glibc. */
#define _GNU_SOURCE
#include <errno.h>
#include <fcntl.h>
#include <stdatomic.h>
#include <stdlib.h>
#include <sys/mman.h>
#include <unistd.h>

enum { PROBE_STATUS = 97 };

/* The allocator of glibc under its own names. */
extern void *__libc_malloc(size_t);
extern void *__libc_realloc(void *, size_t);
extern void *__libc_calloc(size_t, size_t);
extern void *__libc_memalign(size_t, size_t);

static atomic_long own;
static atomic_long *count = &own;
static long at = -1;
static int on, ready;

static void count_in(const char *name) {
    int file = name ? open(name, O_RDWR) : -1;
    if (file < 0) return;
    void *shared = mmap(NULL, sizeof *count, PROT_READ | PROT_WRITE, MAP_SHARED, file, 0);
    if (shared != MAP_FAILED) count = shared;
    close(file);
}

__attribute__((constructor)) static void begin(void) {
    if (getenv("REFUSE_PROBE")) _exit(PROBE_STATUS);
    const char *number = getenv("REFUSE_AT");
    if (number) at = strtol(number, NULL, 10);
    on = getenv("REFUSE_ON") != NULL;
    count_in(getenv("REFUSE_COUNT"));
    ready = 1;
}

/* Counts a growth; answers whether it is refused. */
static int refuses(void) {
    if (!ready) return 0;
    long number = atomic_fetch_add(count, 1);
    int refused = at >= 0 && (on ? number >= at : number == at);
    if (refused) errno = ENOMEM;
    return refused;
}

void *malloc(size_t size) { return refuses() ? NULL : __libc_malloc(size); }

void *realloc(void *old, size_t size) { return refuses() ? NULL : __libc_realloc(old, size); }

void *calloc(size_t items, size_t size) { return refuses() ? NULL : __libc_calloc(items, size); }

void *aligned_alloc(size_t alignment, size_t size) { return refuses() ? NULL : __libc_memalign(alignment, size); }

int posix_memalign(void **made, size_t alignment, size_t size) {
    if (refuses()) return ENOMEM;
    *made = __libc_memalign(alignment, size);
    return *made ? 0 : ENOMEM;
}
