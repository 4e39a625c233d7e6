/* Memory, numbers, sorting, and how a program ends. */
#ifndef STDLIB_H
#define STDLIB_H

#include <stddef.h>

#define EXIT_SUCCESS 0
#define EXIT_FAILURE 1

/* From the heap that joins merge: see det_allocate in det.h. */
void *malloc(size_t count);
void *calloc(size_t items, size_t size);
void *realloc(void *old, size_t count);
void free(void *old);

/* The functions of atexit run, up to 32, the last one first; then the space returns the value. */
int atexit(void (*function)(void));
void exit(int value) __attribute__((noreturn));
/* The space stops with the cause breakpoint. */
void abort(void) __attribute__((noreturn));

int atoi(const char *s);
long strtol(const char *restrict s, char **restrict end, int base);
unsigned long strtoul(const char *restrict s, char **restrict end, int base);

static inline int abs(int n) { return n < 0 ? -n : n; }
static inline long labs(long n) { return n < 0 ? -n : n; }

void qsort(void *base, size_t items, size_t size, int (*compare)(const void *, const void *));
void *bsearch(const void *key, const void *base, size_t items, size_t size, int (*compare)(const void *, const void *));

/* The same numbers in every run, from the seed on. (Those of the script come by det_random.) */
#define RAND_MAX 32767
int rand(void);
void srand(unsigned seed);

#endif
