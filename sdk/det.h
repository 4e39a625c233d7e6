/*
 * The calls of the kernel, for programs in C. docs/KERNEL.md says what each call does, docs/PROGRAMS.md how programs are
 * written with them.
 *
 * A call whose arguments are wrong stops the space with the cause badcall, so most functions have no error to return. Those on
 * files return an enum det_error; det_clock and det_random return 1 where the script has no more to give.
 */
#ifndef DET_H
#define DET_H

#include <stddef.h>
#include <stdint.h>

/* The numbers of the calls: a7. */
enum det_number {
  DET_CALL_PUT = 1, DET_CALL_GET, DET_CALL_RET,
  DET_CALL_WRITE, DET_CALL_READ, DET_CALL_CLOCK, DET_CALL_RANDOM,
  DET_CALL_FORK = 16, DET_CALL_WAIT, DET_CALL_TFORK, DET_CALL_TJOIN, DET_CALL_QSTART, DET_CALL_QCOMMIT,
  DET_CALL_FNEW = 24, DET_CALL_FPUT, DET_CALL_FGET, DET_CALL_FLEN, DET_CALL_FDEL
};

/* The options of det_put and det_get; add them up. */
enum det_option {
  DET_REGS = 1,          /* the register block goes along */
  DET_COPY = 2,          /* the range at the destination becomes the one at the source */
  DET_ZERO = 4,          /* the bytes of the range become 0 */
  DET_MERGE = 8,         /* det_get: what the child has changed since its snapshot comes */
  DET_PERM = 16,         /* the range gets the permission DET_READABLE and so on */
  DET_SNAP = 32,         /* det_put: the child keeps its memory as its snapshot */
  DET_START = 64,        /* det_put: the child runs */
  DET_LIMIT = 128,       /* det_put, with DET_START: it may have so many events */
  DET_TREE = 256,        /* alone: a child is copied with all below it */
  DET_AGREE = 512,       /* det_get, with DET_MERGE: equal new values are no conflict */
  DET_READABLE = 1 << 12,
  DET_WRITABLE = 2 << 12,
  DET_EXECUTABLE = 4 << 12
};

/* Why a space has stopped. */
enum det_cause {
  DET_FETCH_MISALIGNED = 0, DET_FETCH_FAULT, DET_ILLEGAL, DET_BREAKPOINT,
  DET_LOAD_MISALIGNED, DET_LOAD_FAULT, DET_STORE_MISALIGNED, DET_STORE_FAULT,
  DET_BADCALL = 16,      /* the value is the number of the test that failed */
  DET_CONFLICT,          /* the value is the least address in conflict */
  DET_LIMITED,           /* it has used up its parent's limit */
  DET_FUEL,              /* it has used up what det run --limit gives each space */
  DET_RETURNED,          /* the value is what it returned */
  DET_FRESH              /* it has never run, or is not there */
};

/* What the calls on files return. */
enum det_error {
  DET_OK, DET_NO_FILE, DET_EXISTS, DET_NO_SLOT, DET_TOO_LONG, DET_CONFLICTED, DET_BAD_NAME, DET_NOT_APPEND
};

enum {
  DET_PAGE = 4096,
  DET_NOBODY = 65535,      /* make no child of this number: start.S and det_allocate ask it for permissions, and must not wait */
  DET_CALL_BYTES = 65536,  /* the most bytes that one call of a device or of a file takes */
  DET_FILE_BYTES = 61440,  /* the longest content of a file */
  DET_FILE_NAME = 32       /* the longest name */
};

/* Joins merge what is below; files, a space's own variables, its own memory and its stack are above. */
#define DET_SHARED_END 0xC0000000u

/* The register block: x[0] is x1 (ra), x[1] is x2 (sp), x[9] is x10 (a0). det_put does not read cause and value. */
struct det_registers {
  uint32_t pc, x[31], cause, value;
};

/* How a child has stopped. files_left: how many of its files found no free slot (of det_wait alone, else 0). */
struct det_end {
  uint32_t cause, value, files_left;
};

struct det_answer {
  uint32_t a0, a1, a2, a3;
};

static inline struct det_answer
det_call(uint32_t number, uint32_t x0, uint32_t x1, uint32_t x2, uint32_t x3, uint32_t x4, uint32_t x5, uint32_t x6)
{
  register uint32_t a0 __asm__("a0") = x0;
  register uint32_t a1 __asm__("a1") = x1;
  register uint32_t a2 __asm__("a2") = x2;
  register uint32_t a3 __asm__("a3") = x3;
  register uint32_t a4 __asm__("a4") = x4;
  register uint32_t a5 __asm__("a5") = x5;
  register uint32_t a6 __asm__("a6") = x6;
  register uint32_t a7 __asm__("a7") = number;

  __asm__ volatile("ecall" : "+r"(a0), "+r"(a1), "+r"(a2), "+r"(a3) : "r"(a4), "r"(a5), "r"(a6), "r"(a7) : "memory");
  return (struct det_answer){ a0, a1, a2, a3 };
}

static inline uint32_t
det_address(const volatile void *p)
{
  return (uint32_t)(uintptr_t)p;
}

/*
 * What stdio has buffered for the console goes out (console.c). A fork and an end do so first, so a child begins with an empty
 * buffer. Where console.c is not linked there is none.
 */
void det_console_flush(void) __attribute__((weak));

/* Begins with an empty buffer, as a thread of threads.h does: the buffer that the variables name is the root's. */
void det_console_forget(void);

/* Of pthread.c alone: what a thread there does in place of det_allocate and of det_write to the console. */
int det_in_thread(void) __attribute__((weak));
void *det_thread_allocate(uint32_t count) __attribute__((weak));
void det_thread_write(const void *bytes, uint32_t count) __attribute__((weak));

/* ---- The space itself ---- */

/*
 * Stops with the cause DET_RETURNED. (A parent may let a space go on behind it; it then returns again.) A space that has tp 0
 * has none of the kit's variables, and so no buffer.
 */
static inline void __attribute__((noreturn))
det_return(uint32_t value)
{
  uint32_t tp;

  __asm__("mv %0, tp" : "=r"(tp));
  if (det_console_flush != NULL && tp != 0)
    det_console_flush();
  for (;;)
    det_call(DET_CALL_RET, value, 0, 0, 0, 0, 0, 0);
}

/*
 * Zeroed memory in whole pages, from the heap that begins at 0x40000000 and that joins merge; NULL where it is used up. It is
 * never given back. Two threads that allocate side by side get the same addresses, and are in conflict when they are joined:
 * allocate before the fork, or use det_allocate_own.
 */
void *det_allocate(uint32_t count);

/* The same from memory that is this space's own: no join merges it. */
void *det_allocate_own(uint32_t count);

/* ---- Devices: of the root alone ---- */

static inline void
det_write(const void *bytes, uint32_t count)
{
  const char *at = bytes;

  for (; count > DET_CALL_BYTES; at += DET_CALL_BYTES, count -= DET_CALL_BYTES)
    det_call(DET_CALL_WRITE, 0, det_address(at), DET_CALL_BYTES, 0, 0, 0, 0);
  det_call(DET_CALL_WRITE, 0, det_address(at), count, 0, 0, 0, 0);
}

/* Returns how many bytes came, at most 65,536; 0 at the end of the input. */
static inline uint32_t
det_read(void *buffer, uint32_t count)
{
  if (count > DET_CALL_BYTES)
    count = DET_CALL_BYTES;
  return det_call(DET_CALL_READ, 0, det_address(buffer), count, 0, 0, 0, 0).a1;
}

static inline int
det_clock(uint32_t *reading)
{
  struct det_answer a = det_call(DET_CALL_CLOCK, 0, 0, 0, 0, 0, 0, 0);
  *reading = a.a1;
  return (int)a.a0;
}

static inline int
det_random(uint32_t *number)
{
  struct det_answer a = det_call(DET_CALL_RANDOM, 0, 0, 0, 0, 0, 0, 0);
  *number = a.a1;
  return (int)a.a0;
}

/* ---- Processes and threads ---- */

/* A process: its memory is a copy of ours, and of what it writes only its files come back. Returns 1 in the child, 0 here. */
static inline int
det_fork(uint32_t child)
{
  if (det_console_flush != NULL)
    det_console_flush();
  return (int)det_call(DET_CALL_FORK, 0, child, 0, 0, 0, 0, 0).a0;
}

/* Waits for the process and all below it, reconciles its files with ours, and removes it. */
static inline struct det_end
det_wait(uint32_t child)
{
  struct det_answer a = det_call(DET_CALL_WAIT, 0, child, 0, 0, 0, 0, 0);
  return (struct det_end){ a.a1, a.a2, a.a3 };
}

/* A thread: its memory is a copy of ours, and what it changes comes back when it is joined. Returns 1 in the child, 0 here. */
static inline int
det_thread_fork(uint32_t child)
{
  if (det_console_flush != NULL)
    det_console_flush();
  return (int)det_call(DET_CALL_TFORK, 0, child, 0, 0, 0, 0, 0).a0;
}

/*
 * Waits for the thread and merges what it has changed below DET_SHARED_END. Where both it and we have changed a byte since the
 * fork, we are stopped with the cause DET_CONFLICT.
 */
struct det_end det_thread_join(uint32_t child);

/* The same, but equal new values of a byte are no conflict. */
struct det_end det_thread_join_agree(uint32_t child);

/* A thread that returns what the function returns. */
static inline void
det_thread_create(uint32_t child, uint32_t (*function)(void *), void *argument)
{
  if (det_thread_fork(child))
    det_return(function(argument));
}

/*
 * Rounds: of the count children from the first on, which are 1 to 64. Each that has used up its limit gets our memory below DET_SHARED_END, and goes on
 * for so many events, one at least. Returns how many those are. (threads.h has a scheduler over these two.)
 */
static inline uint32_t
det_quantum_start(uint32_t first, uint32_t count, uint32_t quantum)
{
  return det_call(DET_CALL_QSTART, 0, first, count, quantum, 0, 0, 0).a1;
}

/*
 * Waits for all of them, and takes what each has changed since its start, in the order of their numbers, whatever stands here. Returns how many have
 * used up their quantum.
 */
static inline uint32_t
det_quantum_commit(uint32_t first, uint32_t count)
{
  return det_call(DET_CALL_QCOMMIT, 0, first, count, 0, 0, 0, 0).a1;
}

/* ---- Put and Get ---- */

static inline void
det_put(uint32_t options, uint32_t child, const struct det_registers *registers,
        uint32_t from, uint32_t to, uint32_t size, uint32_t limit)
{
  det_call(DET_CALL_PUT, options, child, det_address(registers), from, to, size, limit);
}

static inline void
det_get(uint32_t options, uint32_t child, struct det_registers *registers, uint32_t from, uint32_t to, uint32_t size)
{
  det_call(DET_CALL_GET, options, child, det_address(registers), from, to, size, 0);
}

/* ---- Files. Each returns an enum det_error. A name has 1 to 32 bytes other than 0; count is at most DET_CALL_BYTES ---- */

static inline int
det_file_new(const char *name, uint32_t length, int append)
{
  return (int)det_call(DET_CALL_FNEW, 0, det_address(name), length, append != 0, 0, 0, 0).a0;
}

/* The bytes become the content, or with add come behind it. */
static inline int
det_file_put(const char *name, uint32_t length, const void *bytes, uint32_t count, int add)
{
  return (int)det_call(DET_CALL_FPUT, 0, det_address(name), length, det_address(bytes), count, add != 0, 0).a0;
}

/* Reads from the offset on; *got is how many bytes came, 0 from the file's end on and where there is an error. */
static inline int
det_file_get(const char *name, uint32_t length, void *buffer, uint32_t count, uint32_t offset, uint32_t *got)
{
  struct det_answer a = det_call(DET_CALL_FGET, 0, det_address(name), length, det_address(buffer), count, offset, 0);
  *got = a.a0 == DET_OK ? a.a1 : 0;
  return (int)a.a0;
}

/* *count is the length of the content, 0 where there is an error. */
static inline int
det_file_length(const char *name, uint32_t length, uint32_t *count)
{
  struct det_answer a = det_call(DET_CALL_FLEN, 0, det_address(name), length, 0, 0, 0, 0);
  *count = a.a0 == DET_OK ? a.a1 : 0;
  return (int)a.a0;
}

static inline int
det_file_delete(const char *name, uint32_t length)
{
  return (int)det_call(DET_CALL_FDEL, 0, det_address(name), length, 0, 0, 0, 0).a0;
}

#endif
