/*
 * What every program needs: moves of memory, which compilers call functions for, and the heap. Arithmetic is in arithmetic.S
 * and libgcc.c.
 */
#include "det.h"

/* ---- Moves of memory ---- */

typedef uint32_t __attribute__((may_alias)) word;

void *
memset(void *to, int value, size_t count)
{
  unsigned char *at = to, *end = at + count, byte = (unsigned char)value;
  uint32_t four = byte * 0x01010101u;

  for (; at != end && ((uintptr_t)at & 3) != 0; at++)
    *at = byte;
  for (; end - at >= 4; at += 4)
    *(word *)at = four;
  for (; at != end; at++)
    *at = byte;
  return to;
}

void *
memcpy(void *restrict to, const void *restrict from, size_t count)
{
  unsigned char *at = to, *end = at + count;
  const unsigned char *next = from;

  if ((((uintptr_t)at | (uintptr_t)next) & 3) == 0)
    for (; end - at >= 4; at += 4, next += 4)
      *(word *)at = *(const word *)next;
  for (; at != end; at++, next++)
    *at = *next;
  return to;
}

void *
memmove(void *to, const void *from, size_t count)
{
  unsigned char *at = to;
  const unsigned char *next = from;

  if ((uintptr_t)at - (uintptr_t)next >= count)
    return memcpy(to, from, count);
  for (at += count, next += count; at != (unsigned char *)to; )
    *--at = *--next;
  return to;
}

int
memcmp(const void *a, const void *b, size_t count)
{
  const unsigned char *p = a, *q = b;

  for (; count > 0; p++, q++, count--)
    if (*p != *q)
      return *p - *q;
  return 0;
}

/*
 * ---- The heap ----
 *
 * A join merges the bytes of the heap and the two numbers below, but no permission of a page. So a space keeps on its own how far it
 * may use the heap, and catches up behind a join: memory that a thread has allocated is its parent's to use then.
 */
#define HEAP_START 0x40000000u
#define OWN_START 0xC0800000u
#define OWN_END 0xFFF00000u

static uint32_t heap = HEAP_START;               /* where its next memory begins */
static uint32_t heap_turn;                       /* see det_heap_turn */
static _Thread_local uint32_t usable = HEAP_START;
static _Thread_local uint32_t own = OWN_START;

/*
 * Whatever changes the heap calls this, malloc and free too. All bytes of the number change, so that two threads that do so side by side
 * are in conflict when they are joined, and their lists are never mixed.
 */
void
det_heap_turn(void)
{
  heap_turn += (heap_turn << 13) + 0x01010101;
}

/* Makes memory readable and writable: Get with Perm of a child that is not there. */
static void
permit(uint32_t at, uint32_t size)
{
  det_get(DET_PERM | DET_READABLE | DET_WRITABLE, DET_NOBODY, 0, 0, at, size);
}

static void
permit_heap(void)
{
  if (usable < heap) {
    permit(usable, heap - usable);
    usable = heap;
  }
}

void *
det_allocate(uint32_t count)
{
  uint32_t at = heap;

  if (det_in_thread != NULL && det_in_thread())
    return det_thread_allocate(count);
  if (count > DET_SHARED_END - at)
    return NULL;
  heap = at + ((count + DET_PAGE - 1) & -(uint32_t)DET_PAGE);
  det_heap_turn();
  permit_heap();
  return (void *)(uintptr_t)at;
}

void *
det_allocate_own(uint32_t count)
{
  uint32_t at = own, size;

  if (count > OWN_END - at)
    return NULL;
  size = (count + DET_PAGE - 1) & -(uint32_t)DET_PAGE;
  permit(at, size);
  own = at + size;
  return (void *)(uintptr_t)at;
}

struct det_end
det_thread_join(uint32_t child)
{
  struct det_answer a = det_call(DET_CALL_TJOIN, 0, child, 0, 0, 0, 0, 0);

  permit_heap();
  return (struct det_end){ a.a1, a.a2, 0 };
}

struct det_end
det_thread_join_agree(uint32_t child)
{
  struct det_registers block;   /* on the stack, which no join merges */

  det_get(DET_REGS | DET_MERGE | DET_AGREE, child, &block, 0, 0, DET_SHARED_END);
  permit_heap();
  return (struct det_end){ block.cause, block.value, 0 };
}
