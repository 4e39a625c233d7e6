/*
 * Every function of det.h, and a line for each that says what came of it. What a line shows is what docs/KERNEL.md says of the call.
 */
#include <stdio.h>
#include <string.h>
#include "det.h"

/* The address of a page that no one uses, in the memory of this program and of its children. */
#define SPARE 0x30000000u

static int shared[4] = { 10, 20, 30, 40 };
static _Thread_local int own = 5;
static struct det_registers block;

static const char *
cause(uint32_t number)
{
  static const char *const names[] = { "badcall", "conflict", "limit", "fuel", "ret", "fresh" };

  return number >= DET_BADCALL && number <= DET_FRESH ? names[number - DET_BADCALL] : "a trap";
}

static void
devices(void)
{
  char text[8];
  uint32_t n, got;

  got = det_read(text, 5);
  printf("read %u: %.*s\n", got, (int)got, text);
  got = det_read(text, sizeof text);
  printf("read %u: %.*s", got, (int)got, text);
  printf("read %u\n", det_read(text, sizeof text));
  printf("clock %d", det_clock(&n));
  printf(" %u\n", n);
  printf("clock %d\n", det_clock(&n));
  printf("random %d", det_random(&n));
  printf(" %u\n", n);
  printf("random %d\n", det_random(&n));
}

static void
memory(void)
{
  char *first = det_allocate(5000), *second = det_allocate(1), *mine = det_allocate_own(1);

  printf("heap %08x %08x, own %08x, zeros %d\n", (unsigned)(uintptr_t)first, (unsigned)(uintptr_t)second, (unsigned)(uintptr_t)mine,
         first[4999] == 0 && second[4095] == 0 && mine[0] == 0);
  printf("too much: %d\n", det_allocate(0xC0000000u) == NULL && det_allocate_own(0x40000000u) == NULL);
}

static uint32_t
add_to_all(void *argument)
{
  int i;

  for (i = 0; i < 4; i++)
    shared[i] += *(int *)argument;
  own += 100;
  return (uint32_t)own;
}

static void
threads(void)
{
  struct det_end end;
  int *made, step = 1;

  det_thread_create(3, add_to_all, &step);
  end = det_thread_join(3);
  printf("thread: %s %u, shared %d %d, own %d\n", cause(end.cause), end.value, shared[0], shared[3], own);

  if (det_thread_fork(3)) {
    made = det_allocate(sizeof *made);
    *made = 77;
    det_return((uint32_t)(uintptr_t)made);
  }
  end = det_thread_join(3);
  made = (int *)(uintptr_t)end.value;
  ++*made;
  printf("what a thread has allocated: %d\n", *made);

  if (det_thread_fork(3))
    det_return((uint32_t)(shared[1] = 99));
  shared[1] = 99;
  end = det_thread_join_agree(3);
  printf("agreed: %s %u\n", cause(end.cause), end.value);

  if (det_thread_fork(4))
    det_clock(&end.value);
  end = det_thread_join(4);
  printf("a device in a thread: %s %u\n", cause(end.cause), end.value);
}

static void
files(void)
{
  char text[16];
  uint32_t n;
  struct det_end end;

  printf("new %d", det_file_new("notes", 5, 0));
  printf(" %d", det_file_new("notes", 5, 0));
  printf(" %d\n", det_file_new("", 0, 0));
  printf("put %d", det_file_put("notes", 5, "abcd", 4, 0));
  printf(" %d", det_file_put("notes", 5, "ef", 2, 1));
  printf(" %d\n", det_file_put("none", 4, "", 0, 0));
  printf("length %d", det_file_length("notes", 5, &n));
  printf(" %u\n", n);
  printf("get %d", det_file_get("notes", 5, text, sizeof text, 2, &n));
  printf(" %u: %.*s\n", n, (int)n, text);
  det_file_new("log", 3, 1);
  printf("append %d\n", det_file_put("log", 3, "", 0, 0));

  if (det_fork(8)) {
    det_file_put("notes", 5, "from the child", 14, 0);
    shared[0] = 0;
    det_return(8);
  }
  end = det_wait(8);
  det_file_get("notes", 5, text, sizeof text, 0, &n);
  printf("process: %s %u, left %u, %.*s, shared %d\n", cause(end.cause), end.value, end.files_left, (int)n, text, shared[0]);
  printf("delete %d", det_file_delete("notes", 5));
  printf(" %d\n", det_file_delete("notes", 5));
  end = det_wait(8);
  printf("nobody: %s\n", cause(end.cause));
}

static void
put_and_get(void)
{
  char *page = (char *)(uintptr_t)SPARE;

  /* a page of ours, as the child's; and back, changed, from behind its snapshot */
  det_get(DET_ZERO | DET_PERM | DET_READABLE | DET_WRITABLE, DET_NOBODY, NULL, 0, SPARE, DET_PAGE);
  strcpy(page, "a page");
  memset(&block, 0, sizeof block);
  block.pc = SPARE;
  det_put(DET_REGS | DET_COPY | DET_SNAP, 9, &block, SPARE, SPARE, DET_PAGE, 0);
  det_put(DET_PERM | DET_READABLE | DET_EXECUTABLE, 9, NULL, 0, SPARE, DET_PAGE, 0);
  det_get(DET_REGS, 9, &block, 0, 0, 0);
  printf("put: pc %08x, %s\n", block.pc, cause(block.cause));

  /* the same with an instruction in it: jal x0, 0, which goes on for ever, so its limit stops it */
  *(volatile uint32_t *)page = 0x0000006F;
  det_put(DET_COPY | DET_SNAP, 9, NULL, SPARE, SPARE, DET_PAGE, 0);
  det_put(DET_PERM | DET_READABLE | DET_EXECUTABLE, 9, NULL, 0, SPARE, DET_PAGE, 0);
  det_put(DET_START | DET_LIMIT, 9, NULL, 0, 0, 0, 1000);
  det_get(DET_REGS | DET_MERGE, 9, &block, 0, SPARE, DET_PAGE);
  printf("limit: pc %08x, %s, still %08x\n", block.pc, cause(block.cause), *(volatile uint32_t *)page);

  /* a copy of the child, as its own child and as ours */
  det_put(DET_TREE, 9, NULL, 9, 1, 0, 0);
  det_get(DET_TREE, 9, NULL, 1, 10, 0);
  det_get(DET_REGS, 10, &block, 0, 0, 0);
  printf("tree: pc %08x, %s\n", block.pc, cause(block.cause));
}

static uint32_t
store(void *argument)
{
  shared[*(int *)argument] = 77;
  return 7;
}

static void
rounds(void)
{
  struct det_end end;
  uint32_t started;
  int place = 2;

  /* a thread of TFORK runs without a limit, so it waits for no quantum; a commit brings what it stored, over what we have stored meanwhile */
  det_thread_create(11, store, &place);
  shared[2] = 88;
  started = det_quantum_start(11, 1, 1000);
  printf("started %u, waiting %u, shared %d\n", started, det_quantum_commit(11, 1), shared[2]);
  end = det_thread_join(11);
  printf("joined: %s %u\n", cause(end.cause), end.value);

  /* children 9 and 10, which loop, have used up their limit. Our page comes to them with our permission, and they go on there for 10 events */
  det_get(DET_PERM | DET_READABLE | DET_WRITABLE | DET_EXECUTABLE, DET_NOBODY, NULL, 0, SPARE, DET_PAGE);
  started = det_quantum_start(9, 2, 10);
  printf("started %u, waiting %u\n", started, det_quantum_commit(9, 2));
}

int
main(void)
{
  det_write("write\n", 6);
  devices();
  memory();
  threads();
  files();
  put_and_get();
  rounds();
  printf("unknown: ");
  fflush(stdout);
  det_call(99, 0, 0, 0, 0, 0, 0, 0);
  return 0;
}
