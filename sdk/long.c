/*
 * The supervisor of sdk/build --long: runs a program of one space for as long as it takes.
 *
 * It is the root, from 0xE0000000 on, where the program has nothing. The program is its child, with all other memory of the root, and begins as
 * a root does. Where the child's fuel is used up it goes on in a fresh child, which has fuel again. Where it asks for a device the supervisor asks in
 * its place. What the program returns the root returns; where a trap has stopped it the root stops as breakpoint. Its files become the root's at
 * either end.
 *
 * A fresh child has no children, so a program that has some cannot go on in one: the supervisor says so, and stops as breakpoint.
 */
#include "det.h"

enum { PROGRAM = 0, NESTS = 1, MISSING = 65534 };

#define LOW_END 0xE0000000u           /* long.ld places the supervisor from here on */
#define HIGH_START 0xE1000000u
#define HIGH_SIZE 0x1F000000u         /* up to the last address */
#define FILES 0xC0000000u
#define FILES_SIZE 0x00400000u
#define FIRST_STACK 0xFFFFFFF0u       /* the stack pointer of each root that comes from an executable */
#define NOT_OF_THE_ROOT 6             /* the value of badcall where a space other than the root asks for a device */

enum { SP = 1, A0 = 9, A1 = 10, A2 = 11, A7 = 16 };

extern char stack_end[];

/* The first word of the supervisor: sdk/supervise writes the program's entry there. */
__attribute__((section(".entry"), used)) const volatile uint32_t program_entry = 0;

__asm__(
  ".section .start, \"ax\", @progbits\n"
  ".globl supervisor_start\n"
  "supervisor_start:\n"
  "        lui     sp, %hi(stack_end)\n"
  "        addi    sp, sp, %lo(stack_end)\n"
  "        j       supervise\n"
  ".section .bss\n"
  "        .balign 16\n"
  "        .zero   4096\n"
  "stack_end:\n"
  ".text\n");

static void __attribute__((noreturn))
stop(void)
{
  for (;;)
    __asm__ volatile("ebreak");
}

static void __attribute__((noreturn))
say_and_stop(const char *line, uint32_t count)
{
  det_write(line, count);
  stop();
}

static void
give_memory(void)
{
  det_put(DET_COPY, PROGRAM, 0, 0, 0, LOW_END, 0);
  det_put(DET_COPY, PROGRAM, 0, HIGH_START, HIGH_START, HIGH_SIZE, 0);
}

static void
take_memory(void)
{
  det_get(DET_COPY, PROGRAM, 0, 0, 0, LOW_END);
  det_get(DET_COPY, PROGRAM, 0, HIGH_START, HIGH_START, HIGH_SIZE);
}

static void
take_files(void)
{
  det_get(DET_COPY, PROGRAM, 0, FILES, FILES, FILES_SIZE);
}

/* A Get with Tree from a child that is not there takes a child away, and all below it. */
static void
remove_child(uint32_t child)
{
  det_get(DET_TREE, MISSING, 0, MISSING, child, 0);
}

/*
 * Whether the program has children. A child of ours nests a copy of it, as its child 0, six times: each time the next container gets a copy of the one
 * before. The last copy is at depth 8 where the program has no children; where it has some the kernel refuses one that would be deeper.
 */
static void __attribute__((noreturn))
nest(void)
{
  uint32_t n;

  for (n = 0; n < 6; n++)
    det_put(DET_TREE, n + 1, 0, n, 0, 0, 0);
  det_return(0);
}

static int
has_children(struct det_registers *block)
{
  block->pc = (uint32_t)(uintptr_t)nest;
  block->x[SP] = det_address(stack_end);
  det_put(DET_TREE, NESTS, 0, PROGRAM, 0, 0, 0);
  det_put(DET_REGS | DET_COPY | DET_START, NESTS, block, LOW_END, LOW_END, HIGH_START - LOW_END, 0);
  det_get(DET_REGS, NESTS, block, 0, 0, 0);
  remove_child(NESTS);
  return block->cause != DET_RETURNED;
}

static void
go_on_in_a_fresh_child(void)
{
  static const char refused[] = "sdk/build --long: the program has made spaces, and has to go on in one whose fuel is not used up\n";
  static struct det_registers block;

  if (has_children(&block))
    say_and_stop(refused, sizeof refused - 1);
  take_memory();
  remove_child(PROGRAM);
  give_memory();
}

/* The pages of a range of the program's, and of ours: the kernel asks their permissions as it would ask the program's. */
static void
carry(int back, uint32_t at, uint32_t count)
{
  uint32_t start = at & -(uint32_t)DET_PAGE, size = ((at + count + DET_PAGE - 1) & -(uint32_t)DET_PAGE) - start;

  if (count == 0)
    return;
  if (start < HIGH_START && start + (size - 1) >= LOW_END)
    stop();
  if (back)
    det_put(DET_COPY, PROGRAM, 0, start, start, size, 0);
  else
    det_get(DET_COPY, PROGRAM, 0, start, start, size);
}

static void
ask_device(struct det_registers *program)
{
  uint32_t call = program->x[A7], at = program->x[A1], count = program->x[A2];
  int has_bytes = call == DET_CALL_WRITE || call == DET_CALL_READ;
  struct det_answer answer;

  if (has_bytes && count > DET_CALL_BYTES)
    stop();
  if (has_bytes)
    carry(0, at, count);
  answer = det_call(call, 0, at, count, 0, 0, 0, 0);
  if (call == DET_CALL_READ)
    carry(1, at, count);
  program->x[A0] = answer.a0;
  if (call != DET_CALL_WRITE)
    program->x[A1] = answer.a1;
  program->pc += 4;
}

void __attribute__((noreturn, used))
supervise(void)
{
  static struct det_registers program;

  program.pc = program_entry;
  program.x[SP] = FIRST_STACK;
  give_memory();
  for (;;) {
    det_put(DET_REGS | DET_START, PROGRAM, &program, 0, 0, 0, 0);
    det_get(DET_REGS, PROGRAM, &program, 0, 0, 0);
    if (program.cause == DET_FUEL)
      go_on_in_a_fresh_child();
    else if (program.cause == DET_BADCALL && program.value == NOT_OF_THE_ROOT)
      ask_device(&program);
    else
      break;
  }
  take_files();
  if (program.cause == DET_RETURNED)
    det_return(program.value);
  stop();
}
