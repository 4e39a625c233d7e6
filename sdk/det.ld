/*
 * How a program lies in memory, for GNU ld and lld. Code, constants and data stand on pages of their own, so that each page has the
 * permission that its bytes want: code is executed and read, constants are read, data are read and written.
 *
 *   0x00010000   code, constants, data, zeroed data
 *   0x40000000   the heap (runtime.c)
 *   0xC0000000   files (docs/KERNEL.md, "Files"); from here on no join merges anything
 *   0xC0400000   variables that are _Thread_local: each space's own
 *   0xC0800000   memory of det_allocate_own (runtime.c)
 *   0xFFF00000   the stack (start.S)
 */
ENTRY(_start)

PHDRS
{
  code PT_LOAD FLAGS(5);
  constants PT_LOAD FLAGS(4);
  data PT_LOAD FLAGS(6);
  own PT_LOAD FLAGS(6);
  tls PT_TLS FLAGS(4);
}

SECTIONS
{
  . = 0x10000;
  .text : { KEEP(*(.text.start)) *(.text .text.*) } :code

  . = ALIGN(4096);
  .rodata : { *(.rodata .rodata.*) *(.srodata .srodata.*) *(.eh_frame .eh_frame.*) } :constants

  . = ALIGN(4096);
  .data : {
    *(.data .data.*)
    *(.got .got.*)
    . = ALIGN(8);
    __global_pointer$ = . + 0x800;
    *(.sdata .sdata.*)
  } :data
  .bss : { *(.sbss .sbss.*) *(.bss .bss.*) *(COMMON) } :data
  _end = .;
  ASSERT(_end <= 0x40000000, "the program reaches into the heap")

  /*
   * A space has these variables once, so they lie here where they are used, and tp is where they begin. (start.S has one that is not
   * zeroed: linkers leave zeroed ones out of the segment where there are no others.)
   */
  . = 0xC0400000;
  .tdata : { __own_start = .; KEEP(*(.tdata.start)) *(.tdata .tdata.*) *(.tbss .tbss.*) } :own :tls
  ASSERT(. <= 0xC07FE000, "there is room for 4 MB of _Thread_local variables, less two pages (console.c)")

  /* Nothing runs them, so that a program that has some does not seem to work. */
  .init_array : { KEEP(*(.preinit_array .init_array .init_array.* .ctors .ctors.*)) } :data
  ASSERT(SIZEOF(.init_array) == 0, "constructors are not run: call them from main")

  /DISCARD/ : { *(.comment) *(.note .note.*) *(.fini_array .fini_array.* .dtors .dtors.*) }
}
