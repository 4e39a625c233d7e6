/* How the supervisor of sdk/build --long lies in memory: from 0xE0000000 on, and below 0xE1000000. sdk/supervise puts it into an executable. */
ENTRY(supervisor_start)

PHDRS
{
  code PT_LOAD FLAGS(5);
  data PT_LOAD FLAGS(6);
}

SECTIONS
{
  . = 0xE0000000;
  .text : { KEEP(*(.entry)) *(.start) *(.text .text.*) *(.rodata .rodata.* .srodata .srodata.*) } :code
  . = ALIGN(4096);
  .data : { *(.data .data.* .sdata .sdata.*) } :data
  .bss : { *(.sbss .sbss.*) *(.bss .bss.*) *(COMMON) } :data
  ASSERT(. <= 0xE0100000, "the supervisor is too large")

  /DISCARD/ : { *(.comment) *(.note .note.*) *(.eh_frame .eh_frame.*) *(.riscv.attributes) }
}
