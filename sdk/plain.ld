/* The least linker script, for sdk/check: all in a row, so segments may share a page, which has the permissions of both. */
ENTRY(_start)
SECTIONS
{
  . = 0x10000;
  .text : { *(.text .text.*) }
  .rodata : { *(.rodata .rodata.* .srodata .srodata.*) }
  .data : { *(.data .data.* .sdata .sdata.*) }
  .bss : { *(.bss .bss.* .sbss .sbss.* COMMON) }
}
