/* The stack lies below all data, so that one that overflows leaves the memory, which is a panic. Code is at addresses that no memory
   and no buffer has: what reads through a pointer to a function panics. */
ENTRY(__ta_invoke)
EXTERN(__ta_create __ta_open __ta_invoke __ta_close __ta_destroy)
SECTIONS
{
  .text 0x60000000 : { *(.text .text.*) }
  . = __stack;
  .data : { *(.rodata .rodata.* .srodata .srodata.* .data .data.* .sdata .sdata.*) . = ALIGN(4); }
  .bss : { . = ALIGN(4); __scratch = .; . += 24; *(.bss .bss.* .sbss .sbss.*) . = ALIGN(8); __heap_start = .; }
  __needed = __heap_start + __heap;
  __heap_end = __pages ? __pages * 4096 : ALIGN(__needed, 4096);
  /DISCARD/ : { *(.ta_header) *(.comment) *(.eh_frame*) *(.riscv.attributes) *(.note*) }
}
