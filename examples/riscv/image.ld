SECTIONS {
  . = 0x1000;
  .text : { *(.start) *(.text*) }
  . = 0x2000000;
  .data : { *(.rodata* .srodata* .data* .sdata*) }
  .bss : { *(.bss* .sbss* COMMON) }
}
