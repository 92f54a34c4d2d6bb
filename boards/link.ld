/* The memory of the emulated boards, mps2-an385 and mps2-an386: 4 MiB of code, 4 MiB of data. The stack begins at the data's end. */
ENTRY(reset)
MEMORY
{
  CODE (rx) : ORIGIN = 0x00000000, LENGTH = 4M
  DATA (rwx) : ORIGIN = 0x20000000, LENGTH = 4M
}
SECTIONS
{
  .text : { KEEP(*(.vectors)) *(.text*) *(.rodata*) KEEP(*(.init)) KEEP(*(.fini)) *(.ARM.extab*) } > CODE
  .ARM.exidx : { *(.ARM.exidx*) } > CODE
  .data : { *(.data*) } > DATA
  .bss : { __bss_start__ = .; *(.bss*) *(COMMON) __bss_end__ = .; } > DATA
  end = .;
  __end__ = .;
  __stack = ORIGIN(DATA) + LENGTH(DATA);
}
