/* Where things lie on the Cortex-M that cortex-m.c is for: code and constants in flash, the rest in
 * RAM. The stack stands first there, so one that is too small ends in a fault. */
MEMORY {
    flash (rx) : ORIGIN = 0x00000000, LENGTH = 512K
    ram (rwx) : ORIGIN = 0x20000000, LENGTH = 512K
}
ENTRY(reset)
stack_size = DEFINED(stack_size) ? stack_size : 4K;
SECTIONS {
    .text : { KEEP(*(.vectors)) *(.text* .rodata*) } > flash
    .ARM.exidx : { *(.ARM.exidx*) } > flash
    .stack (NOLOAD) : { . = . + stack_size; . = ALIGN(8); stack_top = .; } > ram
    .data : { data_begin = .; *(.data*) . = ALIGN(4); data_end = .; } > ram AT > flash
    data_load = LOADADDR(.data);
    .bss (NOLOAD) : { bss_begin = .; *(.bss* COMMON) . = ALIGN(8); bss_end = .; } > ram
}
