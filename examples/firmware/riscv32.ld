ENTRY(start)
/* QEMU fills each segment anew at a reset: what outlives it is in none. */
PHDRS { code PT_LOAD; ram PT_LOAD; }
SECTIONS
{
    . = 0x80000000;
    .text : { *(.text.start) *(.text*) *(.rodata*) *(.srodata*) } :code
    .data : ALIGN(16) { *(.data*) *(.sdata*) } :ram
    .bss (NOLOAD) : ALIGN(16) { bss_start = .; *(.sbss*) *(.bss*) *(COMMON) . = ALIGN(16); bss_end = .; } :ram
    .stack (NOLOAD) : ALIGN(16) { stack_end = .; . += 0x4000; stack_top = .; } :ram
    .memory (NOLOAD) : ALIGN(16) { *(.memory) } :NONE
    .outlives_reset (NOLOAD) : ALIGN(16) { *(.outlives_reset) } :NONE
    /DISCARD/ : { *(.comment) *(.eh_frame*) *(.note*) }
}
