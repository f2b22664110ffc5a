ENTRY(entry)
MEMORY { code (rx) : ORIGIN = 0, LENGTH = 4M  ram (rw) : ORIGIN = 0x20000000, LENGTH = 4M  psram (rw) : ORIGIN = 0x21000000, LENGTH = 16M }
/* QEMU fills each segment anew at a reset: what outlives it is in none. */
PHDRS { code PT_LOAD; ram PT_LOAD; }
SECTIONS
{
    .text : { entry = .; KEEP(*(.vectors)) *(.text*) *(.rodata*) } > code :code
    .data : { *(.data*) } > ram :ram
    .bss (NOLOAD) : ALIGN(8) { bss_start = .; *(.bss*) *(COMMON) . = ALIGN(8); bss_end = .; } > ram :ram
    .stack (NOLOAD) : ALIGN(8) { stack_end = .; . += 0x4000; stack_top = .; } > ram :ram
    .memory (NOLOAD) : ALIGN(16) { *(.memory) } > psram :NONE
    .outlives_reset (NOLOAD) : ALIGN(8) { *(.outlives_reset) } > psram :NONE
    /DISCARD/ : { *(.comment) *(.ARM.exidx*) *(.ARM.extab*) }
}
