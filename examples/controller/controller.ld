/* The board has megabytes; these are the sizes of a small part, so that it is seen to fit. */
MEMORY
{
    FLASH (rx) : ORIGIN = 0x00000000, LENGTH = 64K
    RAM (rw) : ORIGIN = 0x20000000, LENGTH = 8K
}

ENTRY(reset)

/* What is loaded, by the emulator at each reset: .kept is in neither, or it would be cleared. */
PHDRS { code PT_LOAD; data PT_LOAD; }

SECTIONS
{
    .text : { KEEP(*(.vectors)) *(.text .text.* .rodata .rodata.*) . = ALIGN(4); } >FLASH :code
    .stack (NOLOAD) : { stack_bottom = .; . += 3K; stack_top = .; } >RAM :NONE /* lowest: what runs over it faults, and overwrites nothing */
    .kept (NOLOAD) : { *(.kept .kept.*) . = ALIGN(4); } >RAM :NONE /* a reset leaves it alone */
    .data : { data_start = .; *(.data .data.*) . = ALIGN(4); data_end = .; } >RAM AT>FLASH :data
    data_in_flash = LOADADDR(.data);
    .bss (NOLOAD) : { bss_start = .; *(.bss .bss.* COMMON) . = ALIGN(4); bss_end = .; } >RAM :NONE
    /DISCARD/ : { *(.ARM.exidx* .ARM.attributes .comment .note*) }
}
