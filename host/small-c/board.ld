/* Code from CODE on, beginning with what the processor starts with. From STACK on 2 MB of stack, and data behind it: what runs out of the
 * stack leaves the memory, and overwrites nothing. */
SECTIONS
{
    . = CODE;
    .text : { KEEP(*(.start)) *(.text .text.*) *(.rodata .rodata.*) }
    .ARM.exidx : { *(.ARM.exidx*) }
    stack_top = STACK + 0x200000;
    . = stack_top;
    .data : { *(.data .data.* .sdata .sdata.*) }
    .bss : { *(.bss .bss.* .sbss .sbss.*) }
}
ENTRY(start)
