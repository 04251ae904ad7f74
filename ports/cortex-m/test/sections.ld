/* Code and constants in flash from 0, data and stack in memory; the stack is at the end and has `stack_bytes`. */
ENTRY(reset)
stack_bytes = 0x2300;
SECTIONS
{
    .text : { KEEP(*(.vectors)) *(.text .text.*) *(.rodata .rodata.*) . = ALIGN(8); } > FLASH
    .ARM.exidx : { *(.ARM.exidx*) } > FLASH
    .data : { . = ALIGN(8); data_start = .; *(.data .data.*) . = ALIGN(8); data_end = .; } > RAM AT > FLASH
    data_kept = LOADADDR(.data);
    .bss (NOLOAD) : { . = ALIGN(8); bss_start = .; *(.bss .bss.*) *(COMMON) . = ALIGN(8); bss_end = .; } > RAM
    end = .; /* the heap of the C library, for its files */
    stack_top = ORIGIN(RAM) + LENGTH(RAM);
    stack_limit = stack_top - stack_bytes;
    ASSERT(end + 0xA00 <= stack_limit, "no room for the heap below the stack")
}
