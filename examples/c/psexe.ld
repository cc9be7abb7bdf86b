/* Places a program at 80010000h, with the header of 800h bytes right before it, so that
   `objcopy -O binary` makes the whole file. The header isn't loaded: its address is for the file alone. */

OUTPUT_ARCH(mips)
ENTRY(begin)

SECTIONS {
    .header 0x8000F800 : {
        KEEP(*(.header))
        . = 0x800;
    }
    .program 0x80010000 : {
        program_start = .;
        *(.text.begin)
        *(.text .text.*)
        *(.rodata .rodata.*)
        *(.data .data.* .sdata .sdata.*)
        . = ALIGN(4);
        program_end = .;
    }
    .cleared (NOLOAD) : {
        cleared_start = .;
        *(.bss .bss.* .sbss .sbss.* COMMON)
        . = ALIGN(8);
        cleared_end = .;
    }
    program_size = program_end - program_start;
    cleared_size = cleared_end - cleared_start;
    heap_start = cleared_end;
    heap_end = 0x801F8000;
    ASSERT(heap_start <= heap_end, "the program leaves fewer than 32 KB for the stack")

    /DISCARD/ : { *(.reginfo) *(.MIPS.abiflags) *(.pdr) *(.mdebug*) *(.gnu.attributes) *(.comment) *(.note*) *(.eh_frame*) }
}
