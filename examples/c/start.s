# The header of the file and the program's first instruction, for the GNU assembler.
# The linker script psexe.ld places them, and gives the names that begin with program_ and cleared_.

        .section .header, "a"
        .ascii  "PS-X EXE"
        .space  8
        .word   begin                   # pc
        .word   0                       # gp: not used, by -G0
        .word   program_start           # destination
        .word   program_size
        .space  8
        .word   cleared_start           # the fill: zeros for the variables without a value
        .word   cleared_size
        .word   0                       # sp base: the stack begins at 801FFF00h
        .word   0                       # sp offset

        .section .text.begin, "ax"
        .set    noreorder

# At the start r31 is gate D0h, so main returns there, and its answer is the program's code.
        .globl  begin
begin:
        j       main
        nop
