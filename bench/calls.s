# Writes letters by putchar, without end: some 130 steps a call, with two lines of the trace for each.
.equ GATE_A  0xA0
.equ PUTCHAR 0x3C

start:
        li      r10, GATE_A
        li      r9, PUTCHAR
again:
        li      r16, 'a'
        li      r17, 'z'
next:
        jalr    r31, r10
        move    r4, r16                 # in the slot of the jump
        bne     r16, r17, next
        addiu   r16, r16, 1
        jalr    r31, r10
        li      r4, 10
        b       again
        nop
