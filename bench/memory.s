# Loads and stores of words, halves and bytes, aligned and not, over a block of 4,096 bytes, without end.
.equ BLOCK 0x80100000

start:
        li      r8, BLOCK
        li      r9, BLOCK
        li      r10, 0x80100FF0
next:
        lw      r11, 0(r8)
        lbu     r12, 5(r8)              # each load's slot has another load
        lhu     r13, 10(r8)
        addiu   r11, r11, 3
        sw      r11, 0(r8)
        addu    r12, r12, r13
        sb      r12, 6(r8)
        lwl     r14, 12(r8)
        lwr     r14, 9(r8)
        sh      r12, 10(r8)
        addu    r14, r14, r11
        sw      r14, 12(r8)
        bne     r8, r10, next
        addiu   r8, r8, 16              # in the slot of the branch
        b       next
        move    r8, r9
