# Sums, shifts, bits, comparisons and a product, without end: seventeen instructions a turn, none of them a load or a store.
start:
        li      r8, 1
        li      r9, 0x12345678
next:
        addu    r8, r8, r9
        sll     r10, r8, 7
        xor     r8, r8, r10
        srl     r10, r8, 9
        xor     r8, r8, r10
        slt     r11, r8, r9
        subu    r12, r9, r11
        and     r13, r12, r8
        or      r14, r13, r10
        multu   r8, r14
        mflo    r15
        addiu   r16, r16, 1
        sltu    r17, r15, r16
        beq     r17, r0, next
        nor     r18, r15, r14           # in the slot of the branch
        b       next
        nop
