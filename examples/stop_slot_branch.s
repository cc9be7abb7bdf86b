# The stop SlotBranch: a branch or jump in the delay slot of another. Its field is the second one's address.

start:
        beq     r0, r0, there
        j       there                   # at 80010004h, in the slot
there:
        nop
