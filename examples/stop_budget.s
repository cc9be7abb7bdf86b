# The stop Budget: as many steps were made as the budget has. This program would go on for ever. The run's status is 0.

start:
        li      r4, '.'
        li      r9, 0x3C                # putchar
        li      r10, 0xA0
        jalr    r31, r10
        nop
for_ever:
        b       for_ever
        nop
