# The stop BadReturn: gate E0h, where a callback returns to, is reached with no callback under way. Its field is r31.

start:
        li      r31, 0x1234
        li      r10, 0xE0
        jr      r10
        nop
