# The stop Exception: an exception that no call of the kernel is. Its fields are the exception's code and EPC.
# Here a sum overflows, code 0Ch. ADDIU in its place would wrap.

start:
        li      r8, 0x7FFFFFFF          # two words
        addi    r8, r8, 1               # at 80010008h
        nop
