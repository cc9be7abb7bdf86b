# The stop UserFetch: the program went to an address that is neither user memory nor a gate. Its field is that address.
# Here it calls a function by a null pointer.

start:
        li      r8, 0
        jalr    r31, r8
        nop
