# The stop Unserved of a SYSCALL: the table's letter is Y, the number is r4, and the last field is the SYSCALL's own address.

start:
        li      r4, 3
        syscall                         # at 80010004h
