# The stop Exception in a delay slot: EPC is the branch's address, not the slot's.
# Here a word is loaded from an odd address, code 4.

start:
        la      r8, number              # two words
        b       start                   # at 80010008h
        lw      r9, 1(r8)               # at 8001000Ch

        .align  2
number: .word   0
