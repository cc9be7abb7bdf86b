# The stop Protected: MFC0, MTC0 and RFE are the kernel's. Its field is the instruction's address.
# A program that wants interrupts off asks by SYSCALL (critical.s).

start:
        nop
        mfc0    r8, 12                  # SR, at 80010004h
        nop
