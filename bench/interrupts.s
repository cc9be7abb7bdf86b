# A root counter interrupts at each 2,000 steps, and the kernel calls the function of its event, which counts. The program loops and writes nothing, without end.
.equ GATE_B        0xB0
.equ INIT_TIMER    0x02
.equ ENABLE_IRQ    0x04
.equ OPEN_EVENT    0x08
.equ ENABLE_EVENT  0x0C
.equ COUNTER_2     0xF2000002           # the class of its events
.equ ON_INTERRUPT  2                    # their spec
.equ CALL          0x1000               # the event's function is called
.equ FLAGS         0x1001               # an interrupt at the target, by the system clock
.equ STEPS         2000

start:
        li      r10, GATE_B
        li      r4, COUNTER_2
        li      r5, ON_INTERRUPT
        li      r6, CALL
        la      r7, tick
        jalr    r31, r10
        li      r9, OPEN_EVENT          # in the slot of the jump
        move    r4, r2
        jalr    r31, r10
        li      r9, ENABLE_EVENT
        li      r4, 2
        li      r5, STEPS
        li      r6, FLAGS
        jalr    r31, r10
        li      r9, INIT_TIMER
        li      r4, 2
        jalr    r31, r10
        li      r9, ENABLE_IRQ
next:
        addiu   r16, r16, 1
        xor     r17, r17, r16
        b       next
        addu    r18, r18, r17

# It has its own registers. r31 is the gate to which it returns.
tick:
        la      r8, ticks
        lw      r9, 0(r8)
        nop
        addiu   r9, r9, 1
        jr      r31
        sw      r9, 0(r8)

        .align  2
ticks:  .word   0
