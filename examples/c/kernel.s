# The kernel's calls, for the GNU assembler: a line for each, in the order of kernel.h.
# Each is a section of its own, so a program has those alone that it uses.

        .set    noreorder

        .macro  function name
        .section .text.\name, "ax", @progbits
        .globl  \name
        .type   \name, @function
\name:
        .endm

# A call: its number in r9, then a jump to its gate. C has the arguments and the answer where the kernel has them, and the kernel returns to C by r31.
        .macro  call gate, number, name
        function \name
        li      $10, \gate
        jr      $10
        li      $9, \number             # in the slot of the jump
        .endm

# A SYSCALL: its number in r4. It goes on behind itself.
        .macro  system number, name
        function \name
        li      $4, \number
        syscall
        jr      $31
        nop
        .endm

        .equ    A, 0xA0                 # the gates
        .equ    B, 0xB0
        .equ    C, 0xC0

# Control
        call    A, 0x06, exit
        call    A, 0x3A, _exit
        call    A, 0x13, setjmp
        call    A, 0x14, longjmp
        call    A, 0x44, FlushCache

# Files and console
        call    A, 0x3C, putchar
        call    A, 0x3B, getchar
        call    A, 0x3D, gets
        call    A, 0x3E, puts
        call    A, 0x3F, printf
        call    A, 0x00, open
        call    A, 0x02, read
        call    A, 0x03, write
        call    A, 0x04, close
        call    A, 0x08, getc
        call    A, 0x09, putc
        call    B, 0x54, GetLastError

# Numbers
        call    A, 0x0C, strtoul
        call    A, 0x0D, strtol
        call    A, 0x10, atoi
        call    A, 0x11, atol
        call    A, 0x0E, abs
        call    A, 0x0F, labs
        call    A, 0x2F, rand
        call    A, 0x30, srand

# Text
        call    A, 0x15, strcat
        call    A, 0x16, strncat
        call    A, 0x17, strcmp
        call    A, 0x18, strncmp
        call    A, 0x19, strcpy
        call    A, 0x1A, strncpy
        call    A, 0x1B, strlen
        call    A, 0x1C, index
        call    A, 0x1D, rindex
        call    A, 0x1E, strchr
        call    A, 0x1F, strrchr
        call    A, 0x20, strpbrk
        call    A, 0x21, strspn
        call    A, 0x22, strcspn
        call    A, 0x23, strtok
        call    A, 0x24, strstr
        call    A, 0x25, toupper
        call    A, 0x26, tolower

# Memory
        call    A, 0x27, bcopy
        call    A, 0x28, bzero
        call    A, 0x29, bcmp
        call    A, 0x2A, memcpy
        call    A, 0x2B, memset
        call    A, 0x2C, memmove
        call    A, 0x2D, memcmp
        call    A, 0x2E, memchr

# Heap
        call    A, 0x39, InitHeap
        call    A, 0x33, malloc
        call    A, 0x34, free
        call    A, 0x37, calloc
        call    A, 0x38, realloc

# Threads, events, interrupts
        call    B, 0x0E, OpenThread
        call    B, 0x0F, CloseThread
        call    B, 0x10, ChangeThread
        call    B, 0x08, OpenEvent
        call    B, 0x09, CloseEvent
        call    B, 0x0A, WaitEvent
        call    B, 0x0B, TestEvent
        call    B, 0x0C, EnableEvent
        call    B, 0x0D, DisableEvent
        call    B, 0x20, UnDeliverEvent
        call    B, 0x07, DeliverEvent
        call    B, 0x17, ReturnFromException
        call    C, 0x02, SysEnqIntRP
        call    C, 0x03, SysDeqIntRP
        call    B, 0x02, init_timer
        call    B, 0x03, get_timer
        call    B, 0x04, enable_timer_irq
        call    B, 0x05, disable_timer_irq
        call    B, 0x06, restart_timer
        system  0, NoFunction
        system  1, EnterCriticalSection
        system  2, ExitCriticalSection
