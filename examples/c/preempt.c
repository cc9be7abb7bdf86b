/* Two threads that a vertical blank preempts, which preempt.sched raises six times: its event's function names the other thread, and that runs when the function has returned.
   Neither thread calls ChangeThread. */

#include "kernel.h"

enum { VBLANK = 3, TURNS = 6 };

static const unsigned thread[2] = {0xFF000000, 0xFF000001};

static volatile int turn;

static void blank(void) {
    turn++;
    ChangeThread(thread[turn % 2]);
}

_Noreturn static void take_turns(char letter) {
    for (int known = 0; known != TURNS;) {
        if (turn != known) {
            known = turn;
            putchar(letter);
        }
    }
    putchar('\n');
    exit(0);
}

static void second(void) {
    take_turns('B');
}

int main(void) {
    static char stack[4096];
    OpenThread(second, stack + sizeof stack, 0);
    EnableEvent(OpenEvent(0xF2000003, 2, 0x1000, blank));
    enable_timer_irq(VBLANK);
    take_turns('A');
}
