/* A clock: root counter 2 comes to its target at each 20,000 steps, and the function of its event counts the ticks. */

#include "kernel.h"

enum { COUNTER = 2, STEPS = 20000, AT_TARGET = 0x1001 };

static volatile int ticks;

static void tick(void) {
    ticks++;
}

int main(void) {
    int event = OpenEvent(0xF2000000 + COUNTER, 2, 0x1000, tick);
    EnableEvent(event);
    init_timer(COUNTER, STEPS, AT_TARGET);
    enable_timer_irq(COUNTER);
    for (int shown = 0; shown < 5; shown++) {
        while (ticks == shown) {
        }
        printf("tick %d\n", shown + 1);
    }
    disable_timer_irq(COUNTER);
    CloseEvent(event);
    return 0;
}
