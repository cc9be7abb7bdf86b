/* Writes a line and the first cubes. */

#include "kernel.h"

int main(void) {
    puts("Hello from C:");
    for (unsigned side = 1; side <= 5; side++) {
        printf(" %u", side * side * side);
    }
    putchar('\n');
    return 0;
}
