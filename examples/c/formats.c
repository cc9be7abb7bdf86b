/* printf in all its forms. Where a width or a precision is above 255, 255 is taken. */

#include "kernel.h"

static const char *volatile nothing;

int main(void) {
    int written = 0;
    written += printf("%d %i %d %u\n", 42, -42, -2147483647 - 1, 4294967295u);
    written += printf("%o %x %X %c%c\n", 8, 48879, 48879, 'o', 'k');
    written += printf("|%5d|%-5d|%05d|%.3d|%6.3d|\n", 42, 42, -42, 7, 7);
    written += printf("|%8s|%-8s|%.2s|%s|\n", "word", "word", "word", nothing);
    written += printf("%ld%% of %s\n", 100L, "all");
    return written;
}
