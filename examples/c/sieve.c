/* Counts the primes below half a million by the sieve of Eratosthenes, over 250,000 bytes of memory, one for each odd number.
   It makes more steps than examples/run.sh gives to others, so sieve.budget has how many it may make. */

#include "kernel.h"

enum { BELOW = 500000, ODD = BELOW / 2 };

static char prime[ODD];                 /* prime[i] is 1 where 2 i + 1 is taken for a prime */

static void sieve(void) {
    memset(prime, 1, ODD);
    for (int i = 1; 2 * i * (i + 1) < ODD; i++) {
        if (prime[i]) {                 /* from the square of 2 i + 1 on every odd multiple */
            for (int k = 2 * i * (i + 1); k < ODD; k += 2 * i + 1) {
                prime[k] = 0;
            }
        }
    }
}

int main(void) {
    int count = 1;                      /* 2, the one even prime */
    int greatest = 2;
    sieve();
    for (int i = 1; i < ODD; i++) {
        if (prime[i]) {
            count++;
            greatest = 2 * i + 1;
        }
    }
    printf("%d primes below %d, the greatest %d\n", count, BELOW, greatest);
    return 0;
}
