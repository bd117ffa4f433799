/* A clock of the program's own: another hart counts. */
#include <stdint.h>
#include <stdio.h>
#include <sys/time.h>

#include "mondrix.h"

static volatile uint32_t rounds, done;

uint64_t mondrix_clock(void) { return rounds; }

static long micros(void) {
    struct timeval now;
    gettimeofday(&now, 0);
    return 1000000 * (long)now.tv_sec + now.tv_usec;
}

int main(void) {
    if (mondrix_hart() == 1) {
        while (!done) rounds++;
        return 0;
    }
    long before = micros();
    for (volatile int i = 0; i < 1000; i++) {}
    long after = micros();
    for (volatile int i = 0; i < 4000; i++) {}
    long last = micros();
    printf("%s\n", last - after > 2 * (after - before) && after > before ? "longer" : "not longer");
    done = 1;
    return 0;
}
