/* Time, for programs that ask for it. The machine has none, and a run repeats exactly: so each look at the clock is a
 * millisecond after the one before. A module with something better has a mondrix_clock of its own, as one that reads a
 * word in which another hart counts. It begins with the year 2024, since certificates and the like have their time. */
#include <sys/time.h>
#include <sys/times.h>
#include <time.h>
#include <unistd.h>

#include "mondrix.h"

#define OURS __attribute__((weak))

static struct mondrix_lock clock_lock = MONDRIX_LOCK;
static const uint64_t begin = 1704067200000000u; /* microseconds */
static uint64_t looked, slept;                    /* milliseconds; microseconds */

/* Microseconds since the first of January 1970. */
OURS uint64_t mondrix_clock(void) {
    mondrix_lock(&clock_lock);
    uint64_t now = begin + 1000 * looked++;
    mondrix_unlock(&clock_lock);
    return now;
}

static uint64_t now(void) { return mondrix_clock() + slept; }

OURS int gettimeofday(struct timeval *restrict time, void *restrict zone) {
    uint64_t micros = now();
    (void)zone;
    time->tv_sec = (time_t)(micros / 1000000);
    time->tv_usec = (suseconds_t)(micros % 1000000);
    return 0;
}

OURS clock_t times(struct tms *times) {
    clock_t ticks = (clock_t)(now() * CLOCKS_PER_SEC / 1000000);
    times->tms_utime = ticks;
    times->tms_stime = times->tms_cutime = times->tms_cstime = 0;
    return ticks;
}

/* Nothing waits: time goes on. */
OURS int usleep(useconds_t micros) {
    mondrix_lock(&clock_lock);
    slept += micros;
    mondrix_unlock(&clock_lock);
    return 0;
}

OURS unsigned sleep(unsigned seconds) {
    mondrix_lock(&clock_lock);
    slept += 1000000ull * seconds;
    mondrix_unlock(&clock_lock);
    return 0;
}
