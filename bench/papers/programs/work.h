/* What the programs share: objects, drawn numbers, and what they write at the end. SCALE is how much they do. */
#ifndef WORK_H
#define WORK_H

#include "store.h"

#ifndef SCALE
#define SCALE 1
#endif

static inline void *object(uint32_t bytes) {
    void *made = take(bytes);
    if (made == 0 || mondrix_is_fault((int32_t)made)) mondrix_leave(1);
    return made;
}

static inline uint32_t drawn(uint32_t below) {
    static uint32_t state = 1;
    state = state * 1103515245u + 12345u;
    return (state >> 8) % below;
}

/* Writes what the work came to, and answers 0. */
static inline int came_to(uint32_t sum) {
    static char line[9];
    for (int i = 0; i < 8; i++) line[i] = "0123456789abcdef"[sum >> (28 - 4 * i) & 15];
    line[8] = '\n';
    return mondrix_write(line, sizeof line) == sizeof line ? 0 : 2;
}

#endif
