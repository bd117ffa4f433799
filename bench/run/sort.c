/* Sorts 1024 words by a heap, and adds them up by their places. */
#include "work.h"

static uint32_t words[1024];

static void sink(uint32_t at, uint32_t len) {
    uint32_t word = words[at];
    for (;;) {
        uint32_t child = 2 * at + 1;
        if (child >= len) break;
        if (child + 1 < len && words[child] < words[child + 1]) child++;
        if (words[child] <= word) break;
        words[at] = words[child];
        at = child;
    }
    words[at] = word;
}

uint32_t work(uint32_t round) {
    uint32_t seed = round, sum = 0;
    for (int i = 0; i < 1024; i++) words[i] = next(&seed) >> 3;
    for (uint32_t i = 512; i-- > 0;) sink(i, 1024);
    for (uint32_t len = 1023; len > 0; len--) {
        uint32_t most = words[0];
        words[0] = words[len];
        words[len] = most;
        sink(0, len);
    }
    for (uint32_t i = 0; i < 1024; i++) sum += (i + 1) * words[i];
    return sum;
}
