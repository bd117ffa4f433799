/* Has a sum for each port of what came there. */
#include "packets.h"

MONDRIX_GATE(deliver);

enum { PORTS = 8 };
static uint32_t sums[MONDRIX_HARTS][PORTS];

int32_t deliver_entered(uint32_t port, const uint32_t *words, uint32_t count) {
    uint32_t *sum = &sums[mondrix_hart()][port % PORTS];
    for (uint32_t i = 0; i < count; i++) *sum = 31 * *sum + words[i];
    return (int32_t)count;
}
