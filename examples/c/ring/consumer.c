/* Takes what the other module puts, and prints the sum. The place of an item is its own number modulo the ring's size,
 * whatever the producer says. */
#include "modules.h"
#include "mondrix.h"
#include "ring.h"

#include <stdio.h>

int main(void) {
    struct ring *ring;
    while ((ring = ring_open()) == 0) {}
    if (mondrix_is_fault((int32_t)ring)) return 1;
    printf("rights: %d on what it reads, %d on what it writes\n", mondrix_query(&ring->produced, CONSUMER),
           mondrix_query(&ring->consumed, CONSUMER));
    uint32_t sum = 0;
    for (uint32_t i = 0; i < NUMBERS; i++) {
        while (ring->produced.count == i) {}
        sum += ring->produced.items[i % RING_ITEMS];
        ring->consumed.count = i + 1;
    }
    printf("sum of the squares of 1 to %d: %u\n", NUMBERS, (unsigned)sum);
    printf("a grant on a word of the ring: %s\n",
           mondrix_code_name(mondrix_grant(ring, 4, CONSUMER, MONDRIX_READ_WRITE)));
    return 0;
}
