/* Puts the squares of 1 to NUMBERS into a ring. What it reads of the ring the other module wrote: it is a number to
 * look at, and leads to no address. */
#include "ring.h"

#include "modules.h"
#include "mondrix.h"

static struct ring ring __attribute__((aligned(4)));
static volatile uint32_t opened;

MONDRIX_GATE(ring_open);

/* It changes nothing, so it may be called by anybody and at any time. */
struct ring *ring_open_entered(void) { return opened ? &ring : 0; }

int main(void) {
    mondrix_must(mondrix_grant(&ring.produced, sizeof ring.produced, CONSUMER, MONDRIX_READ));
    mondrix_must(mondrix_grant(&ring.consumed, sizeof ring.consumed, CONSUMER, MONDRIX_READ_WRITE));
    mondrix_must(mondrix_grant(&ring.consumed, sizeof ring.consumed, PRODUCER, MONDRIX_READ));
    mondrix_must(mondrix_transfer(&ring, sizeof ring, 0));
    opened = 1;
    for (uint32_t i = 1; i <= NUMBERS; i++) {
        while (i - 1 - ring.consumed.count >= RING_ITEMS) {}
        ring.produced.items[(i - 1) % RING_ITEMS] = i * i;
        ring.produced.count = i;
    }
    return 0;
}
