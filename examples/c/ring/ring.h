/* A ring between two modules. All words are the producer's at first. The producer may write `produced` and read
 * `consumed`, the consumer just the other way round, and nobody owns them any more, so nobody can change that. */
#ifndef RING_H
#define RING_H
#include <stdint.h>

enum { RING_ITEMS = 8, NUMBERS = 100 };

struct produced {
    volatile uint32_t count; /* how many items were ever put */
    volatile uint32_t items[RING_ITEMS];
};
struct consumed {
    volatile uint32_t count; /* how many items were ever taken */
};
struct ring {
    struct produced produced;
    struct consumed consumed;
};

/* The producer's gate: where the ring is, once it is open, and 0 before. Whoever asks, it is open for the consumer. */
struct ring *ring_open(void);
struct ring *ring_open_entered(void);

#endif
