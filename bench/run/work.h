/* One round of a program. */
#include <stdint.h>

uint32_t work(uint32_t round);

/* the next of a row of numbers */
static inline uint32_t next(uint32_t *seed) { return *seed = 1103515245u * *seed + 12345u; }
