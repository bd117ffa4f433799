/* Hart 0: looks at the first block of a disk, whose last word is the sum of the others. */
#include <mondrix.h>

#include "crc.h"

static const uint32_t block[] = {0x6e6f6d31, 0x78697264, 0x00000001, 0xaae79f4a};

int main(void) {
    uint32_t sum = ~0u;
    for (unsigned i = 0; i < sizeof block / 4 - 1; i++)
        sum = crc(sum, block[i]);
    return ~sum != block[sizeof block / 4 - 1];
}
