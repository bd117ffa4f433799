/* Hart 1: makes a packet, has the sum of its head made, and looks whether it is that of the other side. */
#include <mondrix.h>

#include "crc.h"

enum { WORDS = 40, HEAD = 8 };

static uint32_t packet[WORDS];

int main(void) {
    uint32_t next = 1, sum = ~0u;
    for (unsigned i = 0; i < 4 * WORDS; i++) {
        next = next * 1103515245 + 12345;
        ((uint8_t *)packet)[i] = next >> 16;
    }
    for (unsigned i = 0; i < HEAD; i++)
        sum = crc(sum, packet[i]);
    return ~sum != 0x2d283b6d;
}
