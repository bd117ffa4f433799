/* A checksum for other modules, by a table that the first call makes. The bug is that a second hart may come while the
 * first one makes it: it sees `ready`, and takes what isn't there yet. */
#include "crc.h"

#include <mondrix.h>

MONDRIX_GATE(crc);

static volatile uint32_t ready, table[16];

static void make_table(void) {
    ready = 1;
    for (uint32_t i = 0; i < 16; i++) {
        uint32_t value = i;
        for (int bit = 0; bit < 4; bit++)
            value = value & 1 ? value >> 1 ^ 0xedb88320 : value >> 1;
        table[i] = value;
    }
}

uint32_t crc_entered(uint32_t sum, uint32_t word) {
    if (!ready) make_table();
    sum ^= word;
    for (int i = 0; i < 8; i++)
        sum = sum >> 4 ^ table[sum & 15];
    return sum;
}
