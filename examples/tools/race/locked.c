/* crc without its bug: the table is made under a lock, and whoever comes meanwhile waits. */
#include "crc.h"

#include <mondrix.h>

MONDRIX_GATE(crc);

static struct mondrix_lock lock = MONDRIX_LOCK;
static uint32_t ready, table[16];

static void make_table(void) {
    for (uint32_t i = 0; i < 16; i++) {
        uint32_t value = i;
        for (int bit = 0; bit < 4; bit++)
            value = value & 1 ? value >> 1 ^ 0xedb88320 : value >> 1;
        table[i] = value;
    }
    ready = 1;
}

uint32_t crc_entered(uint32_t sum, uint32_t word) {
    mondrix_lock(&lock);
    if (!ready) make_table();
    mondrix_unlock(&lock);
    sum ^= word;
    for (int i = 0; i < 8; i++)
        sum = sum >> 4 ^ table[sum & 15];
    return sum;
}
