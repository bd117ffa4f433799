/* CRC-32 of buffers of many sizes, by a table. */
#include "work.h"

enum { BUFFERS = 4 + 6 * SCALE, LEAST = 64, MOST = 1024 };

static uint32_t table[256];

static void make_table(void) {
    for (uint32_t i = 0; i < 256; i++) {
        table[i] = i;
        for (int bit = 0; bit < 8; bit++) table[i] = table[i] >> 1 ^ (table[i] & 1 ? 0xedb88320u : 0);
    }
}

int main(void) {
    uint8_t *buffers[BUFFERS];
    uint32_t sizes[BUFFERS], sum = 0;
    make_table();
    for (int i = 0; i < BUFFERS; i++) {
        sizes[i] = LEAST + drawn(MOST - LEAST);
        buffers[i] = object(sizes[i]);
        for (uint32_t k = 0; k < sizes[i]; k++) buffers[i][k] = (uint8_t)(i * 7 + k);
    }
    for (int i = 0; i < BUFFERS; i++) {
        uint32_t crc = ~0u;
        for (uint32_t k = 0; k < sizes[i]; k++) crc = crc >> 8 ^ table[(crc ^ buffers[i][k]) & 255];
        sum = 31 * sum + ~crc;
    }
    return came_to(sum);
}
