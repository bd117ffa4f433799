/* CRC-32 of 4096 bytes by a table of 256 words. */
#include "work.h"

static uint32_t table[256];
static uint8_t bytes[4096];

static void prepare(void) {
    uint32_t seed = 1;
    for (uint32_t i = 0; i < 256; i++) {
        uint32_t rest = i;
        for (int bit = 0; bit < 8; bit++) rest = rest & 1 ? rest >> 1 ^ 0xEDB88320u : rest >> 1;
        table[i] = rest;
    }
    for (int i = 0; i < 4096; i++) bytes[i] = (uint8_t)(next(&seed) >> 16);
}

uint32_t work(uint32_t round) {
    uint32_t rest = 0xFFFFFFFFu;
    if (round == 0) prepare();
    bytes[round & 4095]++;
    for (int i = 0; i < 4096; i++) rest = table[(rest ^ bytes[i]) & 255] ^ rest >> 8;
    return ~rest;
}
