#include <stdint.h>

uint32_t crc(uint32_t sum, uint32_t word); /* for callers: CRC-32 goes on from a sum over one word */
uint32_t crc_entered(uint32_t sum, uint32_t word);
