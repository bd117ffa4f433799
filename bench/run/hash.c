/* A hash of 4096 bytes: FNV-1a, then the mixing of its bits. */
#include "work.h"

static uint8_t bytes[4096];

uint32_t work(uint32_t round) {
    uint32_t seed = round, hash = 2166136261u;
    if (round == 0)
        for (int i = 0; i < 4096; i++) bytes[i] = (uint8_t)(next(&seed) >> 16);
    bytes[round & 4095]++;
    for (int i = 0; i < 4096; i++) hash = (hash ^ bytes[i]) * 16777619u;
    hash ^= hash >> 16;
    hash *= 0x85EBCA6Bu;
    return hash ^ hash >> 13;
}
