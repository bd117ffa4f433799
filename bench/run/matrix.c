/* The product of two matrices of 32 rows and columns, modulo 2^32. */
#include "work.h"

#define SIDE 32

static uint32_t left[SIDE][SIDE], right[SIDE][SIDE], product[SIDE][SIDE];

uint32_t work(uint32_t round) {
    uint32_t seed = round, sum = 0;
    for (int i = 0; i < SIDE; i++)
        for (int j = 0; j < SIDE; j++) {
            left[i][j] = next(&seed) >> 8;
            right[i][j] = next(&seed) >> 8;
        }
    for (int i = 0; i < SIDE; i++)
        for (int j = 0; j < SIDE; j++) {
            uint32_t cell = 0;
            for (int k = 0; k < SIDE; k++) cell += left[i][k] * right[k][j];
            product[i][j] = cell;
        }
    for (int i = 0; i < SIDE; i++)
        for (int j = 0; j < SIDE; j++) sum = 3 * sum + product[i][j];
    return sum;
}
