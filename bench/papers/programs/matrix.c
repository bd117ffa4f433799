/* A product of two matrices whose rows are objects. */
#include "work.h"

enum { SIDE = 8 + 4 * SCALE };

static uint32_t **matrix(void) {
    uint32_t **rows = object(SIDE * sizeof *rows);
    for (int i = 0; i < SIDE; i++) {
        rows[i] = object(SIDE * sizeof **rows);
        for (int k = 0; k < SIDE; k++) rows[i][k] = drawn(100);
    }
    return rows;
}

int main(void) {
    uint32_t **one = matrix(), **other = matrix(), **product = matrix(), sum = 0;
    for (int i = 0; i < SIDE; i++)
        for (int k = 0; k < SIDE; k++) {
            uint32_t cell = 0;
            for (int j = 0; j < SIDE; j++) cell += one[i][j] * other[j][k];
            product[i][k] = cell;
        }
    for (int i = 0; i < SIDE; i++)
        for (int k = 0; k < SIDE; k++) sum = 31 * sum + product[i][k];
    return came_to(sum);
}
