/* One module on four harts: each counts under a lock, prints lines of its own, and calls malloc. */
#include <stdio.h>
#include <stdlib.h>

#include "mondrix.h"

enum { HARTS = 4, ROUNDS = 100 };

static struct mondrix_lock lock = MONDRIX_LOCK;
static uint32_t count; /* not volatile: the lock alone keeps it */
static volatile uint32_t done, first_come;
static uint32_t *blocks[HARTS];

int main(void) {
    unsigned hart = mondrix_hart();
    for (int i = 0; i < ROUNDS; i++) {
        mondrix_lock(&lock);
        count++;
        mondrix_unlock(&lock);
    }
    blocks[hart] = malloc(sizeof(uint32_t));
    *blocks[hart] = ROUNDS;

    mondrix_lock(&lock);
    done++;
    mondrix_unlock(&lock);
    if (!mondrix_try(&first_come)) return 0; /* only one hart has it */
    while (done != HARTS) {}

    uint32_t sum = 0;
    for (int i = 0; i < HARTS; i++) sum += *blocks[i];
    printf("counted %u, and %u in blocks\n", (unsigned)count, (unsigned)sum);
    return 0;
}
