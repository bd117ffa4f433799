/* Objects of one size, which are read word by word, one drawn after the other. `bytes` is a symbol of the linker. */
#include "work.h"

enum { OBJECTS = 30 * SCALE, TIMES = 10 };

extern char bytes[];
static uint32_t *objects[OBJECTS];

int main(void) {
    uint32_t words = (uintptr_t)bytes / 4, sum = 0;
    for (int i = 0; i < OBJECTS; i++) {
        objects[i] = object((uintptr_t)bytes);
        for (uint32_t k = 0; k < words; k++) objects[i][k] = drawn(1000);
    }
    for (int i = 0; i < TIMES * OBJECTS; i++) {
        const uint32_t *object = objects[drawn(OBJECTS)];
        for (uint32_t k = 0; k < words; k++) sum = 31 * sum + object[k];
    }
    return came_to(sum);
}
