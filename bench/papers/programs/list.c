/* A list of cells of 8 bytes that is walked and turned round again and again. */
#include "work.h"

enum { CELLS = 30 * SCALE, TIMES = 10 * SCALE };

struct cell {
    struct cell *next;
    uint32_t value;
};

int main(void) {
    struct cell *list = 0;
    uint32_t sum = 0;
    for (int i = 0; i < CELLS; i++) {
        struct cell *cell = object(sizeof *cell);
        *cell = (struct cell){list, drawn(1000)};
        list = cell;
    }
    for (int time = 0; time < TIMES; time++) {
        struct cell *turned = 0;
        while (list) {
            struct cell *next = list->next;
            sum = 31 * sum + list->value++;
            list->next = turned;
            turned = list;
            list = next;
        }
        list = turned;
    }
    return came_to(sum);
}
