/* Memory in the manner of the papers' malloc, in the heap area of this module. Before each object stand eight bytes, as
 * of a header. With grain 1 the other module gets read-write on each object alone, and loses it when the object is
 * given back, so that nobody may touch headers and free blocks; with grain 2 it has read-write on the whole area from
 * the first object on. What a header would say stands in this module's own data. `arena` and `grain` are symbols of
 * the linker. */
#include "store.h"

#ifndef ARENA_BYTES
#define ARENA_BYTES 0x80000
#endif
enum { UNIT = 8, UNITS = ARENA_BYTES / UNIT, CLASSES = 128, EXACT = 64, NODES = 4096, COARSE = 2 };

MONDRIX_GATE(take);
MONDRIX_GATE(give);

extern char arena[], grain[];

/* Of each unit, which class of sizes the object has that begins there, and 0 where none does. */
static uint8_t class_at[UNITS];
static uint32_t end;

/* The free blocks of a class, and the nodes that no list has. */
static struct node {
    uint32_t unit, next;
} nodes[NODES];
static uint32_t free_of[CLASSES], spare, used_nodes;

static int is_coarse(void) { return (uintptr_t)grain == COARSE; }

/* The units of a class: each number up to 64, then four sizes for each doubling. */
static uint32_t units_of(uint32_t class) {
    uint32_t above = class - EXACT - 1;
    return class <= EXACT ? class : (5 + (above & 3)) << (4 + (above >> 2));
}

static uint32_t new_node(void) {
    uint32_t node = spare;
    if (node != 0) spare = nodes[node].next;
    else if (used_nodes < NODES - 1) node = ++used_nodes;
    return node;
}

/* The first unit of a free block of the class, or of one behind all others. 0 is none. */
static uint32_t found(uint32_t class) {
    uint32_t node = free_of[class];
    if (node == 0) {
        if (units_of(class) > UNITS - 1 - end) return 0;
        uint32_t unit = end + 1;
        end = unit + units_of(class);
        return unit;
    }
    free_of[class] = nodes[node].next;
    nodes[node].next = spare;
    spare = node;
    return nodes[node].unit;
}

void *take_entered(uint32_t bytes) {
    if (bytes == 0 || bytes > ARENA_BYTES) return 0;
    if (end == 0 && is_coarse() && mondrix_grant(arena, ARENA_BYTES, WORK, MONDRIX_READ_WRITE) != MONDRIX_OK) return 0;
    uint32_t units = (bytes + UNIT - 1) / UNIT, class = units <= EXACT ? units : EXACT + 1;
    while (units_of(class) < units) class++;
    uint32_t unit = found(class);
    if (unit == 0) return 0;
    char *object = arena + UNIT * unit;
    uint32_t whole = (bytes + 3) / 4 * 4;
    if (!is_coarse() && mondrix_grant(object, whole, WORK, MONDRIX_READ_WRITE) != MONDRIX_OK) return 0;
    class_at[unit] = (uint8_t)class;
    return object;
}

int32_t give_entered(const void *object) {
    uint32_t offset = (uint32_t)object - (uint32_t)arena, unit = offset / UNIT, node;
    if (offset % UNIT != 0 || unit >= UNITS || class_at[unit] == 0 || (node = new_node()) == 0) return -1;
    uint32_t class = class_at[unit];
    if (!is_coarse() && mondrix_grant(object, UNIT * units_of(class), WORK, MONDRIX_NONE) != MONDRIX_OK) return -1;
    class_at[unit] = 0;
    nodes[node] = (struct node){unit, free_of[class]};
    free_of[class] = node;
    return 0;
}
