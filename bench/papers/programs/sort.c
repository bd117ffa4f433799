/* Records of 12 bytes, sorted by merging through two arrays of pointers. */
#include "work.h"

enum { RECORDS = 102 * SCALE };

struct record {
    uint32_t key, place, check;
};

static int is_before(const struct record *one, const struct record *other) {
    return one->key < other->key || (one->key == other->key && one->place < other->place);
}

static void merge(struct record **from, struct record **to, uint32_t low, uint32_t middle, uint32_t high) {
    uint32_t left = low, right = middle;
    for (uint32_t i = low; i < high; i++)
        to[i] = right == high || (left < middle && is_before(from[left], from[right])) ? from[left++] : from[right++];
}

int main(void) {
    struct record **from = object(RECORDS * sizeof *from), **to = object(RECORDS * sizeof *to);
    uint32_t sum = 0;
    for (uint32_t i = 0; i < RECORDS; i++) {
        from[i] = object(sizeof **from);
        uint32_t key = drawn(10000);
        *from[i] = (struct record){key, i, key ^ i};
    }
    for (uint32_t wide = 1; wide < RECORDS; wide *= 2) {
        for (uint32_t low = 0; low < RECORDS; low += 2 * wide) {
            uint32_t middle = low + wide < RECORDS ? low + wide : RECORDS;
            merge(from, to, low, middle, low + 2 * wide < RECORDS ? low + 2 * wide : RECORDS);
        }
        struct record **other = from;
        from = to;
        to = other;
    }
    for (uint32_t i = 0; i < RECORDS; i++) sum = 31 * sum + (from[i]->check ^ from[i]->place);
    return came_to(sum);
}
