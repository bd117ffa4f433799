/* A table of strings: each has an object with its text and how often it came. */
#include "work.h"

#include <string.h>

enum { BUCKETS = 256, STRINGS = 240 * SCALE, TIMES = 600 * SCALE, LONGEST = 24 };

struct entry {
    struct entry *next;
    uint32_t times;
    char text[];
};

static uint32_t hash_of(const char *text) {
    uint32_t hash = 2166136261u;
    for (; *text; text++) hash = (hash ^ (uint8_t)*text) * 16777619u;
    return (hash ^ hash >> 15) % BUCKETS;
}

/* The text of a number: 3 to 22 letters. */
static void write_text(char *text, uint32_t number) {
    uint32_t length = 3 + number * 7919 % 20;
    for (uint32_t i = 0; i < length; i++) {
        number = number * 69069u + 1;
        text[i] = (char)('a' + (number >> 16) % 26);
    }
    text[length] = 0;
}

static void count(struct entry **bucket, const char *text) {
    for (; *bucket; bucket = &(*bucket)->next)
        if (strcmp((*bucket)->text, text) == 0) {
            (*bucket)->times++;
            return;
        }
    *bucket = object(sizeof **bucket + strlen(text) + 1);
    (*bucket)->next = 0;
    (*bucket)->times = 1;
    strcpy((*bucket)->text, text);
}

int main(void) {
    struct entry **buckets = object(BUCKETS * sizeof *buckets);
    char text[LONGEST];
    uint32_t sum = 0;
    for (int i = 0; i < BUCKETS; i++) buckets[i] = 0;
    for (int i = 0; i < TIMES; i++) {
        write_text(text, drawn(STRINGS));
        count(&buckets[hash_of(text)], text);
    }
    for (int i = 0; i < BUCKETS; i++)
        while (buckets[i]) {
            struct entry *entry = buckets[i];
            sum = 31 * sum + entry->times;
            buckets[i] = entry->next;
            give(entry);
        }
    return came_to(sum);
}
