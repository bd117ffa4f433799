/* The first fault of a snapshot, read a second time from docs/COMMANDS.md "The snapshot". */
#include <stdio.h>
#include <string.h>
#include <sys/stat.h>

#include "change.h"

enum { MOST_FIELDS = 65536, NAME = 32, MODULES = 63, GATES = 256 };

static uint64_t size, at, fault_at;
static int fault;

/* The fields before RAM's bytes, by their places; the last one ends where the next would begin. */
static uint64_t field_at[MOST_FIELDS + 1];
static size_t fields;

static void refuse(uint64_t place, int number) {
    if (!fault) fault = number, fault_at = place;
}

/* A field of so many bytes, and its place. */
static uint64_t last;
static uint64_t field(uint64_t width) {
    last = at;
    if (fault) return last;
    if (fields < MOST_FIELDS) field_at[fields++] = at;
    if (width > size - at)
        refuse(last, 2);
    else
        at += width;
    return last;
}

static uint64_t number(unsigned width) {
    uint64_t from = field(width), value = 0;
    for (unsigned i = 0; !fault && i < width; i++)
        if (from + i < count) value |= (uint64_t)bytes[from + i] << 8 * i;
    return value;
}

/* The last field is in its range. */
static void need(int is_so) {
    if (!is_so) refuse(last, 4);
}

static uint64_t between(uint64_t low, uint64_t high) {
    uint64_t value = number(4);
    need(low <= value && value <= high);
    return value;
}

static uint64_t words, modules, harts;

static void head(void) {
    uint64_t value = field(8);
    if (!fault && memcmp(bytes + value, "MXSN\1\0\0\0", 8) != 0) refuse(value, 3);
    words = between(16384, 16777216);
    need(words % 1024 == 0);
    between(0, 2);
    between(0, 4096);
    between(0, 262144);
    between(0, 1048576);
    value = number(4);
    need(value == 8 || value == 32 || value == 64);
    between(1, 1000000);
    modules = between(1, MODULES);
    harts = between(1, 4);
    need(number(8) <= INT64_MAX);
}

static char names[MODULES][NAME + 1];

static void name(uint64_t module) {
    uint64_t length = between(1, NAME), from = field(length);
    if (fault) return;
    memset(names[module], 0, sizeof names[module]);
    for (uint64_t i = 0; i < length && from + i < count; i++) names[module][i] = (char)bytes[from + i];
    need(strspn(names[module], "abcdefghijklmnopqrstuvwxyz0123456789_") == length);
    for (uint64_t i = 0; i < module; i++) need(strcmp(names[i], names[module]) != 0);
}

/* An area of a module, so many words for each unit that is told, and where it ends. */
static uint64_t area(uint64_t unit, uint64_t *first) {
    *first = number(4);
    uint64_t all = number(4) * unit;
    need(*first + all <= words && (all > 0 || *first == 0));
    return *first + all;
}

/* So many runs of words that fill RAM: a number with count and value, or two. */
static void runs(uint64_t many, int are_owners) {
    uint64_t sum = 0, before = 0;
    for (uint64_t i = 0; i < many && !fault; i++) {
        uint64_t value = number(4), run = are_owners ? value : value / 4;
        need(run > 0 && (i + 1 == many ? sum + run == words : sum + run <= words));
        value = are_owners ? between(0, modules) : value % 4;
        need(i == 0 || value != before);
        sum += run, before = value;
    }
}

static void module(uint64_t number_of_it) {
    uint64_t first, behind, end, stack;
    name(number_of_it);
    end = area(1, &behind);
    area(harts, &stack);
    between(0, 1);
    between(0, 1);
    for (uint64_t left = between(0, 1024); left > 0 && !fault; left--) {
        first = number(4);
        uint64_t block = number(4);
        need(block > 0 && first >= behind && first + block <= end);
        behind = first + block;
    }
    runs(between(1, UINT32_MAX), 0);
}

static void gates(void) {
    uint64_t domain[GATES], word[GATES], many = between(0, GATES);
    for (uint64_t i = 0; i < many && !fault; i++) {
        domain[i] = between(1, modules);
        word[i] = number(4);
        need(word[i] < words);
        for (uint64_t j = 0; j < i; j++) need(domain[j] != domain[i] || word[j] != word[i]);
        between(1, modules);
    }
}

static void hart(uint64_t number_of_it) {
    uint64_t status = between(0, 2), heard;
    between(1, modules);
    need(number(4) % 4 == 0);
    for (int i = 0; i < 32; i++) {
        uint64_t value = number(4);
        need(i != 0 || value == 0);
        need(i != 17 || status != 1 || value == 3 || value == 4 || value == 6 || value == 7);
    }
    for (uint64_t left = between(0, 64); left > 0 && !fault; left--) {
        need(number(4) % 4 == 0);
        between(1, modules);
        for (int i = 0; i < 15; i++) number(4);
    }
    heard = number(4);
    need(status == 1 ? heard < 1u << harts && !(heard >> number_of_it & 1) : heard == 0);
}

static void snapshot(void) {
    at = fault_at = fault = 0;
    fields = 0;
    if (size > SNAPSHOT_LIMIT) refuse(0, 1);
    head();
    for (uint64_t i = 0; i < modules && !fault; i++) module(i);
    runs(between(1, 4096), 1);
    gates();
    for (uint64_t i = 0; i < harts && !fault; i++) hart(i);
    field(4 * words);
    if (at < size) refuse(at, 5);
}

/* Says the number and the place of the fault of a snapshot, or `none`. */
int snapshot_fault(const char *file) {
    struct stat about;
    if (stat(file, &about) != 0) return 1;
    size = (uint64_t)about.st_size;
    read_file(file);
    snapshot();
    if (fault)
        printf("%d %llu\n", fault, (unsigned long long)fault_at);
    else
        puts("none");
    return 0;
}

/* A field of the snapshot that stands in `bytes`, one before RAM's bytes or before the first fault. */
size_t snapshot_field(size_t *width) {
    size = count;
    snapshot();
    if (fields < 2) return *width = 0, 0;
    size_t chosen = below(fields - 1);
    *width = field_at[chosen + 1] - field_at[chosen];
    return field_at[chosen];
}
