/* The checks of crates/check_speed in C: the test of a place that answers, with the same counts and the same
   fall-backs. Prints what check_speed prints. */
#include <stdint.h>
#include <stdio.h>
#include <stdlib.h>
#include <time.h>

enum { NONE, READ, READ_WRITE, EXECUTE_READ };
enum { LOAD, STORE, FETCH };

#define BASE 0x80000000u
#define WORDS 16384u
#define ENTRIES 8

struct span {
    uint32_t first, count;
    uint8_t perm, held;
};

struct entry {
    uint32_t domain;
    struct span span;
};

struct part {
    struct span places[32];
    struct entry kept[ENTRIES];
    uint32_t newest, len;
    uint64_t sidecar, lookaside, walks;
    uint32_t domain;
};

struct checker {
    uint8_t *perms; /* of domain 1, then of domain 2 */
    uint32_t words, harts;
    struct part parts[4];
};

static int allows(uint8_t perm, int access) {
    switch (access) {
    case LOAD: return perm != NONE;
    case STORE: return perm == READ_WRITE;
    default: return perm == EXECUTE_READ;
    }
}

static int has(const struct span *s, uint32_t word) { return s->first <= word && word - s->first < s->count; }

static struct span walk(const struct checker *c, uint32_t domain, uint32_t word) {
    const uint8_t *map = c->perms + (size_t)(domain - 1) * c->words;
    uint32_t first = word, end = word + 1;
    while (first > 0 && map[first - 1] == map[word]) first--;
    while (end < c->words && map[end] == map[word]) end++;
    return (struct span){first, end - first, map[word], 1};
}

static __attribute__((noinline)) uint8_t behind(struct checker *c, struct part *p, uint32_t place, uint32_t domain,
                                                 uint32_t word) {
    for (uint32_t age = 0; age < p->len; age++) {
        const struct entry *e = &p->kept[(p->newest + age) % ENTRIES];
        if (e->domain == domain && has(&e->span, word)) {
            p->places[place] = e->span;
            p->lookaside++;
            return e->span.perm;
        }
    }
    struct span s = walk(c, domain, word);
    p->places[place] = s;
    p->newest = (p->newest + ENTRIES - 1) % ENTRIES;
    p->kept[p->newest] = (struct entry){domain, s};
    if (p->len < ENTRIES) p->len++;
    p->walks++;
    return s.perm;
}

static __attribute__((noinline)) int may(struct checker *c, uint32_t hart, uint32_t place, uint32_t domain,
                                         uint32_t addr, int access) {
    if (addr < BASE || (addr - BASE) / 4 >= c->words) return 0;
    uint32_t word = (addr - BASE) / 4;
    struct part *p = &c->parts[hart];
    const struct span *s = &p->places[place];
    p->domain = domain;
    if (s->held && has(s, word)) {
        if (p->sidecar != UINT64_MAX) p->sidecar++;
        return allows(s->perm, access);
    }
    return allows(behind(c, p, place, domain, word), access);
}

int main(int argc, char **argv) {
    if (argc < 2) return 2;
    uint64_t rounds = strtoull(argv[1], NULL, 10), allowed = 0;
    struct checker *c = calloc(1, sizeof *c);
    if (!c || !(c->perms = calloc(2, WORDS))) return 1;
    c->words = WORDS;
    c->harts = 1;
    for (uint32_t i = 0; i < 1024; i++) {
        c->perms[i] = EXECUTE_READ;
        c->perms[WORDS + 1024 + i] = READ_WRITE;
    }
    struct timespec begun, ended;
    clock_gettime(CLOCK_THREAD_CPUTIME_ID, &begun);
    for (uint64_t round = 0; round < rounds; round++) {
        uint32_t addr = BASE + (uint32_t)(round % 1024) * 4;
        if (may(c, 0, 5, 1, addr, LOAD)) allowed++;
    }
    clock_gettime(CLOCK_THREAD_CPUTIME_ID, &ended);
    printf("allowed %llu\n", (unsigned long long)allowed);
    printf("sidecar %llu lookaside %llu walks %llu\n", (unsigned long long)c->parts[0].sidecar,
           (unsigned long long)c->parts[0].lookaside, (unsigned long long)c->parts[0].walks);
    long long us = (ended.tv_sec - begun.tv_sec) * 1000000LL + (ended.tv_nsec - begun.tv_nsec) / 1000;
    fprintf(stderr, "checks=%llu microseconds=%lld\n", (unsigned long long)rounds, us);
    return 0;
}
