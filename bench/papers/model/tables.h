/* The tables of each kind as functions of the maps, by docs/MACHINE.md: what a walk answers and reads, which words are
 * stored, how many frames that takes, and what a change of rights writes. Words are those of RAM, counted from 0. */
#ifndef TABLES_H
#define TABLES_H

#include <stdint.h>
#include <stdio.h>

enum { LINE = 16, PAGE = 1024, REGION = 1 << 20, UPPER_WORDS = 1024, LEAF_WORDS = 64, MOST_REACH = 31 };
enum { RAM = 0x80000000u, HARTS_MOST = 4, DOMAINS_MOST = 64 };
enum permission { NONE, READ, READ_WRITE, EXECUTE_READ };

/* The kinds as the program has them, which give a table back as soon as no word needs it; and both tries with tables
 * that stay once they were taken. */
enum kind { SEGMENTS, MULTILEVEL, PACKED, MULTILEVEL_KEPT, PACKED_KEPT, KINDS };
enum { PROGRAM_KINDS = 3 };
extern const char *const kind_names[KINDS];

enum level { SEGMENT, ROOT, MID, LEAF, SPILL, LEVELS };

struct span {
    uint32_t first, count;
};

/* What a walk for a word finds: the words that it answers for, those for which the table's entry decides, how many
 * words of the tables it reads, and the level of the last one. */
struct walk {
    struct span reach, entry;
    unsigned reads;
    enum level level;
};

struct frames {
    uint32_t upper, leaf, spill;
};

/* Of one kind: what is taken, the most words of tables at once, what changes took, gave back and wrote. */
struct space {
    struct frames now, boot, taken, given;
    uint64_t boot_words, most_words, written;
};
extern struct space spaces[KINDS];

extern uint32_t ram_words, domains;
/* The words on which some domain has a right: at boot, at the end, and at most. */
extern uint32_t rights_boot, rights_now, rights_most;

void tables_make(uint32_t words, uint32_t modules);
/* At boot, run by run; then once `tables_begin`. */
void tables_put(uint32_t domain, uint32_t first, uint32_t count, enum permission permission);
void tables_begin(void);
enum permission permission_of(uint32_t domain, uint32_t word);
struct walk walk_of(enum kind kind, uint32_t domain, uint32_t word);
void change(uint32_t domain, uint32_t first, uint32_t count, enum permission permission);
uint64_t words_of(struct frames frames);
/* The report's lines of the maps, and those of `--tables` but for the limits. */
void put_maps(FILE *out);
void put_tables(FILE *out, enum kind kind, struct frames limits);

static inline int covers(struct span span, uint32_t word) { return word - span.first < span.count; }
static inline int meet(struct span one, struct span other) {
    return one.first < other.first + other.count && other.first < one.first + one.count;
}

#endif
