/* Takes all that there is: places of a heap, blocks, gates, runs of owner, and, where its hart begins at the entry that
 * the kind of tables has as a name, the frames and spill words of the tables. Each time it knows by the rules of
 * docs/MACHINE.md at which call it is refused, and takes again what it gave back. */
#include "guest.h"

#undef RAM_END
#undef HEAP_AT
#undef HEAP_WORDS
#define RAM_END 0x80010000u
#define HEAP_AT 0x8000a000u
enum { ME = 1, OTHER = 2, HEAP_WORDS = 1100, BLOCKS = 1024, GATES = 256, OWNER_RUNS = 4096 };

/* Of full.toml and tight.toml: the other module's words, the areas of one owner from the lowest address on (the image,
 * the heap, the stack, the other's words) with nobody's words between them and behind, and the limits of the tables. */
#define OTHER_AT 0x8000f000u
enum { OTHER_WORDS = 2, BOOT_RUNS = 8, WORDS = 16384 };
enum kind { SEGMENTS, MULTILEVEL, PACKED };
static const word leaf_limit[] = {3, 6, 6};
enum { SPILL_LIMIT = 3 };

static word field[4608] __attribute__((aligned(4096)));
static word wrong;

static void want(int is_right) { wrong += !is_right; }

/* Blocks of one word up to the last one; then with a hole at each second place. */
static void fill_heap(void) {
    for (word i = 0; i < BLOCKS; i++) want(asked(6, 1, 0, 0, 0) == (answer)(HEAP_AT + 4 * i));
    want(asked(6, 1, 0, 0, 0) == -7 && asked(6, HEAP_WORDS - BLOCKS, 0, 0, 0) == -7);
    want(asked(6, HEAP_WORDS - BLOCKS + 1, 0, 0, 0) == -6 && asked(6, 0, 0, 0, 0) == -1);
    for (word i = 0; i < BLOCKS; i += 2) want(asked(7, HEAP_AT + 4 * i, 0, 0, 0) == 0);
    for (word i = 0; i < BLOCKS; i++) want(asked(11, HEAP_AT + 4 * i, ME, 0, 0) == (i % 2 ? 2 : 0));
    for (word i = 0; i < BLOCKS; i += 2) want(asked(7, HEAP_AT + 4 * i, 0, 0, 0) == -8);
    want(asked(6, 2, 0, 0, 0) == (answer)(HEAP_AT + 4 * BLOCKS) && asked(6, 1, 0, 0, 0) == (answer)HEAP_AT);
    want(asked(7, HEAP_AT + 4, 0, 0, 0) == 0 && asked(6, 2, 0, 0, 0) == (answer)(HEAP_AT + 4));
    want(asked(7, HEAP_AT, 0, 0, 0) == 0 && asked(7, HEAP_AT + 4, 0, 0, 0) == 0 &&
         asked(7, HEAP_AT + 4 * BLOCKS, 0, 0, 0) == 0);
    for (word i = 3; i < BLOCKS; i += 2) want(asked(7, HEAP_AT + 4 * i, 0, 0, 0) == 0);
    want(asked(6, HEAP_WORDS, 0, 0, 0) == (answer)HEAP_AT && asked(6, 1, 0, 0, 0) == -6);
    word *block = (word *)HEAP_AT;
    for (word i = 0; i < HEAP_WORDS; i++) want(block[i] == 0);
    want(asked(7, HEAP_AT, 0, 0, 0) == 0);
}

static void fill_gates(void) {
    for (word i = 0; i < GATES; i++) want(asked(8, (word)(field + i), OTHER, 0, 0) == 0);
    want(asked(8, (word)(field + GATES), OTHER, 0, 0) == -9 && asked(10, (word)field, 0, 0, 0) == -9);
    want(asked(8, (word)field, OTHER, 0, 0) == 0 && asked(9, (word)(field + GATES), OTHER, 0, 0) == -15);
    want(asked(9, (word)(field + 100), OTHER, 0, 0) == 0 && asked(10, (word)field, 0, 0, 0) == 0);
    want(asked(10, (word)field, 0, 0, 0) == 0 && asked(8, (word)(field + 100), OTHER, 0, 0) == -9);
    for (word i = 0; i < GATES; i++) want(asked(9, (word)(field + i), OTHER, 0, 0) == (i == 100 ? -15 : 0));
    want(asked(9, (word)field, ME, 0, 0) == 0 && asked(9, (word)field, ME, 0, 0) == -15);
}

/* Each second word goes to the other module: two runs more each. */
static void fill_owners(void) {
    word given = (OWNER_RUNS - BOOT_RUNS) / 2;
    for (word i = 0; i < given; i++) want(asked(5, (word)(field + 2 * i + 1), 4, OTHER, 0) == 0);
    word *next = field + 2 * given + 1;
    want(asked(5, (word)next, 4, OTHER, 0) == -14 && asked(5, (word)next, 4, 0, 0) == -14 &&
         asked(5, (word)next, 4, ME, 0) == 0);
    /* A word between two of the other's makes one run of three. */
    want(asked(5, (word)(field + 2), 1, OTHER, 0) == 0 && asked(5, (word)next, 4, 0, 0) == 0);
    want(asked(5, (word)(next + 2), 4, 0, 0) == -14 && asked(5, (word)field, sizeof field, OTHER, 0) == -2);
    want(asked(3, (word)(field + 1), 4, ME, 1) == -2 && asked(3, (word)field, 4, ME, 2) == 0);
    field[1] = 7; /* its right stays */
    want(field[1] == 7 && asked(11, (word)(field + 1), ME, 0, 0) == 2 &&
         asked(11, (word)(field + 1), OTHER, 0, 0) == -2);
}

/* The rights of both modules, two bits a word: what a line has is one word. */
static word rights[2][WORDS / 16];

static word right_of(word domain, word at) { return rights[domain - 1][at / 16] >> 2 * (at % 16) & 3; }

static void set_right(word domain, word at, word right) {
    rights[domain - 1][at / 16] = (rights[domain - 1][at / 16] & ~(3u << 2 * (at % 16))) | right << 2 * (at % 16);
}

static void read_rights(void) {
    for (word at = 0; at < WORDS; at++) {
        set_right(ME, at, asked(11, RAM + 4 * at, ME, 0, 0));
        set_right(OTHER, at, 0);
    }
    for (word at = 0; at < OTHER_WORDS; at++) set_right(OTHER, (OTHER_AT - RAM) / 4 + at, 3);
}

/* Whether a line has one right. */
static int is_even(word line) { return line == (line & 3) * 0x55555555u; }

/* Runs from one place up to another: a line of one right is looked at as a whole. */
static word runs(word domain, word from, word to) {
    word count = 0, last = 4;
    for (word at = from, right; at < to;) {
        word line = rights[domain - 1][at / 16], is_whole = at % 16 == 0 && is_even(line);
        right = is_whole ? line & 3 : right_of(domain, at);
        at += is_whole ? 16 : 1;
        count += right != last;
        last = right;
    }
    return count;
}

/* Whether each of the eight parts of a page has one right: 128 words, or eight lines. */
static int is_plain(word domain, word page) {
    for (word line = 64 * page; line < 64 * (page + 1); line++) {
        word first = rights[domain - 1][line - line % 8];
        if (rights[domain - 1][line] != first || !is_even(first)) return 0;
    }
    return 1;
}

struct need {
    word leaf, spill;
};

static struct need needed(enum kind kind) {
    struct need need = {0, 0};
    for (word domain = ME; domain <= OTHER; domain++) {
        if (kind == SEGMENTS) need.leaf += (runs(domain, 0, WORDS) + 63) / 64;
        for (word page = 0; kind != SEGMENTS && page < WORDS / 1024; page++) need.leaf += !is_plain(domain, page);
        for (word line = 0; kind == PACKED && line < WORDS / 16; line++)
            need.spill += runs(domain, 16 * line, 16 * line + 16) > 4;
    }
    return need;
}

static answer gives(word at, word right) {
    answer answered = asked(3, (word)(field + at), 4, OTHER, right);
    if (answered == 0) set_right(OTHER, ((word)(field + at) - RAM) / 4, right);
    return answered;
}

/* The calls that are refused where the tables are full change nothing, and what is given back can be taken again. */
static void is_full(word first, word next) {
    want(gives(next, 1) == -5 && gives(next, 1) == -5 && asked(11, (word)(field + next), OTHER, 0, 0) == 0);
    want(gives(first, 0) == 0 && gives(next, 1) == 0 && gives(first, 1) == -5 && gives(next, 0) == 0 &&
         gives(first, 1) == 0);
}

/* Single words far apart: two runs each; or a page each. */
static void fill_leaves(enum kind kind) {
    struct need need = needed(kind);
    word step = kind == SEGMENTS ? 2 : 1024, free = leaf_limit[kind] - need.leaf, taken = 0;
    if (kind == SEGMENTS) {
        word most = 64 * (leaf_limit[kind] - (runs(ME, 0, WORDS) + 63) / 64);
        free = (most - runs(OTHER, 0, WORDS)) / 2;
    }
    for (; taken < free; taken++) want(gives(1 + step * taken, 1) == 0);
    is_full(1, 1 + step * taken);
    if (kind != SEGMENTS) want(asked(6, 1, 0, 0, 0) == -5);
    want(needed(kind).leaf == leaf_limit[kind] && free > 1);
    for (word i = 0; i < taken; i++) want(gives(1 + step * i, 0) == 0);
    want(needed(kind).leaf == need.leaf);
}

/* In each line three words with one between two of them: six runs, which take a spill word. */
static void fill_spill(void) {
    word line = 0;
    for (; line < SPILL_LIMIT; line++)
        for (word i = 0; i < 3; i++) want(gives(16 * line + 2 * i, 1) == 0);
    want(gives(16 * line, 1) == 0 && gives(16 * line + 2, 1) == 0);
    is_full(4, 16 * line + 4);
    want(needed(PACKED).spill == SPILL_LIMIT);
    want(asked(4, (word)field, 4096, 0, 0) == 0);
}

void tight(enum kind kind) {
    read_rights();
    fill_leaves(kind);
    if (kind == PACKED) fill_spill();
    for (word at = 0; at < WORDS; at++) want(asked(11, RAM + 4 * at, ME, 0, 0) == (answer)right_of(ME, at));
    mondrix_leave((int)wrong);
}

__asm__(".pushsection .text.start, \"ax\", @progbits\n"
        ".globl segments\nsegments: li a0, 0\nj tight\n"
        ".globl multilevel\nmultilevel: li a0, 1\nj tight\n"
        ".globl packed\npacked: li a0, 2\nj tight\n"
        ".popsection\n");

int main(void) {
    fill_heap();
    fill_gates();
    fill_owners();
    return (int)wrong;
}
