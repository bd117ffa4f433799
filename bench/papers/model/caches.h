/* The sidecar places and lookaside buffers of all harts, in each form at once, by docs/MACHINE.md. */
#ifndef CACHES_H
#define CACHES_H

#include "tables.h"

/* What a buffer keeps: the span that a walk answers, as the program's, or the table's entry, as the papers'. Which item
 * a full one loses: the one that came first, or the one that was used last longest ago. */
enum kept { SPANS, ENTRIES };
enum order { FIRST_OUT, LEAST_USED };
enum { SIZES = 8, SIZE_MOST = 256, FORMS = KINDS * 2 * 2 * SIZES, PLACES = 32 };

struct form {
    enum kind kind;
    enum kept kept;
    enum order order;
    uint32_t size;
};
extern struct form forms[FORMS];

struct counts {
    uint64_t lookaside, walks, reads[LEVELS];
};
/* By hart and form. What a place answered are the looks that are in neither count. */
extern struct counts counts[HARTS_MOST][FORMS];
extern uint64_t looks[HARTS_MOST];

void caches_make(void);
/* A look of a hart at a word of RAM through a place. What a walk finds isn't kept where it meets one of the ranges. */
void look(uint32_t hart, uint32_t place, uint32_t domain, uint32_t word, const struct span *ranges,
          uint32_t range_count);
void empty_places(uint32_t hart);
void drop(uint32_t hart, struct span range);

#endif
