#include "caches.h"

#include <string.h>

/* What a buffer has, the newest first. */
struct item {
    struct span span;
    uint32_t domain;
};
struct buffer {
    uint32_t count;
    struct item items[SIZE_MOST];
};

struct form forms[FORMS];
struct counts counts[HARTS_MOST][FORMS];
uint64_t looks[HARTS_MOST];
static struct span places[HARTS_MOST][PLACES][FORMS];
static struct buffer buffers[HARTS_MOST][FORMS];

void caches_make(void) {
    struct form *form = forms;
    for (enum kind kind = 0; kind < KINDS; kind++)
        for (enum kept kept = SPANS; kept <= ENTRIES; kept++)
            for (enum order order = FIRST_OUT; order <= LEAST_USED; order++)
                for (uint32_t size = 2; size <= SIZE_MOST; size *= 2)
                    *form++ = (struct form){kind, kept, order, size};
}

/* The walks of one look, each made where a form first asks for it. */
struct walks {
    uint32_t domain, word, made;
    struct walk of[KINDS];
};
static const struct walk *asked(struct walks *walks, enum kind kind) {
    if (!(walks->made >> kind & 1)) walks->of[kind] = walk_of(kind, walks->domain, walks->word);
    walks->made |= 1u << kind;
    return &walks->of[kind];
}

static void put_first(struct buffer *buffer, uint32_t at, struct item item) {
    memmove(buffer->items + 1, buffer->items, at * sizeof item);
    buffer->items[0] = item;
}

/* The part of a span that lies in another. */
static struct span part(struct span span, struct span other) {
    uint32_t end = span.first + span.count, other_end = other.first + other.count;
    uint32_t first = span.first > other.first ? span.first : other.first;
    return (struct span){first, (end < other_end ? end : other_end) - first};
}

static int is_free(struct span span, const struct span *ranges, uint32_t range_count) {
    for (uint32_t i = 0; i < range_count; i++)
        if (meet(span, ranges[i])) return 0;
    return 1;
}

/* A look that the place of a form doesn't answer. */
static void look_aside(const struct form *form, struct counts *count, struct buffer *buffer, struct span *place,
                       struct walks *walks, const struct span *ranges, uint32_t range_count) {
    for (uint32_t i = 0; i < buffer->count; i++) {
        struct item item = buffer->items[i];
        if (!covers(item.span, walks->word) || item.domain != walks->domain) continue;
        *place = form->kept == SPANS ? item.span : part(asked(walks, form->kind)->reach, item.span);
        if (form->order == LEAST_USED) put_first(buffer, i, item);
        count->lookaside++;
        return;
    }
    const struct walk *walk = asked(walks, form->kind);
    struct span kept = form->kept == SPANS ? walk->reach : walk->entry;
    count->walks++;
    count->reads[walk->level] += walk->reads;
    if (!is_free(kept, ranges, range_count)) return;
    *place = walk->reach;
    uint32_t last = buffer->count < form->size ? buffer->count++ : form->size - 1;
    put_first(buffer, last, (struct item){kept, walks->domain});
}

void look(uint32_t hart, uint32_t place, uint32_t domain, uint32_t word, const struct span *ranges,
          uint32_t range_count) {
    struct walks walks = {.domain = domain, .word = word, .made = 0};
    looks[hart]++;
    for (uint32_t i = 0; i < FORMS; i++)
        if (!covers(places[hart][place][i], word))
            look_aside(&forms[i], &counts[hart][i], &buffers[hart][i], &places[hart][place][i], &walks, ranges,
                       range_count);
}

void empty_places(uint32_t hart) { memset(places[hart], 0, sizeof places[hart]); }

void drop(uint32_t hart, struct span range) {
    if (range.count == 0) return;
    for (uint32_t i = 0; i < FORMS; i++) {
        for (uint32_t place = 0; place < PLACES; place++)
            if (meet(places[hart][place][i], range)) places[hart][place][i].count = 0;
        struct buffer *buffer = &buffers[hart][i];
        uint32_t left = 0;
        for (uint32_t k = 0; k < buffer->count; k++)
            if (!meet(buffer->items[k].span, range)) buffer->items[left++] = buffer->items[k];
        buffer->count = left;
    }
}
