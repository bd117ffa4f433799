/* What the parts of `change` share. */
#ifndef CHANGE_H
#define CHANGE_H

#include <stddef.h>
#include <stdint.h>

enum { IMAGE_LIMIT = 16777216, SCHEDULE_LIMIT = 16777216, SNAPSHOT_LIMIT = 1073741824, ROOM = 4194304 };

extern unsigned char bytes[ROOM];
extern size_t count;

/* A number from 0 on, below a limit. */
size_t below(size_t limit);
void read_file(const char *name);
void write_file(const char *name);

/* What a text is made of: words, texts in quotes, whole lines, and what is the worst again and again. Each list ends
 * with NULL. */
struct language {
    const char *const *words;
    const char *const *texts;
    const char *const *lines;
    const char *const *parts;
};
extern const struct language manifests, sources;
extern const char *const numbers[];
extern const char *const signs[];
extern const uint64_t corners[48];

/* Makes a command line, and tells which command it asks for. */
const char *make_words(void);
int become(const char *words, const char *program);
int show(const char *words);

/* Says the first fault of an image. */
int image_fault(const char *name);

/* Says the first fault of a snapshot; and a field of the one that stands in `bytes`, its place and its width. */
int snapshot_fault(const char *name);
size_t snapshot_field(size_t *width);

#endif
