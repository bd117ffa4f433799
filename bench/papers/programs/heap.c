/* malloc for programs that others wrote: each object comes from the store. It has no realloc, since the store doesn't
 * tell sizes; Lua has its objects from a function of its own. And files and a clock, of which there are none: a kit
 * that has them has stronger ones. */
#include "work.h"

#include <stdlib.h>
#include <string.h>
#include <sys/types.h>
#include <time.h>

void *malloc(size_t bytes) { return take(bytes); }
void *calloc(size_t count, size_t bytes) {
    void *made = take(count * bytes);
    return made ? memset(made, 0, count * bytes) : 0;
}
void free(void *object) {
    if (object) give(object);
}
void *realloc(void *object, size_t bytes) { return (void)object, (void)bytes, (void *)0; }

#define ABSENT __attribute__((weak))
ABSENT int open(const char *name, int flags, ...) { return (void)name, (void)flags, -1; }
ABSENT int close(int file) { return (void)file, -1; }
ABSENT ssize_t read(int file, void *bytes, size_t count) { return (void)file, (void)bytes, (void)count, -1; }
ABSENT ssize_t write(int file, const void *bytes, size_t count) { return (void)file, (void)bytes, (void)count, -1; }
ABSENT off_t lseek(int file, off_t place, int from) { return (void)file, (void)place, (void)from, -1; }
ABSENT time_t time(time_t *at) { return at ? *at = -1 : -1; }
ABSENT clock_t clock(void) { return (clock_t)-1; }
