/* Stands between a program and the system's calls by which it reads and writes: statx, open, lseek, read and write.
 * From the environment:
 *
 *   FAIL   the number of the call that fails, counted from 1; 0 for none
 *   ERROR  the number of its error; 0 where a read or a write moves nothing, and other calls don't fail
 *   CRUMBS 1 where each read and write moves one byte at most
 *   COUNT  a file to which goes at the end how many calls there were */
#define _GNU_SOURCE
#include <dlfcn.h>
#include <errno.h>
#include <fcntl.h>
#include <stdarg.h>
#include <stdio.h>
#include <stdlib.h>
#include <sys/stat.h>
#include <sys/syscall.h>
#include <unistd.h>

static unsigned long made, failing;
static int error, crumbs, is_over;

static unsigned long number(const char *name) {
    const char *text = getenv(name);
    return text ? strtoul(text, NULL, 10) : 0;
}

__attribute__((constructor)) static void begin(void) {
    failing = number("FAIL");
    error = (int)number("ERROR");
    crumbs = (int)number("CRUMBS");
    made = 0;
}

__attribute__((destructor)) static void end(void) {
    const char *name = getenv("COUNT");
    is_over = 1;
    FILE *file = name ? fopen(name, "w") : NULL;
    if (!file) return;
    fprintf(file, "%lu\n", made);
    fclose(file);
}

/* Whether this call is the one that fails; without an error what can move nothing moves nothing. */
static int is_failing(void) {
    if (is_over || ++made != failing) return 0;
    errno = error;
    return 1;
}

static int fails(void) { return is_failing() && error != 0; }

static size_t moved(size_t asked) { return crumbs && asked > 1 && !is_over ? 1 : asked; }

int statx(int folder, const char *restrict name, int flags, unsigned mask, struct statx *restrict to) {
    return fails() ? -1 : (int)syscall(SYS_statx, folder, name, flags, mask, to);
}

int open(const char *name, int flags, ...) {
    va_list rest;
    va_start(rest, flags);
    int mode = flags & O_CREAT ? va_arg(rest, int) : 0;
    va_end(rest);
    return fails() ? -1 : (int)syscall(SYS_openat, AT_FDCWD, name, flags, mode);
}

int open64(const char *name, int flags, ...) {
    va_list rest;
    va_start(rest, flags);
    int mode = flags & O_CREAT ? va_arg(rest, int) : 0;
    va_end(rest);
    return open(name, flags, mode);
}

off_t lseek(int file, off_t place, int from) { return fails() ? -1 : (off_t)syscall(SYS_lseek, file, place, from); }
off64_t lseek64(int file, off64_t place, int from) { return lseek(file, place, from); }

ssize_t read(int file, void *to, size_t count) {
    if (is_failing()) return error ? -1 : 0;
    return (ssize_t)syscall(SYS_read, file, to, moved(count));
}

ssize_t write(int file, const void *from, size_t count) {
    if (is_failing()) return error ? -1 : 0;
    return (ssize_t)syscall(SYS_write, file, from, moved(count));
}
