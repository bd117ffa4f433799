/* The first fault of an image, read a second time from docs/COMMANDS.md "The manifest". */
#include <stdio.h>
#include <string.h>
#include <sys/stat.h>

#include "change.h"

static uint64_t number(uint64_t at, int width) {
    uint64_t value = 0;
    for (int i = 0; i < width; i++)
        if (at + i < count) value |= (uint64_t)bytes[at + i] << 8 * i;
    return value;
}

/* The fault of the header, or 0. */
static int header_fault(uint64_t size) {
    if (size < 52) return 1;
    if (memcmp(bytes, "\177ELF", 4) != 0) return 2;
    if (bytes[4] != 1 || bytes[5] != 1) return 3;
    if (number(16, 2) != 2) return 4;
    if (number(18, 2) != 243) return 5;
    uint64_t headers = number(44, 2);
    if (headers != 0 && (number(42, 2) != 32 || number(28, 4) + 32 * headers > size)) return 6;
    return 0;
}

/* The fault of the segment at a place in the table, or 0; `loaded` counts the loaded ones. */
static int segment_fault(uint64_t at, uint64_t size, unsigned *loaded) {
    uint64_t in_file = number(at + 16, 4), in_memory = number(at + 20, 4);
    if (number(at, 4) != 1 || in_memory == 0) return 0;
    if (++*loaded > 16) return 7;
    if (in_file != 0 && number(at + 4, 4) + in_file > size) return 8;
    if (in_file > in_memory) return 9;
    if (number(at + 8, 4) % 4 != 0) return 10;
    return 0;
}

/* Says the fault of the manifest whose image this is, 9 or 10, and its detail; or `none`. */
int image_fault(const char *name) {
    struct stat about;
    unsigned loaded = 0;
    if (stat(name, &about) != 0) return 1;
    uint64_t size = (uint64_t)about.st_size;
    read_file(name);
    if (size > IMAGE_LIMIT) return puts("9 detail=0"), 0;
    int fault = header_fault(size);
    for (uint64_t i = 0; fault == 0 && i < number(44, 2); i++)
        fault = segment_fault(number(28, 4) + 32 * i, size, &loaded);
    if (fault == 0)
        puts("none");
    else
        printf("10 detail=%d\n", fault);
    return 0;
}
