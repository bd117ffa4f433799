/* The tests of what a caller gives, and copies that make them first. */
#include "mondrix.h"

#include <string.h>

/* The bounds of the image, by module.ld, and the input area, told to the linker out of the manifest. */
extern const char __module_code[], __module_code_end[], __module_constants[], __module_constants_end[],
    __module_data[], __module_data_end[];
extern const char __module_input[] __attribute__((weak)), __module_input_bytes[] __attribute__((weak));

static int meets(uintptr_t first, uintptr_t last, const char *low, const char *high) {
    return low != high && first < (uintptr_t)high && last >= (uintptr_t)low;
}

/* MONDRIX_OK where they are words of RAM none of which is this module's. */
static int foreign(const volatile void *at, size_t bytes) {
    uintptr_t first = (uintptr_t)at, last = first + bytes - 1;
    if (bytes == 0) return MONDRIX_OK;
    if (last < first) return MONDRIX_BAD_RANGE;
    if (meets(first, last, __module_code, __module_code_end) ||
        meets(first, last, __module_constants, __module_constants_end) ||
        meets(first, last, __module_data, __module_data_end) ||
        meets(first, last, __module_input, __module_input + (uintptr_t)__module_input_bytes))
        return MONDRIX_NOT_FOREIGN;
    /* Of another module's right only a word's owner may ask. */
    unsigned other = mondrix_module() == 1 ? 2 : 1;
    for (uintptr_t word = first & ~3u;; word += 4) {
        int answer = mondrix_query((void *)word, other);
        if (answer == MONDRIX_BAD_RANGE) return MONDRIX_BAD_RANGE;
        if (answer != MONDRIX_NOT_OWNER) return MONDRIX_NOT_FOREIGN;
        if (last - word < 4) return MONDRIX_OK;
    }
}

static int allowed(const volatile void *at, size_t bytes, int writing) {
    int answer = foreign(at, bytes);
    if (answer != MONDRIX_OK || bytes == 0) return answer;
    uintptr_t last = (uintptr_t)at + bytes - 1;
    unsigned self = mondrix_module();
    for (uintptr_t word = (uintptr_t)at & ~3u;; word += 4) {
        int right = mondrix_query((void *)word, self);
        if (writing ? right != MONDRIX_READ_WRITE : right <= MONDRIX_NONE) return MONDRIX_DENIED;
        if (last - word < 4) return MONDRIX_OK;
    }
}

int mondrix_is_foreign(const volatile void *at, size_t bytes) { return foreign(at, bytes) == MONDRIX_OK; }
int mondrix_may_read(const volatile void *at, size_t bytes) { return allowed(at, bytes, 0); }
int mondrix_may_write(const volatile void *at, size_t bytes) { return allowed(at, bytes, 1); }

int mondrix_copy_in(void *to, const volatile void *from, size_t bytes) {
    int answer = mondrix_may_read(from, bytes);
    if (answer != MONDRIX_OK) return answer;
    memcpy(to, (const void *)from, bytes);
    mondrix_barrier();
    return MONDRIX_OK;
}

int mondrix_copy_out(volatile void *to, const void *from, size_t bytes) {
    int answer = mondrix_may_write(to, bytes);
    if (answer != MONDRIX_OK) return answer;
    memcpy((void *)to, from, bytes);
    mondrix_barrier();
    return MONDRIX_OK;
}
