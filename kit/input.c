/* The module's input: the file that the manifest gives it, in an area of its own. */
#include "input.h"

#include <string.h>

#include "mondrix.h"

/* Told to the linker out of the manifest; without one, or without an input, they are 0. */
extern uint32_t __module_input[] __attribute__((weak));

void *mondrix_input(size_t *bytes) {
    *bytes = __module_input ? __module_input[0] : 0;
    return __module_input ? __module_input + 1 : 0;
}

#ifndef MONDRIX_INPUT_NAME
#define MONDRIX_INPUT_NAME ""
#endif
const char mondrix_input_name[] = MONDRIX_INPUT_NAME;

static size_t done;

size_t mondrix_input_next(void *to, size_t most) {
    size_t bytes;
    const char *input = mondrix_input(&bytes);
    size_t left = done < bytes ? bytes - done : 0;
    if (most > left) most = left;
    memcpy(to, input + done, most);
    done += most;
    return most;
}
