/* What stdin (console.c) and the files in memory (files.c) have of the module's input. */
#ifndef MONDRIX_INPUT_H
#define MONDRIX_INPUT_H

#include <stddef.h>

/* The next bytes that stdin reads, at most so many; fewer at its end. */
size_t mondrix_input_next(void *to, size_t most);

/* The last part of the file's name, for files.c; "" where there is no input. */
extern const char mondrix_input_name[];

#endif
