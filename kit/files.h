/* What a module may say of its files in memory (files.c). */
#ifndef MONDRIX_FILES_H
#define MONDRIX_FILES_H

#include <stddef.h>

#ifdef __cplusplus
extern "C" {
#endif

/* Makes a file of bytes that stand elsewhere, as those that .incbin brings in. They aren't copied before the program
 * writes to the file. 0, or -1 with errno. */
int mondrix_file(const char *name, const void *bytes, size_t size);

#ifdef __cplusplus
}
#endif

#endif
