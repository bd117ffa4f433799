/* The module that gives out memory, and the one that works on it. */
#ifndef STORE_H
#define STORE_H

#include <mondrix.h>

enum { STORE = 1, WORK = 2 }; /* the modules in the manifest's order */

/* An object of so many bytes at a multiple of 8, or 0; and one that is given back: 0, or -1 where none is there. */
void *take(uint32_t bytes);
void *take_entered(uint32_t bytes);
int32_t give(const void *object);
int32_t give_entered(const void *object);

#endif
