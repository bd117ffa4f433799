/* Calls them, and is optimized as a whole too: with a memcpy that the compiler puts in late. */
#include <stdio.h>

#include "callee.h"

struct large { int words[40]; };
static struct large from = {{1, 2, 3}}, to;
__attribute__((noinline)) static void copy(struct large *a, const struct large *b) { *a = *b; }

int main(void) {
    copy(&to, &from);
    printf("%d %d %d\n", (int)twice(21), (int)thrice(14), to.words[2]);
    return 0;
}
