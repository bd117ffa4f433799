/* Two modules of one file, with a heap, words for the compiler and the linker, and libraries of their own. */
#include <math.h>
#include <stdio.h>
#include <stdlib.h>

extern char wanted[]; /* as an address, by the linker */

int main(void) {
    size_t bytes = (size_t)wanted, most = 0;
    for (size_t size = 0; size <= 65536; size += bytes / 8) {
        void *volatile block = malloc(size); /* (a compiler may leave out what nobody sees) */
        if (block == 0) break;
        free(block);
        most = size;
    }
#ifdef ROOT
    static volatile double eight = 8;
    printf("%g ", cbrt(eight));
#endif
    printf("%d %d\n", most >= bytes - bytes / 8, most <= bytes + bytes / 4);
    return 0;
}
