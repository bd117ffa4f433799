/* A return from main is exit: what atexit was given runs, the last one first, and then the destructors; once. */
#include <stdio.h>
#include <stdlib.h>

#include "mondrix.h"

static void first(void) { printf("given first\n"); }
static void second(void) { printf("given second\n"); }
__attribute__((destructor)) static void destroy(void) { printf("destructor"); }
static volatile int left;

int main(void) {
    if (mondrix_hart() == 1) {
        while (!left) {}
        return 6;
    }
    atexit(first);
    atexit(second);
    atexit(first);
    left = 1;
    return 5;
}
