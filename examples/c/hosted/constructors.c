/* The constructors have run once, in their order, when main begins, on whatever hart. A module without harts has none
 * run before a gate of it asks for that. */
#include <stdio.h>

#include "mondrix.h"
#include "service.h"

static volatile int order;
__attribute__((constructor(101))) static void first(void) {
    for (volatile int i = 0; i < 1000; i++) {}
    order = 10 * order + 1;
}
__attribute__((constructor(102))) static void second(void) { order = 10 * order + 2; }
__attribute__((constructor)) static void third(void) { order = 10 * order + 3; }

int main(void) {
    printf("hart %u: %d\n", mondrix_hart(), order);
    if (mondrix_hart() == 0) printf("hart 0: the service: %d\n", (int)service_ready());
    return 0;
}
