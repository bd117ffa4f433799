/* The constructors of a module run once: by the hart that begins first in it, before its main, or by a gate that calls
 * __libc_init_array first. Other harts wait until they have run. The destructors run once, by the hart that leaves
 * first. */
#include "mondrix.h"

typedef void function(void);

/* (weak, so that the compiler doesn't take two of them for different places) */
#pragma weak __preinit_array_start
#pragma weak __init_array_end
#pragma weak __fini_array_start
#pragma weak __fini_array_end
extern function *const __preinit_array_start[], *const __init_array_end[];
extern function *const __fini_array_start[], *const __fini_array_end[];

/* module.ld has room for it where there is a constructor or a destructor. */
extern struct {
    volatile uint32_t taken, hart, done; /* the constructors: begun; by which hart, plus 1; they have run */
    volatile uint32_t ended;             /* the destructors: begun */
} mondrix_begun;

void __libc_init_array(void) {
    if (__preinit_array_start == __init_array_end || mondrix_begun.done) return;
    uint32_t hart = mondrix_hart() + 1;
    if (mondrix_try(&mondrix_begun.taken)) {
        mondrix_begun.hart = hart;
        for (function *const *each = __preinit_array_start; each != __init_array_end; each++) (*each)();
        mondrix_begun.done = 1;
    }
    while (!mondrix_begun.done && mondrix_begun.hart != hart) {}
}

void __libc_fini_array(void) {
    if (__fini_array_start == __fini_array_end || !mondrix_try(&mondrix_begun.ended)) return;
    for (function *const *each = __fini_array_end; each != __fini_array_start;) (*--each)();
}
