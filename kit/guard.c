/* The guards of the module's stacks: the lowest words of each, on which the module has no right. They are a sixteenth
 * of the stack and at most 1024 bytes, so that the frames of most functions can't step over them. */
#include "mondrix.h"

/* Told to the linker out of the manifest; without one they are 0. */
extern char __module_stack[] __attribute__((weak)), __module_stack_bytes[] __attribute__((weak)),
    __module_harts[] __attribute__((weak));

uint32_t mondrix_guarded; /* read by enter.S */

void mondrix_guard(void) {
    uintptr_t bytes = (uintptr_t)__module_stack_bytes, guard = bytes / 16 < 1024 ? bytes / 16 & ~3u : 1024;
    if (mondrix_guarded) return;
    mondrix_guarded = 1;
    for (uintptr_t hart = 0; hart < (uintptr_t)__module_harts; hart++) {
        void *low = (void *)((uintptr_t)__module_stack + hart * bytes);
        /* (where the tables have no room for it there is none) */
        (void)!mondrix_grant(low, guard, mondrix_module(), MONDRIX_NONE);
    }
}
