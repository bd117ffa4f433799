/* What picolibc's malloc stands on: an array of MONDRIX_MALLOC bytes, and a lock, so that all harts of a module may
 * call malloc. Its memory is the module's own data; blocks that another module is to have come from mondrix_alloc. */
#include "mondrix.h"

#include <errno.h>

#ifndef MONDRIX_MALLOC
#define MONDRIX_MALLOC 16384
#endif

static char room[MONDRIX_MALLOC] __attribute__((aligned(16)));
static ptrdiff_t used;

void *sbrk(ptrdiff_t bytes) {
    if (bytes > (ptrdiff_t)sizeof room - used || bytes < -used) {
        errno = ENOMEM;
        return (void *)-1;
    }
    used += bytes;
    return room + used - bytes;
}

/* The library's locks are all this one. A hart may take it again while it has it. */
struct __lock {
    struct mondrix_lock queue;
    volatile uint32_t hart; /* who has it, or MONDRIX_HARTS */
    unsigned times;
};
struct __lock __lock___libc_recursive_mutex = {MONDRIX_LOCK, MONDRIX_HARTS, 0};
#define the_lock __lock___libc_recursive_mutex

void __retarget_lock_acquire_recursive(struct __lock *lock) {
    (void)lock;
    if (the_lock.hart != mondrix_hart()) {
        mondrix_lock(&the_lock.queue);
        the_lock.hart = mondrix_hart();
    }
    the_lock.times++;
}

void __retarget_lock_release_recursive(struct __lock *lock) {
    (void)lock;
    if (--the_lock.times != 0) return;
    the_lock.hart = MONDRIX_HARTS;
    mondrix_unlock(&the_lock.queue);
}

void __retarget_lock_init_recursive(struct __lock **lock) { *lock = &the_lock; }
void __retarget_lock_close_recursive(struct __lock *lock) { (void)lock; }
void __retarget_lock_init(struct __lock **lock) { *lock = &the_lock; }
void __retarget_lock_close(struct __lock *lock) { (void)lock; }
void __retarget_lock_acquire(struct __lock *lock) { __retarget_lock_acquire_recursive(lock); }
void __retarget_lock_release(struct __lock *lock) { __retarget_lock_release_recursive(lock); }
