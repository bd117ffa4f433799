/* The queue lock. A hart that waits looks at the node of the one before it alone, and takes that node over when it
 * leaves: so an exchange of one word is all that it needs. */
#include "mondrix.h"

void mondrix_lock(struct mondrix_lock *lock) {
    unsigned hart = mondrix_hart();
    uint32_t node = lock->own[hart], before;
    if (lock->held[node]) mondrix_break(); /* this hart has it: it would wait for itself */
    lock->held[node] = 1;
    if (mondrix_exchange(&lock->last, node, &before) != MONDRIX_OK) mondrix_break();
    lock->before[hart] = before;
    while (lock->held[before]) {}
    mondrix_barrier();
}

void mondrix_unlock(struct mondrix_lock *lock) {
    unsigned hart = mondrix_hart();
    uint32_t node = lock->own[hart];
    if (!lock->held[node]) mondrix_break(); /* this hart hasn't it */
    lock->own[hart] = lock->before[hart];
    mondrix_barrier();
    lock->held[node] = 0;
}
