/* Dies by its first fault. */
#include "guest.h"

MONDRIX_GATE(adds);
MONDRIX_GATE(dies);
MONDRIX_GATE(is_outer);

answer adds_entered(word first, word second) { return (answer)(first + second); }

answer dies_entered(void) {
    mondrix_break();
    return 0;
}

/* Is dead when it comes back. */
answer is_outer_entered(void) {
    GATE(JUDGE_AT, CALLBACK)(0, 0, 0);
    return 0;
}
