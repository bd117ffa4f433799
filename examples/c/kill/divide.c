/* Divides, and keeps the last quotients, with a bug: it never begins anew in its table. What a caller gives wrong is
 * refused. Where it finds itself wrong it trusts itself no more: with on_fault = "kill" it is dead then. */
#include "divide.h"

#include "mondrix.h"

enum { KEPT = 2 };
static int32_t kept[KEPT];
static uint32_t count;

MONDRIX_GATE(divide);

int32_t divide_entered(int32_t a, int32_t b) {
    if (a <= 0 || b <= 0) return MONDRIX_BAD_RANGE;
    if (count == KEPT) mondrix_break();
    kept[count++] = a / b;
    return a / b;
}
