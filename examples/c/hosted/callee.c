/* Two gates in a module that is optimized as a whole. */
#include "callee.h"

#include "mondrix.h"

MONDRIX_GATE(twice);
MONDRIX_GATE(thrice);

int32_t twice_entered(int32_t number) { return 2 * number; }
int32_t thrice_entered(int32_t number) { return number + twice_entered(number); }
