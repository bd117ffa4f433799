/* Uses a module that dies by its first fault, and then goes on without it. */
#include <stdio.h>

#include "divide.h"
#include "mondrix.h"

static int32_t slowly(int32_t a, int32_t b) {
    int32_t quotient = 0;
    if (b <= 0) return MONDRIX_BAD_RANGE;
    for (; a >= b; a -= b) quotient++;
    return quotient;
}

static void quotient_of(int32_t a, int32_t b) {
    int32_t answer = divide(a, b);
    if (mondrix_is_fault(answer)) {
        printf("the module answered %s\n", mondrix_code_name(answer));
        answer = slowly(a, b);
    }
    if (answer < 0)
        printf("%d / %d is refused, %s\n", (int)a, (int)b, mondrix_code_name(answer));
    else
        printf("%d / %d is %d\n", (int)a, (int)b, (int)answer);
}

int main(void) {
    quotient_of(84, 2);
    quotient_of(1, 0);
    quotient_of(90, 3);
    quotient_of(84, 4);
    quotient_of(72, 8);
    return 0;
}
