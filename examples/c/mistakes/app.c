#include <stdio.h>

#include "modules.h"
#include "mondrix.h"
#include "shout.h"

static char text[28] __attribute__((aligned(4))) = "hello from another module";
static int32_t said;

static __attribute__((noinline)) int32_t speak(void) {
    int32_t answer = shout(text, 25);
    said += answer > 0;
    return answer;
}

int main(void) {
    mondrix_must(mondrix_grant(text, sizeof text, SHOUT, MONDRIX_READ));
    int32_t answer = speak();
    printf("shout answered %d\n", (int)answer);
    return 0;
}
