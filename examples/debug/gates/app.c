/* Lets the parser read its text, which comes through two more gates to a module that may not. */
#include "modules.h"
#include "mondrix.h"

int32_t parse(const char *text);
static char text[8] __attribute__((aligned(4))) = "x = 1";

int main(void) {
    mondrix_must(mondrix_grant(text, sizeof text, PARSER, MONDRIX_READ));
    return parse(text) < 0;
}
