#include "mondrix.h"

int32_t log_line(const char *line);
int32_t parse_entered(const char *text);
MONDRIX_GATE(parse);

int32_t parse_entered(const char *text) {
    return text[0] == '#' ? 0 : log_line(text);
}
