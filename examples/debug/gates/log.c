#include "mondrix.h"

int32_t keep(const char *line);
int32_t log_line_entered(const char *line);
MONDRIX_GATE(log_line);

int32_t log_line_entered(const char *line) {
    int32_t answer = keep(line);
    return answer < 0 ? answer : 1;
}
