#include "mondrix.h"

int32_t keep_entered(const char *line);
MONDRIX_GATE(keep);
static volatile char kept[64];

int32_t keep_entered(const char *line) {
    for (unsigned i = 0; line[i] != 0; i++) kept[i] = line[i];
    return 0;
}
