#include "shout.h"

#include <ctype.h>
#include <stdio.h>

#include "mondrix.h"

MONDRIX_GATE(shout);

static struct mondrix_lock lock = MONDRIX_LOCK;
static int32_t count;

int32_t shout_entered(const char *text, uint32_t length) {
    char line[64];
    if (length > sizeof line) return MONDRIX_TOO_LONG;
    int answer = mondrix_copy_in(line, text, length);
    if (answer != MONDRIX_OK) return answer;
    mondrix_lock(&lock);
    for (uint32_t i = 0; i < length; i++)
        line[i] = (char)toupper((unsigned char)line[i]);
    printf("%.*s\n", (int)length, line);
    count++;
    mondrix_unlock(&lock);
    return count;
}
