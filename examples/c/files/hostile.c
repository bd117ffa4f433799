/* Tries to come to what isn't its own: by numbers and sizes that are none, by taking all of the disk, and by bytes that
 * were another's. */
#include <stdio.h>
#include <string.h>

#include "files.h"
#include "mondrix.h"

static const uint32_t odd[] = {
    0, 1, 3, 4, 127, 128, 255, 256, 257, 511, 512, 0x7fffffff, 0x80000000, 0xffffff80, 0xffffffff,
};
enum { ODD = sizeof odd / sizeof odd[0] };

int main(void) {
    int taken = 0, refused = 0, found = 0;
    int32_t place = files_for_hostile(FILES_OPEN, 0, 0, 0);
    static char none[FILES_BUFFER];
    char *buffer = place >= MONDRIX_NOT_FOREIGN && place < 0 ? none : (char *)place;
    for (unsigned i = 0; i < ODD; i++)
        for (unsigned j = 0; j < ODD; j += 5) {
            uint32_t wish = i % 2 ? FILES_WRITE : FILES_READ;
            int32_t answer = files_for_hostile(wish, odd[j] % 7, odd[i], odd[j]);
            taken += answer >= 0;
            refused += answer < 0;
        }
    for (unsigned file = 0; file < FILES_EACH; file++)
        for (uint32_t at = 0; at < 512; at += 128) {
            memset(buffer, 0, FILES_BUFFER);
            files_for_hostile(FILES_READ, file, at, 128);
            for (int i = 0; i < 128; i++) found += memcmp(buffer + i, "secret", 6) == 0;
        }
    printf("hostile: %d wishes taken, %d refused, %d secrets found\n", taken, refused, found);
    printf("hostile: a grant on its buffer: %s\n", mondrix_code_name(mondrix_grant(buffer, 4, 2, MONDRIX_READ)));
    for (unsigned file = 0; file < FILES_EACH; file++) files_for_hostile(FILES_EMPTY, file, 0, 0);
    return 0;
}
