/* Finds the files that the disk brought, adds to one of them piece by piece, and finds what it wrote. */
#include <stdio.h>
#include <string.h>

#include "files.h"
#include "mondrix.h"

static char *buffer;

/* The answer, which has to be no refusal. */
static int32_t ask(uint32_t wish, uint32_t file, uint32_t offset, uint32_t bytes) {
    int32_t answer = files_for_honest(wish, file, offset, bytes);
    mondrix_must(answer);
    return answer;
}

int main(void) {
    int32_t place = files_for_honest(FILES_OPEN, 0, 0, 0);
    if (place >= MONDRIX_NOT_FOREIGN && place < 0) {
        printf("honest: no files, %s\n", mondrix_code_name(place));
        return 1;
    }
    buffer = (char *)place;
    for (uint32_t file = 0; file < FILES_EACH; file++) {
        int bytes = ask(FILES_SIZE, file, 0, 0), letters = ask(FILES_NAMED, file, 0, 0);
        if (bytes > 0) printf("honest: %.*s has %d bytes\n", letters, buffer, bytes);
    }
    uint32_t size = ask(FILES_SIZE, 1, 0, 0);
    for (int i = 0; i < 14; i++) {
        sprintf(buffer, "line %2d of the log\n", i);
        size += ask(FILES_WRITE, 1, size, 19);
    }
    printf("honest: a log of %d bytes\n", (int)ask(FILES_SIZE, 1, 0, 0));
    memset(buffer, 0, FILES_BUFFER);
    buffer[ask(FILES_READ, 1, 14 * 19, 18)] = 0;
    printf("honest: read: %s\n", buffer);
    printf("honest: read: %.*s", (int)ask(FILES_READ, 0, 0, FILES_BUFFER), buffer);
    ask(FILES_EMPTY, 1, 0, 0);
    printf("honest: emptied, and now of %d bytes\n", (int)ask(FILES_SIZE, 1, 0, 0));
    printf("honest: beyond the end: %s\n", mondrix_code_name(files_for_honest(FILES_READ, 1, 1, 1)));
    return 0;
}
