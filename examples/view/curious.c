/* A client of the file system that reads beyond its buffer: right before it lies that of the honest one. */
#include <string.h>

#include "files.h"
#include "mondrix.h"

int main(void) {
    volatile char *mine = (char *)files_for_hostile(FILES_OPEN, 0, 0, 0);
    for (uint32_t size = 0; size < 8; size += 4) {
        memcpy((char *)mine, "note", 4);
        mondrix_must(files_for_hostile(FILES_WRITE, 0, size, 4));
    }
    return mine[-FILES_BUFFER];
}
