/* A file system for clients that don't trust one another. Each has a gate, a buffer and files of its own: the gate
 * tells who calls, the buffer is the file system's own, and so neither an address nor a name of another's file comes
 * in. Nor is the disk believed: where its directory can't be right, each wish is refused by MONDRIX_BAD_RANGE. */
#ifndef FILES_H
#define FILES_H
#include <stdint.h>

enum { FILES_BUFFER = 256, FILES_EACH = 4, FILES_SECTORS = 4, FILES_NAME = 8 };

enum files_wish {
    FILES_OPEN,  /* the buffer's address, as uint32_t */
    FILES_SIZE,  /* of a file, 0 to FILES_EACH - 1: its bytes */
    FILES_WRITE, /* from the buffer to a file, at an offset of at most its size: the bytes */
    FILES_READ,  /* from a file to the buffer: the bytes, fewer at its end */
    FILES_EMPTY, /* a file has no bytes then */
    FILES_NAMED  /* its name on the disk, to the buffer: its bytes, at most FILES_NAME */
};

/* Answers as said, or the code of what refuses it. */
int32_t files_for_honest(uint32_t wish, uint32_t file, uint32_t offset, uint32_t bytes);
int32_t files_for_honest_entered(uint32_t wish, uint32_t file, uint32_t offset, uint32_t bytes);
int32_t files_for_hostile(uint32_t wish, uint32_t file, uint32_t offset, uint32_t bytes);
int32_t files_for_hostile_entered(uint32_t wish, uint32_t file, uint32_t offset, uint32_t bytes);

#endif
