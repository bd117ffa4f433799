#ifndef DISK_H
#define DISK_H
#include <stdint.h>

enum { SECTOR = 128, SECTORS = 33 };

/* How many sectors the disk has, at most SECTORS. */
int32_t disk_sectors(void);
int32_t disk_sectors_entered(void);
/* One sector from the disk and to it; MONDRIX_OK, or the code of what refuses it. The words are the caller's, and the
 * disk has to have the right on them. */
int32_t disk_read(uint32_t sector, uint8_t *to);
int32_t disk_read_entered(uint32_t sector, uint8_t *to);
int32_t disk_write(uint32_t sector, const uint8_t *from);
int32_t disk_write_entered(uint32_t sector, const uint8_t *from);

#endif
