/* The disk: an image that is the module's input, and which it may write. It takes addresses, and so tests them. */
#include "disk.h"

#include "mondrix.h"

MONDRIX_GATE(disk_sectors);
int32_t disk_sectors_entered(void) {
    size_t bytes;
    (void)mondrix_input(&bytes);
    return bytes / SECTOR < SECTORS ? (int32_t)(bytes / SECTOR) : SECTORS;
}

/* The sector's bytes, or 0. */
static uint8_t *place_of(uint32_t sector) {
    size_t bytes;
    uint8_t *disk = mondrix_input(&bytes);
    return sector < (uint32_t)disk_sectors_entered() ? disk + sector * SECTOR : 0;
}

MONDRIX_GATE(disk_read);
int32_t disk_read_entered(uint32_t sector, uint8_t *to) {
    uint8_t *place = place_of(sector);
    return place == 0 ? MONDRIX_BAD_RANGE : mondrix_copy_out(to, place, SECTOR);
}

MONDRIX_GATE(disk_write);
int32_t disk_write_entered(uint32_t sector, const uint8_t *from) {
    uint8_t *place = place_of(sector);
    return place == 0 ? MONDRIX_BAD_RANGE : mondrix_copy_in(place, from, SECTOR);
}
