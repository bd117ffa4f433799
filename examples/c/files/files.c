/* The file system: tables of its own, and sectors of the disk. The lock is held over a whole wish: what is touched then
 * are words of its own, which no client can take away, and the gates of the disk, which come back with an answer. The
 * disk's first sector is the directory, an entry for each file: those of the first client, then those of the second. */
#include "files.h"

#include <string.h>

#include "disk.h"
#include "modules.h"
#include "mondrix.h"

struct file {
    char name[FILES_NAME]; /* with zeros behind it */
    uint32_t size;
    uint8_t sectors[FILES_SECTORS]; /* those of its bytes */
};
struct client {
    unsigned module;
    uint8_t *buffer;
    struct file *files;
    int is_open;
};
static struct file directory[2 * FILES_EACH]; /* as the disk has it */
_Static_assert(sizeof directory == SECTOR, "the directory is a sector");
static uint8_t buffers[2][FILES_BUFFER] __attribute__((aligned(4)));
static struct client honest = {.module = HONEST, .buffer = buffers[0], .files = directory};
static struct client hostile = {.module = HOSTILE, .buffer = buffers[1], .files = directory + FILES_EACH};
static uint8_t is_taken[SECTORS];
static uint8_t sector[SECTOR] __attribute__((aligned(4))); /* the disk may read and write it */
static int is_mounted;
static struct mondrix_lock lock = MONDRIX_LOCK;

static uint32_t sectors_of(const struct file *file) { return (file->size + SECTOR - 1) / SECTOR; }

/* Reads the directory. No file is larger than a file may be, and no sector is outside the disk, or of two files. */
static int32_t mount(void) {
    int32_t answer = mondrix_grant(sector, sizeof sector, DISK, MONDRIX_READ_WRITE), sectors = disk_sectors();
    if (answer == MONDRIX_OK) answer = disk_read(0, sector);
    if (answer != MONDRIX_OK) return answer;
    memcpy(directory, sector, SECTOR);
    for (int32_t i = 0; i < SECTORS; i++) is_taken[i] = i == 0 || i >= sectors;
    for (struct file *file = directory; file != directory + 2 * FILES_EACH; file++) {
        if (file->size > FILES_SECTORS * SECTOR) return MONDRIX_BAD_RANGE;
        for (uint32_t at = 0; at < sectors_of(file); at++) {
            if (file->sectors[at] >= SECTORS || is_taken[file->sectors[at]]) return MONDRIX_BAD_RANGE;
            is_taken[file->sectors[at]] = 1;
        }
    }
    is_mounted = 1;
    return MONDRIX_OK;
}

static int32_t open(struct client *client) {
    int32_t answer = is_mounted ? MONDRIX_OK : mount();
    if (answer != MONDRIX_OK || client->is_open) return answer;
    answer = mondrix_grant(client->buffer, FILES_BUFFER, client->module, MONDRIX_READ_WRITE);
    client->is_open = answer == MONDRIX_OK;
    return answer;
}

/* A free sector, or 0. One client can take no more than half of them. */
static uint8_t free_sector(void) {
    for (uint8_t i = 0; i < SECTORS; i++)
        if (!is_taken[i]) return i;
    return 0;
}

/* The bytes of a file that stand in one sector; what is written leaves the others of it as they are. */
static int32_t move(struct file *file, int is_writing, uint32_t offset, uint8_t *bytes, uint32_t count) {
    uint8_t *number = &file->sectors[offset / SECTOR];
    int32_t answer = MONDRIX_OK;
    if (offset / SECTOR < sectors_of(file)) {
        answer = disk_read(*number, sector);
    } else {
        memset(sector, 0, SECTOR);
        *number = free_sector();
        if (*number == 0) return MONDRIX_NO_ROOM;
    }
    if (answer == MONDRIX_OK && is_writing) {
        memcpy(sector + offset % SECTOR, bytes, count);
        answer = disk_write(*number, sector);
        if (answer != MONDRIX_OK) return answer;
        is_taken[*number] = 1;
        if (offset + count > file->size) file->size = offset + count;
    } else if (answer == MONDRIX_OK) {
        memcpy(bytes, sector + offset % SECTOR, count);
    }
    return answer;
}

/* Writes the directory. */
static int32_t save(void) {
    memcpy(sector, directory, SECTOR);
    return disk_write(0, sector);
}

static int32_t transfer(struct client *client, struct file *file, int is_writing, uint32_t offset, uint32_t bytes) {
    uint32_t end = is_writing ? FILES_SECTORS * SECTOR : file->size;
    if (offset > file->size || bytes > FILES_BUFFER) return MONDRIX_BAD_RANGE;
    if (bytes > end - offset) bytes = end - offset;
    for (uint32_t done = 0, count; done < bytes; done += count) {
        count = SECTOR - (offset + done) % SECTOR;
        if (count > bytes - done) count = bytes - done;
        int32_t answer = move(file, is_writing, offset + done, client->buffer + done, count);
        if (answer != MONDRIX_OK) return answer;
    }
    int32_t answer = is_writing ? save() : MONDRIX_OK;
    return answer == MONDRIX_OK ? (int32_t)bytes : answer;
}

static int32_t serve(struct client *client, uint32_t wish, uint32_t file, uint32_t offset, uint32_t bytes) {
    int32_t answer = open(client);
    if (answer != MONDRIX_OK) return answer;
    if (wish == FILES_OPEN) return (int32_t)client->buffer;
    if (file >= FILES_EACH) return MONDRIX_BAD_RANGE;
    struct file *at = &client->files[file];
    switch (wish) {
    case FILES_SIZE: return (int32_t)at->size;
    case FILES_WRITE: return transfer(client, at, 1, offset, bytes);
    case FILES_READ: return transfer(client, at, 0, offset, bytes);
    case FILES_EMPTY:
        for (uint32_t i = 0; i < sectors_of(at); i++) is_taken[at->sectors[i]] = 0;
        at->size = 0;
        return save();
    case FILES_NAMED: memcpy(client->buffer, at->name, FILES_NAME); return (int32_t)strnlen(at->name, FILES_NAME);
    default: return MONDRIX_BAD_CALL;
    }
}

static int32_t locked(struct client *client, uint32_t wish, uint32_t file, uint32_t offset, uint32_t bytes) {
    mondrix_lock(&lock);
    int32_t answer = serve(client, wish, file, offset, bytes);
    mondrix_unlock(&lock);
    return answer;
}

MONDRIX_GATE(files_for_honest);
int32_t files_for_honest_entered(uint32_t wish, uint32_t file, uint32_t offset, uint32_t bytes) {
    return locked(&honest, wish, file, offset, bytes);
}

MONDRIX_GATE(files_for_hostile);
int32_t files_for_hostile_entered(uint32_t wish, uint32_t file, uint32_t offset, uint32_t bytes) {
    return locked(&hostile, wish, file, offset, bytes);
}
