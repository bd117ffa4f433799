/* Files in memory, for programs that open files: they begin with the module's input, which is /dev/stdin and has the
 * last part of its file's name too, and with those of mondrix_file, and live as long as the run. One folder, "/", holds
 * all others. What is written comes from malloc. Descriptors 0 to 2 are stdin and the console. A module's own function
 * of one of these names takes its place. */
#include "files.h"

#include <errno.h>
#include <fcntl.h>
#include <stdlib.h>
#include <string.h>
#include <sys/stat.h>
#include <unistd.h>

#include "input.h"
#include "mondrix.h"

#define OURS __attribute__((weak))

enum { FILES = 64, OPEN = 64, NAME = 64, CONSOLE = 3 };

struct file {
    char name[NAME];      /* empty where it has none any more */
    unsigned char *bytes;
    size_t size, room;    /* room is 0 where the bytes stand elsewhere */
    unsigned opened;
    int there;
};
static struct file files[FILES];
static struct {
    struct file *file;
    size_t at;
    int flags;
} opened[OPEN]; /* descriptor CONSOLE + i */
static struct mondrix_lock files_lock = MONDRIX_LOCK;
static int has_begun;

/* Ends a call: gives the lock back, and answers -1 with errno where there is an error. */
static int ended(int answer, int error) {
    mondrix_unlock(&files_lock);
    if (error == 0) return answer;
    errno = error;
    return -1;
}

static const char *in_folder(const char *name) {
    while (name[0] == '/' || (name[0] == '.' && name[1] == '/')) name += name[0] == '/' ? 1 : 2;
    return name;
}

static int placed(const char *name, struct file **placed) {
    if (strlen(name) >= NAME) return ENAMETOOLONG;
    for (struct file *file = files; file != files + FILES; file++) {
        if (file->there) continue;
        memset(file, 0, sizeof *file);
        strcpy(file->name, name);
        file->there = 1;
        *placed = file;
        return 0;
    }
    return ENFILE;
}

/* The input under a name. Who writes to it writes to a copy. */
static void begin_with(const char *name) {
    struct file *file;
    if (*name != 0 && placed(name, &file) == 0) file->bytes = mondrix_input(&file->size);
}

static struct file *named(const char *name) {
    if (!has_begun) {
        has_begun = 1;
        begin_with("dev/stdin");
        begin_with(mondrix_input_name);
    }
    name = in_folder(name);
    for (struct file *file = files; *name != 0 && file != files + FILES; file++)
        if (file->there && strcmp(file->name, name) == 0) return file;
    return 0;
}

static int made(const char *name, struct file **made) {
    name = in_folder(name);
    return *name == 0 || strchr(name, '/') != 0 ? ENOENT : placed(name, made);
}

/* What neither a name nor a descriptor leads to goes. */
static void let_go(struct file *file) {
    if (file->name[0] != 0 || file->opened != 0) return;
    if (file->room != 0) free(file->bytes);
    file->there = 0;
}

/* A file of so many bytes, of which there may be more than before: they are zero. */
static int sized(struct file *file, size_t size) {
    if (size > file->room) {
        size_t room = size < 64 ? 64 : size + size / 2;
        unsigned char *bytes = room < size ? 0 : malloc(room);
        if (bytes == 0) return ENOSPC;
        memcpy(bytes, file->bytes, file->size);
        if (file->room != 0) free(file->bytes);
        file->bytes = bytes;
        file->room = room;
    }
    if (size > file->size) memset(file->bytes + file->size, 0, size - file->size);
    file->size = size;
    return 0;
}

static struct file *file_of(int descriptor) {
    if (descriptor < CONSOLE || descriptor >= CONSOLE + OPEN) return 0;
    return opened[descriptor - CONSOLE].file;
}

int mondrix_file(const char *name, const void *bytes, size_t size) {
    struct file *file;
    mondrix_lock(&files_lock);
    int error = named(name) != 0 ? EEXIST : made(name, &file);
    if (error == 0) file->bytes = (unsigned char *)bytes, file->size = size;
    return ended(0, error);
}

OURS int open(const char *name, int flags, ...) {
    mondrix_lock(&files_lock);
    int place = 0, error = 0;
    while (place < OPEN && opened[place].file != 0) place++;
    if (place == OPEN) return ended(0, EMFILE);
    struct file *file = named(name);
    if (file != 0 && (flags & O_CREAT) && (flags & O_EXCL)) return ended(0, EEXIST);
    if (file == 0) error = flags & O_CREAT ? made(name, &file) : ENOENT;
    if (error == 0 && (flags & O_TRUNC) && (flags & O_ACCMODE) != O_RDONLY) error = sized(file, 0);
    if (error != 0) return ended(0, error);
    file->opened++;
    opened[place].file = file;
    opened[place].at = 0;
    opened[place].flags = flags;
    return ended(CONSOLE + place, 0);
}

OURS int close(int descriptor) {
    if (descriptor >= 0 && descriptor < CONSOLE) return 0;
    mondrix_lock(&files_lock);
    struct file *file = file_of(descriptor);
    if (file == 0) return ended(0, EBADF);
    opened[descriptor - CONSOLE].file = 0;
    file->opened--;
    let_go(file);
    return ended(0, 0);
}

OURS ssize_t read(int descriptor, void *bytes, size_t count) {
    if (descriptor == 0) return (ssize_t)mondrix_input_next(bytes, count);
    mondrix_lock(&files_lock);
    struct file *file = file_of(descriptor);
    if (file == 0 || (opened[descriptor - CONSOLE].flags & O_ACCMODE) == O_WRONLY) return ended(0, EBADF);
    size_t at = opened[descriptor - CONSOLE].at;
    size_t left = at < file->size ? file->size - at : 0;
    if (count > left) count = left;
    memcpy(bytes, file->bytes + at, count);
    opened[descriptor - CONSOLE].at += count;
    return ended((int)count, 0);
}

static ssize_t shown(const char *bytes, size_t count) {
    for (size_t done = 0, part; done < count; done += part) {
        part = count - done < MONDRIX_WRITE_MAX ? count - done : MONDRIX_WRITE_MAX;
        if (mondrix_write(bytes + done, part) < 0) {
            errno = EFAULT;
            return -1;
        }
    }
    return (ssize_t)count;
}

OURS ssize_t write(int descriptor, const void *bytes, size_t count) {
    if (descriptor == 1 && mondrix_flush_last) mondrix_flush_last();
    if (descriptor == 1 || descriptor == 2) return shown(bytes, count);
    mondrix_lock(&files_lock);
    struct file *file = file_of(descriptor);
    if (file == 0 || (opened[descriptor - CONSOLE].flags & O_ACCMODE) == O_RDONLY) return ended(0, EBADF);
    size_t *at = &opened[descriptor - CONSOLE].at;
    if (opened[descriptor - CONSOLE].flags & O_APPEND) *at = file->size;
    if (*at + count < count) return ended(0, EFBIG);
    size_t size = *at + count > file->size ? *at + count : file->size;
    int error = count == 0 ? 0 : sized(file, size);
    if (error != 0) return ended(0, error);
    memcpy(file->bytes + *at, bytes, count);
    *at += count;
    return ended((int)count, 0);
}

OURS off_t lseek(int descriptor, off_t offset, int from) {
    if (descriptor >= 0 && descriptor < CONSOLE) {
        errno = ESPIPE;
        return -1;
    }
    mondrix_lock(&files_lock);
    struct file *file = file_of(descriptor);
    if (file == 0) return ended(0, EBADF);
    size_t *at = &opened[descriptor - CONSOLE].at;
    off_t to = offset + (off_t)(from == SEEK_SET ? 0 : from == SEEK_CUR ? *at : file->size);
    if (to < 0 || (from != SEEK_SET && from != SEEK_CUR && from != SEEK_END)) return ended(0, EINVAL);
    *at = (size_t)to;
    return ended((int)to, 0);
}

OURS int ftruncate(int descriptor, off_t size) {
    mondrix_lock(&files_lock);
    struct file *file = file_of(descriptor);
    return ended(0, file == 0 ? EBADF : size < 0 ? EINVAL : sized(file, (size_t)size));
}

OURS int unlink(const char *name) {
    mondrix_lock(&files_lock);
    struct file *file = named(name);
    if (file == 0) return ended(0, ENOENT);
    file->name[0] = 0;
    let_go(file);
    return ended(0, 0);
}

OURS int rename(const char *from, const char *to) {
    mondrix_lock(&files_lock);
    struct file *file = named(from), *before = named(to);
    const char *name = in_folder(to);
    if (file == 0 || *name == 0 || strchr(name, '/') != 0) return ended(0, ENOENT);
    if (strlen(name) >= NAME) return ended(0, ENAMETOOLONG);
    if (file == before) return ended(0, 0);
    if (before != 0) before->name[0] = 0, let_go(before);
    strcpy(file->name, name);
    return ended(0, 0);
}

static void told(struct stat *stat, mode_t mode, const struct file *file) {
    memset(stat, 0, sizeof *stat);
    stat->st_mode = mode;
    stat->st_nlink = 1;
    if (file == 0) return;
    stat->st_ino = (ino_t)(file - files + 1);
    stat->st_size = (off_t)file->size;
}

OURS int fstat(int descriptor, struct stat *stat) {
    mondrix_lock(&files_lock);
    struct file *file = file_of(descriptor);
    if (file == 0 && (descriptor < 0 || descriptor >= CONSOLE)) return ended(0, EBADF);
    told(stat, file == 0 ? S_IFCHR | 0600 : S_IFREG | 0600, file);
    return ended(0, 0);
}

static int is_folder(const char *name) {
    const char *rest = in_folder(name);
    return (*rest == 0 && *name != 0) || strcmp(rest, ".") == 0;
}

OURS int stat(const char *name, struct stat *stat) {
    mondrix_lock(&files_lock);
    struct file *file = named(name);
    if (file == 0 && !is_folder(name)) return ended(0, ENOENT);
    told(stat, file == 0 ? S_IFDIR | 0700 : S_IFREG | 0600, file);
    return ended(0, 0);
}

OURS int access(const char *name, int mode) {
    (void)mode;
    mondrix_lock(&files_lock);
    return ended(0, named(name) != 0 || is_folder(name) ? 0 : ENOENT);
}

OURS int fsync(int descriptor) {
    mondrix_lock(&files_lock);
    return ended(0, file_of(descriptor) != 0 || (descriptor >= 0 && descriptor < CONSOLE) ? 0 : EBADF);
}

OURS int isatty(int descriptor) {
    (void)descriptor;
    errno = ENOTTY;
    return 0;
}

OURS char *getcwd(char *to, size_t size) {
    if (to != 0 && size >= 2) return strcpy(to, "/");
    errno = to == 0 ? EINVAL : ERANGE;
    return 0;
}
