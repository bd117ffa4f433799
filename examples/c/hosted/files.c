/* Files in memory, by the library's streams and by descriptors, and a clock that goes on. */
#include <errno.h>
#include <fcntl.h>
#include <stdio.h>
#include <string.h>
#include <sys/stat.h>
#include <sys/time.h>
#include <time.h>
#include <unistd.h>

#include "files.h"

static int failed;
#define IS(what) ((what) ? (void)0 : (void)(failed++, printf("not so: %s\n", #what)))

static void by_streams(void) {
    char line[40];
    FILE *file = fopen("letters.txt", "w");
    for (int i = 0; i < 60; i++) fprintf(file, "line %d\n", i);
    IS(fclose(file) == 0);
    file = fopen("/letters.txt", "r+");
    IS(fseek(file, -8, SEEK_END) == 0 && fgets(line, sizeof line, file) != 0 && strcmp(line, "line 59\n") == 0);
    IS(fgets(line, sizeof line, file) == 0 && feof(file));
    IS(fseek(file, 5, SEEK_SET) == 0 && fputc('x', file) == 'x' && fseek(file, 0, SEEK_SET) == 0);
    IS(fgets(line, sizeof line, file) != 0 && strcmp(line, "line x\n") == 0);
    IS(fclose(file) == 0);
    file = fopen("letters.txt", "a");
    fputs("end", file);
    fclose(file);
    file = fopen("./letters.txt", "r");
    IS(fseek(file, 0, SEEK_END) == 0 && ftell(file) == 10 * 7 + 50 * 8 + 3);
    fclose(file);
    IS(fopen("none", "r") == 0 && errno == ENOENT);
    IS(rename("letters.txt", "renamed.txt") == 0 && fopen("letters.txt", "r") == 0);
    IS(remove("renamed.txt") == 0 && fopen("renamed.txt", "r") == 0);
}

static void by_descriptors(void) {
    char bytes[16];
    struct stat told;
    int file = open("a", O_RDWR | O_CREAT | O_EXCL, 0600), same = open("a", O_RDONLY);
    IS(file > 2 && same > file && open("a", O_RDWR | O_CREAT | O_EXCL, 0600) == -1 && errno == EEXIST);
    IS(lseek(file, 1000, SEEK_SET) == 1000 && write(file, "end", 3) == 3 && lseek(same, -5, SEEK_END) == 998);
    IS(read(same, bytes, 16) == 5 && memcmp(bytes, "\0\0end", 5) == 0 && read(same, bytes, 16) == 0);
    IS(write(same, "x", 1) == -1 && errno == EBADF);
    IS(fstat(same, &told) == 0 && told.st_size == 1003 && S_ISREG(told.st_mode));
    IS(ftruncate(file, 2) == 0 && stat("a", &told) == 0 && told.st_size == 2 && fsync(file) == 0);
    IS(access("a", F_OK) == 0 && unlink("a") == 0 && access("a", F_OK) == -1 && errno == ENOENT);
    IS(write(file, "still", 5) == 5 && close(file) == 0 && close(same) == 0 && close(same) == -1 && errno == EBADF);
    IS(lseek(7, 0, SEEK_SET) == -1 && read(7, bytes, 1) == -1 && stat("/", &told) == 0 && S_ISDIR(told.st_mode));
    IS(getcwd(bytes, 16) == bytes && strcmp(bytes, "/") == 0 && !isatty(0) && read(0, bytes, 1) == 0);
    IS((file = open("/dev/stdin", O_RDONLY)) > 2 && read(file, bytes, 16) == 0 && close(file) == 0);
    IS(mondrix_file("given", "some bytes", 10) == 0 && (file = open("given", O_RDWR)) > 2);
    IS(read(file, bytes, 4) == 4 && write(file, "!", 1) == 1 && lseek(file, 0, SEEK_SET) == 0);
    IS(read(file, bytes, 16) == 10 && memcmp(bytes, "some!bytes", 10) == 0 && close(file) == 0);
    printf("before ");
    IS(write(1, "and after\n", 10) == 10);
}

static void by_the_clock(void) {
    struct timeval first, then;
    time_t now = time(0);
    clock_t ticks = clock();
    IS(gettimeofday(&first, 0) == 0 && gettimeofday(&then, 0) == 0 && timercmp(&first, &then, <));
    IS(sleep(5) == 0 && time(0) >= now + 5 && clock() > ticks);
}

int main(void) {
    by_streams();
    by_descriptors();
    by_the_clock();
    return failed;
}
