/* The module's input, by the library's stdin, by descriptor 0, and as a file with two names. */
#include <fcntl.h>
#include <stdio.h>
#include <string.h>
#include <sys/stat.h>
#include <unistd.h>

#include "files.h"
#include "mondrix.h"

static int failed;
#define IS(what) ((what) ? (void)0 : (void)(failed++, printf("not so: %s\n", #what)))

static const char whole[] = "begin 42 3f\nlines that\n\nfgets reads\nthe last has no end";

static void by_streams(void) {
    char bytes[8] = "", word[8], line[40];
    int number;
    unsigned other;
    IS(read(0, bytes, 3) == 3 && strcmp(bytes, "beg") == 0 && getchar() == 'i' && ungetc('I', stdin) == 'I');
    IS(scanf("%7s %d%x", word, &number, &other) == 3 && strcmp(word, "In") == 0 && number == 42 && other == 0x3f);
    IS(getchar() == '\n' && fgets(line, 6, stdin) == line && strcmp(line, "lines") == 0);
    IS(fgets(line, sizeof line, stdin) == line && strcmp(line, " that\n") == 0);
    IS(fgets(line, sizeof line, stdin) == line && strcmp(line, "\n") == 0);
    IS(fgets(line, sizeof line, stdin) == line && strcmp(line, "fgets reads\n") == 0 && !feof(stdin));
    IS(fgets(line, sizeof line, stdin) == line && strcmp(line, "the last has no end") == 0);
    IS(fgets(line, sizeof line, stdin) == 0 && feof(stdin) && getchar() == EOF && scanf("%d", &number) == EOF);
    IS(read(0, bytes, 8) == 0 && lseek(0, 0, SEEK_SET) == -1);
}

static void by_files(void) {
    char bytes[sizeof whole], line[40];
    struct stat told;
    size_t size;
    const char *input = mondrix_input(&size);
    int file = open("input.txt", O_RDWR), same = open("/dev/stdin", O_RDONLY);
    IS(size == sizeof whole - 1 && memcmp(input, whole, size) == 0);
    IS(fstat(file, &told) == 0 && told.st_size == (off_t)size && stat("/dev/stdin", &told) == 0);
    IS(read(same, bytes, sizeof bytes) == (ssize_t)size && memcmp(bytes, whole, size) == 0);
    IS(write(file, "other", 5) == 5 && lseek(file, 0, SEEK_SET) == 0 && read(file, bytes, 9) == 9);
    IS(memcmp(bytes, "other 42 ", 9) == 0 && memcmp(input, "begin 42 ", 9) == 0 && lseek(same, 0, SEEK_SET) == 0);
    IS(read(same, bytes, 9) == 9 && memcmp(bytes, "begin 42 ", 9) == 0 && close(file) == 0 && close(same) == 0);
    FILE *stream = fopen("/dev/stdin", "r");
    IS(fseek(stream, -8, SEEK_END) == 0 && fgets(line, sizeof line, stream) == line && strcmp(line, "s no end") == 0);
    IS(fclose(stream) == 0 && mondrix_file("input.txt", "", 0) == -1 && open("/dev/stdout", O_RDONLY) == -1);
}

int main(void) {
    by_streams();
    by_files();
    printf("%u bytes of input\n", (unsigned)sizeof whole - 1);
    return failed;
}
