/* stdin, stdout and stderr of picolibc. What goes to stdout and stderr goes to the machine's console. stdout has a line
 * for each hart, so that lines of several harts don't mix; it is written when it ends or is full, by fflush, and when
 * the hart leaves. stderr is written through, byte by byte. stdin is the module's input, for one hart at a time; where
 * there is none it is at its end. */
#include <stdio.h>

#include "input.h"
#include "mondrix.h"

enum { LINE = 128 };
static struct {
    unsigned count;
    char bytes[LINE];
} lines[MONDRIX_HARTS];

void mondrix_flush(void) {
    unsigned hart = mondrix_hart();
    unsigned count = lines[hart].count;
    lines[hart].count = 0;
    if (count != 0) (void)!mondrix_write(lines[hart].bytes, count);
}

static int put(char byte, FILE *file) {
    unsigned hart = mondrix_hart();
    (void)file;
    mondrix_flush_last = mondrix_flush;
    lines[hart].bytes[lines[hart].count++] = byte;
    if (byte == '\n' || lines[hart].count == LINE) mondrix_flush();
    return (unsigned char)byte;
}

static int put_through(char byte, FILE *file) {
    (void)file;
    (void)!mondrix_write(&byte, 1);
    return (unsigned char)byte;
}

static int get(FILE *file) {
    unsigned char byte;
    (void)file;
    return mondrix_input_next(&byte, 1) == 1 ? byte : _FDEV_EOF;
}

static int flush(FILE *file) {
    (void)file;
    mondrix_flush();
    return 0;
}

static FILE input = FDEV_SETUP_STREAM(0, get, 0, _FDEV_SETUP_READ);
static FILE output = FDEV_SETUP_STREAM(put, 0, flush, _FDEV_SETUP_WRITE);
static FILE error = FDEV_SETUP_STREAM(put_through, 0, 0, _FDEV_SETUP_WRITE);
FILE *const stdin = &input;
FILE *const stdout = &output;
FILE *const stderr = &error;

/* The library's own loses a last line without a line feed. A module's own takes its place. */
__attribute__((weak)) char *fgets(char *line, int size, FILE *file) {
    char *at = line, *last = line + size - 1;
    if (size <= 0) return 0;
    for (int byte = 0; at != last && byte != '\n'; *at++ = (char)byte)
        if ((byte = getc(file)) == EOF) {
            if (at == line) return 0;
            break;
        }
    *at = 0;
    return line;
}
