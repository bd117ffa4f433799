/* The greatest files that the program takes, in the forms that were found to be the worst, and what a call costs.
 *
 *   inputs image NUMBER OUT             an image of 16 MiB that is nearly all symbols, for the module of this number
 *                                       from 0
 *   inputs bare IMAGE                   takes the segments out of such an image
 *   inputs manifest KIND GATES OUT      63 modules with these images, 64 MiB of RAM, four harts, the greatest
 *                                       limits of the tables of this kind; 252 gates into all modules (spread), or
 *                                       256 into one (gathered); or spread, with an input area of 512 KiB each in
 *                                       place of heap and stack (reading), one of 1 MiB each for bare images (full),
 *                                       or one as large as RAM (over)
 *   inputs input BYTES OUT              an input of so many bytes
 *   inputs schedule OUT                 a schedule of 16 MiB, of four harts in turn
 *   inputs source FORM OUT              a source of 1 MiB: usual, labels, references or zeros
 *   inputs snapshot KIND MODULES OUT    a snapshot of so many modules, 64 MiB of RAM, four harts and the greatest
 *                                       limits, in which each word is a run of permission of its own as long as the
 *                                       file has room for that
 *   inputs text BEGIN PART END OUT      a file of 1 MiB: a beginning, a part again and again, and an end
 *   inputs time PROGRAM WORDS..         calls a program, and says on file 3 with which status it ended, the seconds
 *                                       of a processor that it took, and its greatest resident size in MB */
#include <stdint.h>
#include <stdio.h>
#include <stdlib.h>
#include <string.h>
#include <sys/resource.h>
#include <sys/wait.h>
#include <unistd.h>

enum { WORDS = 16777216, SNAPSHOT = 1073741824 };
enum { IMAGE = 16777216, SOURCE = 1048576, MODULES = 63, LETTERS = 255, NAMES = 256, NAMES_AT = 1024, APART = 0x8000 };
enum { RAM = 0x80000000u, MODULE = 0x00100000u };

static FILE *out;

static void put(const uint32_t *words, size_t count) { fwrite(words, 4, count, out); }

static void fill(long to) {
    while (ftell(out) < to) fputc(0, out);
}

/* A name of letters a but for the last two, with a zero byte behind it. */
static void name(char *text, const char *last) {
    memset(text, 'a', LETTERS - 2);
    memcpy(text + LETTERS - 2, last, 2);
    text[LETTERS] = 0;
}

static const char *last_letters(unsigned number) {
    static char last[2];
    last[0] = (char)('a' + number / 16 % 16);
    last[1] = (char)('a' + number % 16);
    return last;
}

/* The names of the last 256 symbols, and then so many that nobody asks for. */
static void names(unsigned others) {
    char text[LETTERS + 1];
    for (unsigned i = 0; i < NAMES + others; i++) {
        name(text, i < NAMES ? last_letters(i) : "zz");
        fwrite(text, 1, sizeof text, out);
    }
}

static void symbols(unsigned count, unsigned others, uint32_t address) {
    for (unsigned i = 0; i < count; i++) {
        unsigned own = count - NAMES, number = i >= own ? i - own : NAMES + i * 40503u % others;
        put((uint32_t[]){number * (LETTERS + 1), address + 4 * number, 0, 0x00010010}, 4);
    }
}

static void image(unsigned module) {
    uint32_t address = RAM + MODULE * module, others = IMAGE / 1024, size = (NAMES + others) * (LETTERS + 1);
    uint32_t first = NAMES_AT + size, count = (IMAGE - first) / 16;
    put((uint32_t[]){0x464c457f, 0x00010101, 0, 0, 0x00f30002, 1, address, 52, 564, 0, 0x00200034, 0x00280010, 3}, 13);
    for (unsigned i = 0; i < 16; i++) {
        uint32_t at = address + APART * i;
        put((uint32_t[]){1, 4096, at, at, 4096, 4100, i % 2 ? 6 : 5, 4}, 8);
    }
    put((uint32_t[10]){0}, 10);
    put((uint32_t[]){0, 3, 0, 0, NAMES_AT, size, 0, 0, 1, 0}, 10);
    put((uint32_t[]){0, 2, 0, 0, first, 16 * count, 1, 0, 4, 16}, 10);
    fill(NAMES_AT);
    names(others);
    symbols(count, others, address);
    fill(IMAGE);
}

/* Makes the program headers ones of no segment. */
static int bare(const char *name) {
    if (!(out = fopen(name, "r+b"))) return 1;
    for (long i = 0; i < 16; i++) {
        fseek(out, 52 + 32 * i, SEEK_SET);
        put((uint32_t[]){0}, 1);
    }
    return fclose(out) != 0;
}

static void gates(int are_gathered, unsigned module) {
    char text[LETTERS + 1];
    if (are_gathered && module > 0) return;
    fputs("gates = [", out);
    for (unsigned i = are_gathered ? 0 : NAMES - 1; i < NAMES; i++) {
        name(text, last_letters(i));
        fprintf(out, "{ entry = \"%s\", from = [\"m%u\"", text, (module + 1) % MODULES);
        for (unsigned k = 2; !are_gathered && k < 5; k++) fprintf(out, ", \"m%u\"", (module + k) % MODULES);
        fputs("] }, ", out);
    }
    fputs("]\n", out);
}

/* The areas of a module beside its segments. */
static void areas(const char *form, uint32_t at) {
    int is_full = strcmp(form, "full") == 0, is_over = strcmp(form, "over") == 0;
    if (is_full || is_over || strcmp(form, "reading") == 0) {
        fputs("input = \"input.bin\"\n", out);
        fprintf(out, "input_at = %u\n", is_full ? at : at + 0x80000);
        fprintf(out, "input_words = %d\n", is_full ? 262144 : is_over ? WORDS : 131072);
        return;
    }
    fprintf(out, "heap = %u\nheap_words = 16384\n", at + 0x80000);
    fprintf(out, "stack = %u\nstack_words = 1024\n", at + 0xc0000);
}

static void manifest(const char *kind, const char *form) {
    char text[LETTERS + 1];
    int are_gathered = strcmp(form, "gathered") == 0;
    fprintf(out, "version = 2\nram_kib = 65536\ntables = \"%s\"\nupper = 4096\nleaf = 262144\nspill = 1048576\n", kind);
    fputs("lookaside = 64\n", out);
    for (unsigned i = 0; i < MODULES; i++) {
        fprintf(out, "[[module]]\nname = \"m%u\"\nimage = \"m%u.elf\"\n", i, i);
        areas(form, RAM + MODULE * i);
        gates(are_gathered, i);
    }
    name(text, last_letters(NAMES - 1));
    for (unsigned i = 0; i < 4; i++) fprintf(out, "[[hart]]\nmodule = \"m%u\"\nentry = \"%s\"\n", i, text);
}

static void schedule(void) {
    for (long i = 0; i < IMAGE; i++) fputc((int)(i % 4), out);
}

/* A map of runs of one word each, as many as are told, and one for the words that are left. */
static void map(uint32_t runs) {
    put(&runs, 1);
    for (uint32_t i = 1; i < runs; i++) put((uint32_t[]){4 + 1 + i % 2}, 1);
    put((uint32_t[]){4 * (WORDS - (runs - 1)) + 1 + runs % 2}, 1);
}

static void snapshot(uint32_t kind, uint32_t modules) {
    uint32_t left = (SNAPSHOT - 4 * WORDS - 52 - 40 * modules - 16 - 4 * 148) / 4;
    fwrite("MXSN\1\0\0\0", 1, 8, out);
    put((uint32_t[]){WORDS, kind, 4096, 262144, 1048576, 64, 1, modules, 4, 0, 0}, 11);
    for (uint32_t i = 0; i < modules; i++) {
        uint32_t runs = left < WORDS ? left : WORDS;
        put((uint32_t[]){4}, 1);
        fprintf(out, "m%03u", i);
        put((uint32_t[]){0, 0, 0, 0, 0, 0, 0}, 7);
        map(runs);
        left -= runs;
    }
    put((uint32_t[]){1, WORDS, 0, 0}, 4);
    for (int i = 0; i < 4; i++) put((uint32_t[37]){0, 1, RAM}, 37);
    fill(ftell(out) + 4 * (long)WORDS);
}

/* What is written again and again between a beginning and an end, up to 1 MiB. */
static void repeated(const char *begin, const char *part, const char *end) {
    long most = SOURCE - (long)(strlen(part) + strlen(end));
    fputs(begin, out);
    while (ftell(out) <= most) fputs(part, out);
    fputs(end, out);
}

/* Numbers in letters, from one on. */
static const char *label(uint64_t number) {
    static char text[12];
    char *at = text;
    do {
        *at++ = "abcdefghijklmnopqrstuvwxyzABCDEFGHIJKLMNOPQRSTUVWXYZ"[number % 52];
        number /= 52;
    } while (number);
    *at = 0;
    return text;
}

static uint64_t drawn(uint64_t below) {
    static uint64_t state = 1;
    state = state * 6364136223846793005u + 1442695040888963407u;
    return (state >> 33) % below;
}

/* Labels up to a place, and their number. */
static uint64_t labels(long to) {
    uint64_t count = 0;
    fputs(".text 0\n", out);
    while (ftell(out) < to - 13) fprintf(out, "%s:\n", label(count++));
    return count;
}

static void source(const char *form) {
    if (strcmp(form, "labels") == 0) {
        labels(SOURCE);
    } else if (strcmp(form, "references") == 0) {
        uint64_t count = labels(SOURCE / 2);
        fputs(".word a", out);
        while (ftell(out) < SOURCE - 13) fprintf(out, ",%s", label(drawn(count)));
        fputs("\n", out);
    } else if (strcmp(form, "usual") == 0) {
        fputs(".text 0\n", out);
        for (uint64_t line = 0; ftell(out) < SOURCE - 40; line++) {
            fprintf(out, "%s: la a0, ", label(line));
            fprintf(out, "%s\n", label(drawn(line + 1)));
        }
    } else if (strcmp(form, "zeros") == 0) {
        repeated(".data 0\n.at 4194304\n", "#", "\n");
    }
}

static int timed(char **words) {
    struct rusage usage;
    int status;
    pid_t child = fork();
    if (child == 0) {
        execv(words[0], words);
        _exit(127);
    }
    if (wait4(child, &status, 0, &usage) != child) return 1;
    double seconds = (double)(usage.ru_utime.tv_sec + usage.ru_stime.tv_sec) +
                     (double)(usage.ru_utime.tv_usec + usage.ru_stime.tv_usec) / 1e6;
    dprintf(3, "%d | %.2f s | %.0f MB", WIFEXITED(status) ? WEXITSTATUS(status) : -1, seconds,
            (double)usage.ru_maxrss / 1000);
    return 0;
}

int main(int many, char **words) {
    if (many >= 3 && strcmp(words[1], "time") == 0) return timed(words + 2);
    if (many == 3 && strcmp(words[1], "bare") == 0) return bare(words[2]);
    if (many < 3 || !(out = fopen(words[many - 1], "wb"))) return 1;
    if (strcmp(words[1], "image") == 0) image((unsigned)atoi(words[2]));
    if (strcmp(words[1], "manifest") == 0) manifest(words[2], words[3]);
    if (strcmp(words[1], "input") == 0) fill(atol(words[2]));
    if (strcmp(words[1], "schedule") == 0) schedule();
    if (strcmp(words[1], "source") == 0) source(words[2]);
    if (strcmp(words[1], "snapshot") == 0) snapshot((uint32_t)atoi(words[2]), (uint32_t)atoi(words[3]));
    if (strcmp(words[1], "text") == 0) repeated(words[2], words[3], words[4]);
    return fclose(out) != 0;
}
