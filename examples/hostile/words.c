/* Command lines, and which of them have a meaning: docs/COMMANDS.md "The command line", read a second time. */
#include <stdio.h>
#include <stdlib.h>
#include <string.h>
#include <unistd.h>

#include "change.h"

enum { MOST_WORDS = 64 };

static char *list[MOST_WORDS + 1];
static size_t many;

static char long_name[4][70000];

/* Words out of which command lines are made. Names of files stand for what is there, and for what isn't. */
static const char *const pieces[] = {
    "run", "trace", "asm", "run", "trace", "audit", "twin", "mill", "resume", "debug", "first.toml", "packets.toml",
    "leaves.s", "order.bin", "first.toml", "absent", ".", "..", "/", "/dev/null", "/dev/full", "", "-", "--", "-d",
    "-first.toml", "--dump", "--tables", "--counts", "--schedule", "--from", "--save", "--dump=1",
    "--schedule=order.bin", "--Dump", "--dump ", " --dump", "help", "--help", "--version", "0", "1", "7", "300",
    "0000000300", "00000000300", "3 ", " 3", "+3", "-3", "0x3", "3.0", "1e1", "99999999999", "12345678901234567890",
    "\xd9\xa3", "a\nb", "a\x1b[2Jb", "\x01", "\x7f", "\xc2\x85", "\xff", "\xc3", "\xed\xa0\x80", "RUN", "Run", "run ",
    "walk", "x=y", "*", "$(x)", "\\", "'", "\"", "driver.elf", "rich.bin", "./first.toml", "sub/../first.toml",
    "first.toml/", "~", "%s%n", NULL};

static char *text(const char *piece) { return strdup(piece); }

/* Names of a length round the limit, and one of many bytes. */
static char *long_word(void) {
    static const size_t lengths[] = {254, 255, 256, 65536};
    size_t chosen = below(4);
    memset(long_name[chosen], 'a', lengths[chosen]);
    return strdup(long_name[chosen]);
}

static char *any_word(void) {
    size_t size = 0;
    while (pieces[size]) size++;
    return below(20) == 0 ? long_word() : text(pieces[below(size)]);
}

static void add(char *word) {
    if (many < MOST_WORDS) list[many++] = word;
}

static void add_options(const char *command) {
    const char *const flags[] = {below(2) ? "--dump" : "--save", "--tables", "--counts"};
    int is_trace = strcmp(command, "trace") == 0, is_resume = strcmp(command, "resume") == 0;
    int has_flags = !is_trace && strcmp(command, "debug") != 0;
    for (size_t first = below(3), i = 0; i < 3; i++)
        if (has_flags && below(2) && !(is_resume && (first + i) % 3 == 2)) add(text(flags[(first + i) % 3]));
    if (below(3) == 0) add(text("--schedule")), add(text("order.bin"));
    if (is_trace && below(2)) add(text("--from")), add(text(below(2) ? "3" : "0000000000"));
}

/* A command line that has a meaning. */
static void plain(void) {
    static const char *const runs[] = {"run", "trace", "resume", "debug"};
    size_t command = below(8);
    if (command == 2) {
        add(text("asm"));
        add(text("leaves.s"));
        return;
    }
    if (command == 3) {
        add(text("audit"));
        add(text("packets.toml"));
        return;
    }
    if (command == 4) {
        add(text("twin"));
        add(text("first.toml"));
        add(text(below(2) ? "first.toml" : "packets.toml"));
        add(text(below(2) ? "1" : "300"));
        add(text("0000000060"));
        return;
    }
    if (command == 5 && below(8) == 0) {
        add(text("mill"));
        add(text(below(2) ? "7" : "0000000300"));
        return;
    }
    const char *way = runs[command == 1 ? 1 : command == 6 ? 2 : command == 7 ? 3 : 0];
    add(text(way));
    add(text(command == 6 ? (below(4) ? "rich.bin" : "packets.bin") : below(4) ? "first.toml" : "packets.toml"));
    add(text(below(2) ? "0000000060" : "7"));
    add_options(way);
}

static void change_words(void) {
    size_t at = below(many + 1);
    switch (below(4)) {
    case 0:
        if (at < many) list[at] = any_word();
        break;
    case 1:
        if (at < many) memmove(list + at, list + at + 1, (--many - at) * sizeof *list);
        break;
    case 2:
        if (many < MOST_WORDS) {
            memmove(list + at + 1, list + at, (many++ - at) * sizeof *list);
            list[at] = any_word();
        }
        break;
    default:
        if (at < many && many < MOST_WORDS) add(text(list[at]));
    }
}

/* What the words mean. */
static int is_number(const char *word) {
    size_t size = strlen(word);
    return size >= 1 && size <= 10 && strspn(word, "0123456789") == size;
}

/* Words that are no UTF-8 count as one empty word. */
static int is_utf8(const char *word) {
    const unsigned char *at = (const unsigned char *)word;
    while (*at) {
        size_t more = *at < 0x80                  ? 0
                      : *at >= 0xc2 && *at < 0xe0 ? 1
                      : *at >= 0xe0 && *at < 0xf0 ? 2
                      : *at >= 0xf0 && *at < 0xf5 ? 3
                                                  : 9;
        if (more == 9) return 0;
        if (at[0] == 0xe0 && at[1] < 0xa0) return 0;
        if (at[0] == 0xed && at[1] > 0x9f) return 0;
        if (at[0] == 0xf0 && at[1] < 0x90) return 0;
        if (at[0] == 0xf4 && at[1] > 0x8f) return 0;
        for (at++; more > 0; more--, at++)
            if ((*at & 0xc0) != 0x80) return 0;
    }
    return 1;
}

static int is_name(const char *word) {
    return is_utf8(word) && strlen(word) >= 1 && strlen(word) <= 255 && word[0] != '-';
}

/* The commands, with the kinds of their operands, n for a name, # for a number and k for one of at most 2^31 - 1, and
 * their options with the kinds of theirs. */
struct option {
    const char *name;
    char operand;
};
static const struct command {
    const char *name, *operands;
    struct option options[6];
} commands[] = {
    {"run", "n#", {{"--schedule", 'n'}, {"--dump", 0}, {"--save", 0}, {"--tables", 0}, {"--counts", 0}}},
    {"resume", "n#", {{"--schedule", 'n'}, {"--dump", 0}, {"--save", 0}, {"--tables", 0}}},
    {"trace", "n#", {{"--schedule", 'n'}, {"--from", '#'}}},
    {"debug", "n#", {{"--schedule", 'n'}}},
    {"asm", "n", {{NULL, 0}}},
    {"audit", "n", {{NULL, 0}}},
    {"twin", "nn##", {{NULL, 0}}},
    {"mill", "k", {{NULL, 0}}},
};

static int is_operand(size_t at, char kind) {
    if (at >= many) return 0;
    if (kind == 'n') return is_name(list[at]);
    return is_number(list[at]) && (kind == '#' || strtoull(list[at], NULL, 10) <= 2147483647);
}

/* Options from a place on, each at most once, and one of --dump and --save at most. */
static int are_options(const struct command *command, size_t at) {
    unsigned seen = 0;
    int dumps = 0;
    while (at < many) {
        const struct option *option = command->options;
        while (option->name && strcmp(option->name, list[at]) != 0) option++;
        unsigned bit = 1u << (option - command->options);
        if (!option->name || seen & bit) return 0;
        seen |= bit;
        if (strcmp(list[at], "--dump") == 0 || strcmp(list[at], "--save") == 0) {
            if (dumps) return 0;
            dumps = 1;
        }
        at++;
        if (option->operand && !is_operand(at++, option->operand)) return 0;
    }
    return 1;
}

static int asks_for(const struct command *command) {
    size_t operands = strlen(command->operands);
    if (many == 0 || strcmp(list[0], command->name) != 0) return 0;
    for (size_t i = 0; i < operands; i++)
        if (!is_operand(1 + i, command->operands[i])) return 0;
    return are_options(command, 1 + operands);
}

static const char *meaning(void) {
    for (size_t i = 0; i < sizeof commands / sizeof *commands; i++)
        if (asks_for(&commands[i])) return commands[i].name;
    return "usage";
}

const char *make_words(void) {
    many = 0;
    if (below(8) == 0) {
        for (size_t left = below(8); left > 0; left--) add(any_word());
    } else {
        plain();
        for (size_t changes = below(2) ? below(4) : 0; changes > 0; changes--) change_words();
    }
    count = 0;
    for (size_t i = 0; i < many; i++) {
        memcpy(bytes + count, list[i], strlen(list[i]) + 1);
        count += strlen(list[i]) + 1;
    }
    return meaning();
}

int become(const char *words, const char *program) {
    read_file(words);
    list[0] = text(program);
    many = 1;
    for (size_t at = 0; at < count; at += strlen((char *)bytes + at) + 1) add((char *)bytes + at);
    execv(program, list);
    perror(program);
    return 127;
}

int show(const char *words) {
    read_file(words);
    for (size_t at = 0; at < count; at++) {
        putchar('\'');
        for (; bytes[at]; at++)
            if (bytes[at] == '\'')
                fputs("'\\''", stdout);
            else
                putchar(bytes[at]);
        fputs(at + 1 < count ? "' " : "'", stdout);
    }
    putchar('\n');
    return 0;
}
