/* Changes files, and makes command lines, by a seed: the same words give the same bytes on every machine.
 *
 *   change SORT SEED NUMBER BASE OUT   writes to OUT what the change of this number makes of the file BASE
 *   change words SEED NUMBER OUT       writes a command line to OUT, a zero byte behind each word, and says on stdout
 *                                      which command its words ask for, or `usage` where they have no meaning
 *   change exec WORDS PROGRAM          becomes PROGRAM with the words of the file WORDS
 *   change show WORDS                  shows them, quoted for a shell
 *   change fault IMAGE                 says the first fault of an image, as the number of a manifest's fault and its
 *                                      detail, or `none`
 *   change snapshot SNAPSHOT           says the first fault of a snapshot, its number and its place, or `none`
 *
 * SORT is manifest, source, image, schedule or snapshot. */
#include <ctype.h>
#include <stdint.h>
#include <stdio.h>
#include <stdlib.h>
#include <string.h>
#include <unistd.h>

#include "change.h"

/* The bytes that are changed. Behind them the file may go on with so many zeros, which take no room on a disk. */
unsigned char bytes[ROOM];
size_t count;
static size_t zeros;

static uint64_t state;

/* Steele, Lea and Flood's splitmix. */
static uint64_t draw(void) {
    uint64_t z = state += 0x9e3779b97f4a7c15u;
    z = (z ^ z >> 30) * 0xbf58476d1ce4e5b9u;
    z = (z ^ z >> 27) * 0x94d049bb133111ebu;
    return z ^ z >> 31;
}

size_t below(size_t limit) { return limit == 0 ? 0 : draw() % limit; }

static void begin(const char *sort, const char *seed, const char *number) {
    state = strtoull(seed, NULL, 10) * 0x100000001b3u + strtoull(number, NULL, 10);
    for (; *sort; sort++) state = (state ^ (unsigned char)*sort) * 0x100000001b3u;
    draw();
}

/* Lengths: most are short. */
static size_t length(size_t most) {
    size_t chosen = below(8) == 0 ? below(most + 1) : 1 + below(16);
    return chosen < most ? chosen : most;
}

static void take_out(size_t at, size_t length) {
    memmove(bytes + at, bytes + at + length, count - at - length);
    count -= length;
}

/* Puts bytes in at a place, as many as there is room for. */
static void put_in(size_t at, const void *from, size_t length) {
    if (length > ROOM - count) length = ROOM - count;
    memmove(bytes + at + length, bytes + at, count - at);
    memmove(bytes + at, from, length);
    count += length;
}

static void put_in_place_of(size_t at, size_t old, const char *text) {
    take_out(at, old);
    put_in(at, text, strlen(text));
}

/* What any file may meet. */
static void flip_a_bit(void) {
    if (count) bytes[below(count)] ^= 1u << below(8);
}

static void cut_out(void) {
    size_t at = below(count);
    take_out(at, length(count - at));
}

static void cut_off(void) { count = below(count + 1); }

static void copy_a_part(void) {
    static unsigned char part[4096];
    size_t from = below(count), size = length(count - from);
    if (size > sizeof part) size = sizeof part;
    memcpy(part, bytes + from, size);
    put_in(below(count + 1), part, size);
}

static void put_noise_in(void) {
    unsigned char noise[16];
    size_t size = 1 + below(sizeof noise);
    for (size_t i = 0; i < size; i++) noise[i] = draw();
    put_in(below(count + 1), noise, size);
}

/* Lines and tokens of a text. */
static size_t line_at(size_t at) {
    while (at > 0 && bytes[at - 1] != '\n') at--;
    return at;
}

static size_t line_end(size_t at) {
    while (at < count && bytes[at] != '\n') at++;
    return at < count ? at + 1 : at;
}

static void drop_a_line(void) {
    size_t at = line_at(below(count));
    take_out(at, line_end(at) - at);
}

static void copy_a_line(void) {
    static unsigned char line[4096];
    size_t from = line_at(below(count)), size = line_end(from) - from;
    if (size > sizeof line) size = sizeof line;
    memcpy(line, bytes + from, size);
    put_in(line_at(below(count + 1)), line, size);
}

static void move_a_line(void) {
    static unsigned char line[4096];
    size_t from = line_at(below(count)), size = line_end(from) - from;
    if (size > sizeof line) size = sizeof line;
    memcpy(line, bytes + from, size);
    take_out(from, size);
    put_in(line_at(below(count + 1)), line, size);
}

static int is_word(unsigned char byte) { return isalnum(byte) || byte == '_' || byte == '.' || byte == '-'; }

/* The token round a place: a text in quotes, a word or a number, or one byte. */
static size_t token(size_t at, size_t *size) {
    size_t from = at, to = at;
    if (at >= count) return *size = 0, count;
    while (from > 0 && is_word(bytes[from - 1])) from--;
    while (to < count && is_word(bytes[to])) to++;
    if (to == from) to = from + 1;
    if (from > 0 && to < count && bytes[from - 1] == '"' && bytes[to] == '"') from--, to++;
    *size = to - from;
    return from;
}

static const char *one_of(const char *const *list) {
    size_t size = 0;
    while (list[size]) size++;
    return list[below(size)];
}

/* A token in place of another one, nearly always of the same kind. */
static void change_a_token(const struct language *language) {
    size_t size, at = token(below(count), &size);
    if (size == 0) return;
    int is_same = below(12) > 0;
    if (isdigit(bytes[at]) || bytes[at] == '-')
        put_in_place_of(at, size, one_of(is_same ? numbers : language->words));
    else if (bytes[at] == '"')
        put_in_place_of(at, size, one_of(is_same ? language->texts : numbers));
    else if (is_word(bytes[at]))
        put_in_place_of(at, size, one_of(is_same ? language->words : language->texts));
}

/* Whether the line at a place begins with the first word of another one. */
static int begins_alike(size_t at, const char *line) {
    size_t i = 0;
    while (line[i] && line[i] != ' ' && line[i] != '\n') {
        if (at + i >= count || bytes[at + i] != (unsigned char)line[i]) return 0;
        i++;
    }
    return at + i < count && !is_word(bytes[at + i]);
}

/* A line in place of one that begins with the same word, or, where there is none or now and then, between two
 * others. */
static void put_a_line_in(const struct language *language) {
    const char *line = one_of(language->lines);
    size_t at = line_at(below(count + 1)), seen = 0;
    for (size_t i = 0; i < count && below(8); i = line_end(i))
        if (begins_alike(i, line) && below(++seen) == 0) at = i;
    if (seen) take_out(at, line_end(at) - at);
    put_in(at, line, strlen(line));
}

static void put_a_sign_in(void) {
    const char *sign = one_of(signs);
    put_in(below(count + 1), sign, strlen(sign));
}

/* The worst of a language again and again, once in a while up to the file's limit or beyond it. */
static void grow(const struct language *language) {
    const char *part = one_of(language->parts);
    size_t at = line_at(below(count + 1)), limit = 1048574 + below(5);
    size_t most = below(3) == 0 && count < limit ? limit - count : 1 + below(40000);
    unsigned char *grown = malloc(most);
    for (size_t i = 0; grown && i < most; i++) grown[i] = part[i % strlen(part)];
    if (grown) put_in(at, grown, most);
    free(grown);
}

static void change_text(const struct language *language) {
    switch (below(40)) {
    case 0: flip_a_bit(); break;
    case 1: below(4) ? cut_out() : cut_off(); break;
    case 2: copy_a_part(); break;
    case 3: below(4) ? put_a_sign_in() : put_noise_in(); break;
    case 4: grow(language); break;
    case 5: case 6: case 7: drop_a_line(); break;
    case 8: case 9: move_a_line(); break;
    case 10: case 11: copy_a_line(); break;
    case 12: case 13: case 14: case 15: case 16: case 17: case 18: case 19: put_a_line_in(language); break;
    default: change_a_token(language);
    }
}

/* Fields of a file of numbers, more often than not those of its first and its last bytes. */
static size_t field(size_t width) {
    size_t places = count / width, at = below(places);
    if (below(3) == 0 && places > 32) at = below(32);
    if (below(6) == 0 && places > 64) at = places - 1 - below(64);
    return at * width;
}

static void set(size_t at, size_t width, uint64_t value) {
    for (size_t i = 0; i < width && at + i < count; i++) bytes[at + i] = value >> 8 * i;
}

static uint64_t get(size_t at, size_t width) {
    uint64_t value = 0;
    for (size_t i = 0; i < width && at + i < count; i++) value |= (uint64_t)bytes[at + i] << 8 * i;
    return value;
}

/* A corner, or a number near the one that was there. */
static void change_a_number(void) {
    size_t width = 1u << below(4), at = field(width);
    uint64_t value = below(2) ? corners[below(sizeof corners / sizeof *corners)] : get(at, width);
    set(at, width, value + below(9) - 4);
}

/* A word that is an instruction, or nearly one. */
static void change_an_instruction(void) {
    static const unsigned char opcodes[] = {0x37, 0x17, 0x6f, 0x67, 0x63, 0x03, 0x23, 0x13, 0x33, 0x0f, 0x73};
    uint64_t word = draw();
    if (below(8) == 0) word &= 0x00100000;
    set(field(4), 4, (word & ~0x7full) | opcodes[below(sizeof opcodes)]);
}

/* Zeros up to a file's limit, or to one byte more. */
static void lengthen(size_t limit) {
    if (count <= limit) zeros = limit - count + below(2);
}

static void change_numbers(size_t limit) {
    switch (below(16)) {
    case 0: flip_a_bit(); break;
    case 1: below(3) ? cut_out() : cut_off(); break;
    case 2: copy_a_part(); break;
    case 3: below(6) ? put_noise_in() : lengthen(limit); break;
    case 4:
    case 5:
    case 6: change_an_instruction(); break;
    default: change_a_number();
    }
}

/* A field of a snapshot before RAM's bytes: a small number, a corner, another field's, or one near its own. */
static void change_a_field(void) {
    unsigned char field[64];
    size_t width, other, at = snapshot_field(&width), from = snapshot_field(&other);
    if (other > sizeof field) other = sizeof field;
    memcpy(field, bytes + from, other);
    if (width > 8) at += below(width), width = 1;
    switch (below(8)) {
    case 0: take_out(at, width); break;
    case 1: put_in(at, field, other); break;
    case 2: set(at, width, get(from, other < 8 ? other : 8)); break;
    case 3: set(at, width, corners[below(sizeof corners / sizeof *corners)]); break;
    case 4: set(at, width, below(9)); break;
    default: set(at, width, get(at, width) + below(9) - 4);
    }
}

/* The turns of a schedule: of harts that are there, and of harts that aren't. */
static void make_schedule(void) {
    size_t turns = below(16) ? below(3000) : 0, harts = below(3) ? 1 + below(5) : 256;
    for (count = 0; count < turns; count++) bytes[count] = below(harts);
    if (below(40) == 0) lengthen(SCHEDULE_LIMIT);
}

static void change(const char *sort) {
    if (strcmp(sort, "schedule") == 0) {
        make_schedule();
        return;
    }
    for (size_t changes = 1 + (below(2) ? 0 : below(6)); changes > 0; changes--) {
        if (strcmp(sort, "manifest") == 0)
            change_text(&manifests);
        else if (strcmp(sort, "source") == 0)
            change_text(&sources);
        else if (strcmp(sort, "image") == 0)
            change_numbers(IMAGE_LIMIT);
        else if (below(4))
            change_a_field();
        else
            change_numbers(SNAPSHOT_LIMIT);
    }
}

static FILE *opened(const char *name, const char *mode) {
    FILE *file = fopen(name, mode);
    if (!file) perror(name), exit(1);
    return file;
}

void read_file(const char *name) {
    FILE *file = opened(name, "rb");
    count = fread(bytes, 1, sizeof bytes, file);
    fclose(file);
}

void write_file(const char *name) {
    FILE *file = opened(name, "wb");
    if (fwrite(bytes, 1, count, file) != count || fflush(file) != 0 ||
        (zeros && ftruncate(fileno(file), (off_t)(count + zeros)) != 0))
        perror(name), exit(1);
    fclose(file);
}

int main(int many, char **words) {
    if (many == 6) {
        begin(words[1], words[2], words[3]);
        read_file(words[4]);
        change(words[1]);
        write_file(words[5]);
        return 0;
    }
    if (many == 5 && strcmp(words[1], "words") == 0) {
        begin(words[1], words[2], words[3]);
        puts(make_words());
        write_file(words[4]);
        return 0;
    }
    if (many == 4 && strcmp(words[1], "exec") == 0) return become(words[2], words[3]);
    if (many == 3 && strcmp(words[1], "show") == 0) return show(words[2]);
    if (many == 3 && strcmp(words[1], "fault") == 0) return image_fault(words[2]);
    if (many == 3 && strcmp(words[1], "snapshot") == 0) return snapshot_fault(words[2]);
    fputs("SORT SEED NUMBER BASE OUT | words SEED NUMBER OUT | exec WORDS PROGRAM | show WORDS | fault IMAGE |"
          " snapshot SNAPSHOT\n",
          stderr);
    return 1;
}
