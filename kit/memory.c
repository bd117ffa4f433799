/* memcpy, memmove and memset by words, where the places allow it: picolibc's go byte by byte. Of memory they touch the
 * words alone that hold one of the bytes. Compiled without the loops that a compiler takes for memcpy. */
#include <stddef.h>
#include <stdint.h>
#include <string.h>

#define OURS __attribute__((weak))
typedef uint32_t __attribute__((may_alias)) word;
enum { WORD = sizeof(word), MASK = WORD - 1 };

/* Whole words from a place that lies `off` bytes behind a word: each comes from two that stand there. */
static void shifted(word *to, const unsigned char *from, size_t words, unsigned off) {
    const word *at = (const word *)(from - off);
    unsigned low = 8 * off, high = 32 - low;
    word held = *at++;
    for (; words != 0; words--) {
        word next = *at++;
        *to++ = held >> low | next << high;
        held = next;
    }
}

/* Upwards, which is right also where `to` lies below `from`. */
static void up(unsigned char *to, const unsigned char *from, size_t bytes) {
    if (bytes >= 4 * WORD) {
        for (; (uintptr_t)to & MASK; bytes--) *to++ = *from++;
        size_t words = bytes / WORD;
        unsigned off = (uintptr_t)from & MASK;
        if (off != 0) {
            shifted((word *)to, from, words, off);
        } else {
            word *out = (word *)to;
            const word *in = (const word *)from;
            size_t left = words;
            for (; left >= 4; left -= 4, out += 4, in += 4) {
                word a = in[0], b = in[1], c = in[2], d = in[3];
                out[0] = a, out[1] = b, out[2] = c, out[3] = d;
            }
            for (; left != 0; left--) *out++ = *in++;
        }
        to += words * WORD, from += words * WORD, bytes %= WORD;
    }
    for (; bytes != 0; bytes--) *to++ = *from++;
}

/* Downwards, for `to` within the bytes after `from`. */
static void down(unsigned char *to, const unsigned char *from, size_t bytes) {
    to += bytes, from += bytes;
    if ((((uintptr_t)to ^ (uintptr_t)from) & MASK) == 0) {
        for (; bytes != 0 && ((uintptr_t)to & MASK); bytes--) *--to = *--from;
        for (; bytes >= WORD; bytes -= WORD) {
            to -= WORD, from -= WORD;
            *(word *)to = *(const word *)from;
        }
    }
    for (; bytes != 0; bytes--) *--to = *--from;
}

OURS void *memcpy(void *restrict to, const void *restrict from, size_t bytes) {
    up(to, from, bytes);
    return to;
}

OURS void *memmove(void *to, const void *from, size_t bytes) {
    if ((uintptr_t)to - (uintptr_t)from >= bytes)
        up(to, from, bytes);
    else
        down(to, from, bytes);
    return to;
}

OURS void *memset(void *at, int byte, size_t bytes) {
    unsigned char *to = at;
    if (bytes >= 4 * WORD) {
        for (; (uintptr_t)to & MASK; bytes--) *to++ = (unsigned char)byte;
        word all = (unsigned char)byte * 0x01010101u;
        for (; bytes >= 4 * WORD; bytes -= 4 * WORD, to += 4 * WORD) {
            word *out = (word *)to;
            out[0] = all, out[1] = all, out[2] = all, out[3] = all;
        }
        for (; bytes >= WORD; bytes -= WORD, to += WORD) *(word *)to = all;
    }
    for (; bytes != 0; bytes--) *to++ = (unsigned char)byte;
    return at;
}
