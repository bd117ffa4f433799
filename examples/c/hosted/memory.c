/* memcpy, memmove and memset beside loops of bytes, at each place and length; they go by words, and touch no word that
 * holds none of the bytes. */
#include <stdint.h>
#include <stdio.h>
#include <string.h>

#include "mondrix.h"

enum { SIDE = 56 };
static unsigned char a[SIDE] __attribute__((aligned(4))), b[SIDE] __attribute__((aligned(4)));
static struct { uint32_t low; unsigned char bytes[24]; uint32_t high; } walled __attribute__((aligned(4)));
static void *(*volatile copy)(void *, const void *, size_t) = memcpy;
static void *(*volatile move)(void *, const void *, size_t) = memmove;
static void *(*volatile set)(void *, int, size_t) = memset;

static void fill(void) {
    for (int i = 0; i < SIDE; i++) a[i] = (unsigned char)(7 * i + 1), b[i] = (unsigned char)(250 - i);
}

static int wrong(int to, int from, int length) {
    int bad = 0;
    fill();
    bad |= copy(b + to, a + from, length) != b + to;
    for (int i = 0; i < SIDE; i++) {
        int copied = i >= to && i < to + length;
        bad |= b[i] != (unsigned char)(copied ? 7 * (from + i - to) + 1 : 250 - i);
    }
    bad |= move(a + to, a + from, length) != a + to;
    for (int i = 0; i < SIDE; i++)
        bad |= a[i] != (unsigned char)(7 * (i >= to && i < to + length ? from + i - to : i) + 1);
    bad |= set(b + to, length + 200, length) != b + to;
    for (int i = to; i < to + length; i++) bad |= b[i] != (unsigned char)(length + 200);
    bad |= b[to + length] != (unsigned char)(250 - to - length);
    return bad;
}

int main(void) {
    int bad = 0;
    for (int to = 0; to < 4; to++)
        for (int from = 0; from < 4; from++)
            for (int length = 0; length < 47; length += 1 + length % 7) bad += wrong(to, from, length);
    /* The words on both sides can't be touched from here on. */
    if (mondrix_grant(&walled.low, 4, mondrix_module(), MONDRIX_NONE) != MONDRIX_OK ||
        mondrix_grant(&walled.high, 4, mondrix_module(), MONDRIX_NONE) != MONDRIX_OK)
        return 1;
    for (int off = 0; off < 4; off++)
        for (int end = 0; end < 4; end++) {
            copy(b + off, walled.bytes + end, sizeof walled.bytes - end);
            copy(walled.bytes + off, a + end, sizeof walled.bytes - off);
            move(walled.bytes + off, walled.bytes, sizeof walled.bytes - off);
            set(walled.bytes + off, 1, sizeof walled.bytes - off);
        }
    printf("%d wrong\n", bad);
    return bad != 0;
}
