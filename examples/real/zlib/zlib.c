/* Runs the tests of zlib's test/example.c, all but its line with the sizes of types, and then so many rounds of its
 * own: a text is deflated at each level and inflated again. */
#include <stdio.h>
#include <string.h>
#include <zlib.h>
#include "rounds.h"

void test_compress(Byte *, uLong, Byte *, uLong), test_gzio(const char *, Byte *, uLong), test_deflate(Byte *, uLong);
void test_inflate(Byte *, uLong, Byte *, uLong), test_large_deflate(Byte *, uLong, Byte *, uLong);
void test_large_inflate(Byte *, uLong, Byte *, uLong), test_flush(Byte *, uLong *), test_dict_deflate(Byte *, uLong);
void test_sync(Byte *, uLong, Byte *, uLong), test_dict_inflate(Byte *, uLong, Byte *, uLong);
static Byte a[40000], b[40000], text[30000];

int main(void) {
    uLong n = sizeof a, back;
    test_compress(a, n, b, n), test_gzio("foo.gz", b, n), test_deflate(a, n), test_inflate(a, n, b, n);
    test_large_deflate(a, n, b, n), test_large_inflate(a, n, b, n), test_flush(a, &n), test_sync(a, n, b, sizeof b);
    test_dict_deflate(a, sizeof a), test_dict_inflate(a, sizeof a, b, sizeof b);
    for (unsigned round = 0, seed = 1; round < ROUNDS; round++) {
        for (unsigned i = 0; i < sizeof text; i++) text[i] = "etaoin shrdlu"[(seed = seed * 69069u + 1) >> 28 & 7];
        int level = 1 + round % 9, bad = compress2(a, (n = sizeof a, &n), text, sizeof text, level);
        bad |= uncompress(b, (back = sizeof b, &back), a, n) | memcmp(b, text, back);
        printf("level %d: %lu bytes of %lu, crc32 %08lx, %s\n", level, n, back, crc32(0, a, n), bad ? "bad" : "good");
    }
}
