/* zlib's own test/example.c, as it is: all of its tests but those of files. */
#define main example_main
#include "test/example.c"
#undef main

enum { ROOM = 40000 };

int main(void) {
    uLong count = ROOM, at = ROOM;
    Byte *packed = calloc(ROOM, 1), *plain = calloc(ROOM, 1);
    if (!packed || !plain) return 1;
    test_compress(packed, count, plain, count);
    test_deflate(packed, count);
    test_inflate(packed, count, plain, count);
    test_large_deflate(packed, count, plain, count);
    test_large_inflate(packed, count, plain, count);
    test_flush(packed, &at);
    test_sync(packed, at, plain, count);
    test_dict_deflate(packed, count);
    test_dict_inflate(packed, count, plain, count);
    free(packed);
    free(plain);
    return 0;
}
