/* The self-tests: those of hashes and ciphers, and with more than one round all. Random numbers come from a row. */
#include <stddef.h>
#include "rounds.h"
int selftest_main(int count, char **words);
int mbedtls_hardware_poll(void *none, unsigned char *to, size_t bytes, size_t *made) {
    static unsigned seed = 1;
    for (size_t i = 0; i < bytes; i++) to[i] = (unsigned char)((seed = seed * 69069u + 1) >> 24);
    *made = bytes;
    return 0;
}

int main(void) {
    static char *some[] = {"selftest", "md5", "ripemd160", "sha1", "des", "aes", "ccm", "poly1305", "base64", 0};
    static char *all[] = {"selftest", 0};
    return ROUNDS > 1 ? selftest_main(1, all) : selftest_main(9, some);
}
