/* Makes so many rounds of work and writes what they come to, in the machine by its call 2 and elsewhere by the C
 * library. */
#include "work.h"
#ifndef ROUNDS
#define ROUNDS 4
#endif

#ifdef __riscv
static void put(const char *text, uint32_t len) {
    register uint32_t a0 __asm__("a0") = (uint32_t)text;
    register uint32_t a1 __asm__("a1") = len;
    register uint32_t a7 __asm__("a7") = 2;
    __asm__ volatile("ecall" : "+r"(a0) : "r"(a1), "r"(a7) : "memory");
}
#else
#include <stdio.h>
static void put(const char *text, uint32_t len) { fwrite(text, 1, len, stdout); }
#endif

int main(void) {
    uint32_t sum = 0;
    for (uint32_t round = 0; round < ROUNDS; round++) sum = 31 * sum + work(round);
    char line[9];
    for (int i = 0; i < 8; i++) {
        uint32_t digit = sum >> (28 - 4 * i) & 15;
        line[i] = (char)(digit < 10 ? '0' + digit : 'a' - 10 + digit);
    }
    line[8] = '\n';
    put(line, 9);
    return 0;
}
