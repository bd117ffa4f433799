/* A buffer on the stack overflows by zeros, and the compiler's guard finds it. */
#include <stdio.h>

__attribute__((noinline)) static void clear(volatile char *bytes, int count) {
    for (int i = 0; i < count; i++) bytes[i] = 0;
}

__attribute__((noinline)) static int cleared(int count) {
    char bytes[8];
    clear(bytes, count);
    return bytes[0];
}

int main(void) {
    printf("8 bytes: %d\n", cleared(8));
    printf("16 bytes: %d\n", cleared(16));
    return 0;
}
