/* A module of three files, two of them in assembly. */
#include <stdio.h>

int product(int a, int b);
int sum(int a, int b);

int main(void) {
    printf("%d\n", sum(product(6, 6), 6));
    return 0;
}
