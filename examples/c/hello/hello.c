/* The least module: it prints, and answers 0. */
#include <stdio.h>
#include <stdlib.h>
#include <string.h>

#include "mondrix.h"

int main(void) {
    unsigned hart = mondrix_hart();
    char *word = malloc(6);
    strcpy(word, "hello");
    printf("%s from module %u on hart %u\n", word, mondrix_module(), hart);
    printf("%d %x %s %.3f\n", -42, 0xbeef, "text", 22 / 7.0);
    free(word);
    return 0;
}
