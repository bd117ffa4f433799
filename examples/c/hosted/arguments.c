/* main has its arguments as in any C program: its name, and an empty environment. Each hart has its own. */
#include <stdio.h>

#include "mondrix.h"

int main(int count, char **words, char **environment) {
    words[0][0] = (char)('A' + mondrix_hart());
    printf("hart %u: %d word, %s\n", mondrix_hart(), count, words[0]);
    return words[count] != 0 || environment[0] != 0;
}
