/* What goes to stderr is on the console before a fault; what stdout has of a line isn't. */
#include <stdio.h>

#include "mondrix.h"

int main(void) {
    if (stdin == stdout || stdout == stderr || stdin == stderr) return 1;
    printf("a whole line\n");
    printf("a line that");
    fprintf(stderr, "the %s is %d", "answer", 42);
    if (fputc('x', stdin) != EOF || getchar() != EOF || !feof(stdin)) return 2;
    mondrix_break();
}
