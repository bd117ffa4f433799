/* A signal that nobody takes ends the hart as abort does. */
#include <signal.h>
#include <stdio.h>

static void take(int number) { printf("signal %d\n", number); }

int main(void) {
    signal(SIGUSR1, take);
    raise(SIGUSR1);
    printf("and then");
    raise(SIGTERM);
    return 0;
}
