/* Sends a line again and again, at the same time as the other client. */
#include <stdio.h>
#include <string.h>

#include "card.h"
#include "mondrix.h"

static const char line[] = "the card is up";

int main(void) {
    int32_t sum = 0;
    for (int i = 0; i < 5; i++) {
        char *buffer = (char *)card_for_log(CARD_TAKE, sizeof line);
        strcpy(buffer, line);
        sum += card_for_log(CARD_SEND, sizeof line);
        mondrix_must(card_for_log(CARD_DROP, 0));
    }
    printf("log: five lines with the checksum %d\n", (int)sum);
    return 0;
}
