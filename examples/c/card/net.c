/* Sends packets of several sizes, each from a buffer that the driver lends it. */
#include <stdio.h>

#include "card.h"
#include "mondrix.h"

static void send(uint32_t bytes) {
    int32_t answer = card_for_net(CARD_TAKE, bytes);
    if (answer >= MONDRIX_NOT_FOREIGN && answer < 0) {
        printf("net: no buffer of %u bytes, %s\n", (unsigned)bytes, mondrix_code_name(answer));
        return;
    }
    uint8_t *buffer = (uint8_t *)answer;
    for (uint32_t i = 0; i < bytes; i++) buffer[i] = (uint8_t)i;
    printf("net: %u bytes with the checksum %d\n", (unsigned)bytes, (int)card_for_net(CARD_SEND, bytes));
    printf("net: more than that: %s\n", mondrix_code_name(card_for_net(CARD_SEND, bytes + 1)));
    mondrix_must(card_for_net(CARD_DROP, 0));
    printf("net: given back: right %d, and a second time %s\n", mondrix_query(buffer, mondrix_module()),
           mondrix_code_name(card_for_net(CARD_DROP, 0)));
}

int main(void) {
    send(10);
    send(CARD_MOST);
    send(CARD_MOST + 1);
    return 0;
}
