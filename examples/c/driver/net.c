/* Sends three packets by the driver, and goes on where the driver faults. */
#include <stdio.h>

#include "driver.h"
#include "modules.h"
#include "mondrix.h"

static uint8_t packet[64] __attribute__((aligned(4)));

static void send(uint32_t length) {
    int32_t answer = driver_send(packet, length);
    if (answer < 0)
        printf("%u bytes: the driver answered %s\n", (unsigned)length, mondrix_code_name(answer));
    else
        printf("%u bytes: sent with the checksum %d\n", (unsigned)length, (int)answer);
}

int main(void) {
    for (unsigned i = 0; i < sizeof packet; i++) packet[i] = (uint8_t)(i + 1);
    mondrix_must(mondrix_grant(packet, sizeof packet, DRIVER, MONDRIX_READ));
    send(40);
    send(62);
    send(40);
    return 0;
}
