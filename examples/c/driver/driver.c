/* A driver with a bug: it looks whether the packet fits its buffer, and forgets the header. Behind the buffer stands a
 * guard, a word that the driver takes from itself. */
#include "driver.h"

#include "modules.h"
#include "mondrix.h"

enum { FRAME = 64, HEADER = 4 };
static struct {
    volatile uint8_t frame[FRAME];
    uint32_t guard;
    uint32_t sent;
} device __attribute__((aligned(4)));

MONDRIX_GATE(driver_send);

static void fill(const uint8_t *packet, uint32_t length) {
    device.frame[0] = (uint8_t)length;
    for (uint32_t i = 0; i < length; i++)
        device.frame[HEADER + i] = packet[i];
}

int32_t driver_send_entered(const uint8_t *packet, uint32_t length) {
    uint8_t copy[FRAME];
    if (device.sent == 0)
        mondrix_must(mondrix_grant(&device.guard, sizeof device.guard, DRIVER, MONDRIX_NONE));
    if (length > FRAME) return MONDRIX_TOO_LONG;
    int answer = mondrix_copy_in(copy, packet, length);
    if (answer != MONDRIX_OK) return answer;
    fill(copy, length);
    device.sent++;
    int32_t sum = 0;
    for (uint32_t i = 0; i < length; i++) sum += device.frame[HEADER + i];
    return sum;
}
