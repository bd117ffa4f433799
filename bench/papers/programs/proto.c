/* Receives packets: looks whether their sum is right, and delivers what they carry. */
#include "packets.h"

MONDRIX_GATE(receive);

int32_t receive_entered(const struct packet *packet, uint32_t bytes) {
    uint32_t count = packet->count, sum = 0;
    if (count > PACKET_MOST || bytes != HEAD + 4 * count) return -1;
    for (uint32_t i = 0; i < count; i++) sum += packet->words[i];
    return sum == packet->sum ? deliver(packet->port, packet->words, count) : -1;
}
