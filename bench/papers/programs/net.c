/* Fills a ring with packets, a part of it for each hart, and has them received. With grain 1 a packet is granted to the
 * other modules when it came, to each as much as it needs, and taken back; with grain 2 they may read the ring all the
 * time. `ring`, in this module's heap area, and `grain` are symbols of the linker. */
#include <stdlib.h>
#include "packets.h"

enum { PACKETS = 24 * SCALE, SLOTS = 4, SLOT = 2048, COARSE = 2 };

extern char ring[], grain[];

static uint32_t drawn(uint32_t *state, uint32_t below) {
    *state = *state * 1103515245u + 12345u;
    return (*state >> 8) % below;
}

static void fill(struct packet *packet, uint32_t *state) {
    packet->port = drawn(state, 8);
    packet->count = 10 + drawn(state, PACKET_MOST - 10);
    packet->sum = 0;
    for (uint32_t i = 0; i < packet->count; i++) packet->sum += packet->words[i] = *state + i;
}

/* What is granted or taken back here always can be. */
static void done(int answer) {
    if (answer != MONDRIX_OK) abort();
}

static int32_t sent(const struct packet *packet) {
    uint32_t bytes = HEAD + 4 * packet->count;
    if ((uintptr_t)grain == COARSE) return receive(packet, bytes);
    done(mondrix_grant(packet, bytes, PROTO, MONDRIX_READ));
    done(mondrix_grant(packet->words, 4 * packet->count, APP, MONDRIX_READ));
    int32_t answer = receive(packet, bytes);
    done(mondrix_revoke_all(packet, bytes));
    return answer;
}

int main(void) {
    uint32_t hart = mondrix_hart(), state = hart + 1;
    char *own = ring + hart * SLOTS * SLOT;
    done(mondrix_grant(own, SLOTS * SLOT, NET, MONDRIX_READ_WRITE));
    if ((uintptr_t)grain == COARSE) {
        done(mondrix_grant(own, SLOTS * SLOT, PROTO, MONDRIX_READ));
        done(mondrix_grant(own, SLOTS * SLOT, APP, MONDRIX_READ));
    }
    for (int i = 0; i < PACKETS; i++) {
        struct packet *packet = (struct packet *)(own + i % SLOTS * SLOT);
        fill(packet, &state);
        if (sent(packet) != (int32_t)packet->count) return 1;
    }
    return 0;
}
