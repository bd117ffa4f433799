/* Packets that nobody copies: `net` has the ring that they come into, `proto` looks at the whole packet, `app` at what
 * it carries. */
#ifndef PACKETS_H
#define PACKETS_H

#include <mondrix.h>

#ifndef SCALE
#define SCALE 1
#endif

enum { NET = 1, PROTO = 2, APP = 3 }; /* the modules in the manifest's order */
enum { PACKET_MOST = 300 };

struct packet {
    uint32_t port, count, sum; /* the sum of the carried words */
    uint32_t words[PACKET_MOST];
};
enum { HEAD = offsetof(struct packet, words) };

int32_t receive(const struct packet *packet, uint32_t bytes);
int32_t receive_entered(const struct packet *packet, uint32_t bytes);
int32_t deliver(uint32_t port, const uint32_t *words, uint32_t count);
int32_t deliver_entered(uint32_t port, const uint32_t *words, uint32_t count);

#endif
