/* A network card's driver. Its clients fill buffers that are blocks of the driver's heap, so no address ever comes in:
 * each client has one buffer at a time, and a gate of its own, which tells the driver who calls. */
#ifndef CARD_H
#define CARD_H
#include <stdint.h>

enum { CARD_MOST = 256 }; /* bytes of a packet */

enum card_wish {
    CARD_TAKE, /* a buffer of so many bytes: its address, as uint32_t */
    CARD_SEND, /* so many bytes of it: their checksum */
    CARD_DROP  /* gives it back */
};

/* A wish, and its number of bytes. Refused by a code, MONDRIX_BAD_RANGE or one of mondrix_alloc. */
int32_t card_for_net(uint32_t wish, uint32_t bytes);
int32_t card_for_net_entered(uint32_t wish, uint32_t bytes);
int32_t card_for_log(uint32_t wish, uint32_t bytes);
int32_t card_for_log_entered(uint32_t wish, uint32_t bytes);

#endif
