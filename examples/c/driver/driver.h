#ifndef DRIVER_H
#define DRIVER_H
#include <stdint.h>

/* Sends a packet of at most 64 bytes with a header before it: the checksum, or the code of what refuses it. */
int32_t driver_send(const uint8_t *packet, uint32_t length);
int32_t driver_send_entered(const uint8_t *packet, uint32_t length);

#endif
