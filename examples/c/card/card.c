/* The driver: a block of its heap for each client that wants one, granted to that client alone. The lock is held while
 * the driver's own words change, and no word is touched then that another module could take away. */
#include "card.h"

#include <string.h>

#include "modules.h"
#include "mondrix.h"

struct client {
    unsigned module;
    void *buffer; /* 0 where it has none */
    uint32_t bytes;
};
static struct client for_net = {NET, 0, 0}, for_log = {LOG, 0, 0};
static struct mondrix_lock lock = MONDRIX_LOCK;
static uint8_t frame[CARD_MOST];

static int32_t take(struct client *client, uint32_t bytes) {
    uint32_t words = (bytes + 3) / 4;
    if (client->buffer != 0 || bytes == 0 || bytes > CARD_MOST) return MONDRIX_BAD_RANGE;
    int answer = mondrix_alloc(words, &client->buffer);
    if (answer != MONDRIX_OK) return answer;
    answer = mondrix_grant(client->buffer, 4 * words, client->module, MONDRIX_READ_WRITE);
    if (answer != MONDRIX_OK) {
        mondrix_must(mondrix_free(client->buffer));
        client->buffer = 0;
        return answer;
    }
    client->bytes = bytes;
    return (int32_t)client->buffer;
}

static int32_t send(struct client *client, uint32_t bytes) {
    if (client->buffer == 0 || bytes > client->bytes) return MONDRIX_BAD_RANGE;
    memcpy(frame, client->buffer, bytes); /* once: the client may change its buffer at any time */
    int32_t sum = 0;
    for (uint32_t i = 0; i < bytes; i++) sum += frame[i];
    return sum;
}

static int32_t drop(struct client *client) {
    if (client->buffer == 0) return MONDRIX_BAD_RANGE;
    mondrix_must(mondrix_free(client->buffer)); /* this takes all rights on it too */
    client->buffer = 0;
    return MONDRIX_OK;
}

static int32_t serve(struct client *client, uint32_t wish, uint32_t bytes) {
    int32_t answer = MONDRIX_BAD_RANGE;
    mondrix_lock(&lock);
    if (wish == CARD_TAKE) answer = take(client, bytes);
    if (wish == CARD_SEND) answer = send(client, bytes);
    if (wish == CARD_DROP) answer = drop(client);
    mondrix_unlock(&lock);
    return answer;
}

MONDRIX_GATE(card_for_net);
MONDRIX_GATE(card_for_log);
int32_t card_for_net_entered(uint32_t wish, uint32_t bytes) { return serve(&for_net, wish, bytes); }
int32_t card_for_log_entered(uint32_t wish, uint32_t bytes) { return serve(&for_log, wish, bytes); }
