/* Frames of a replica's history through an MQTT broker. */
#ifndef GOSSIP_H
#define GOSSIP_H

#include <mosquitto.h>
#include <stdbool.h>
#include <stdio.h>

#include "messages.h"
#include "pool_file.h"

/* What was last published of a bucket: a hash of each piece. */
typedef struct published {
    uint64_t *hashes;
    size_t count, room;
} published;

/* In milliseconds: gossip_publish waits no longer, whatever the broker and the network do, and gossip_open not at all. */
enum { GOSSIP_WAIT = 50 };

/* More than the greatest status of warm.h. */
enum { GOSSIP_STATUSES = 128 };

typedef struct gossip {
    struct mosquitto *client;
    pool_file *file;
    const char *host;
    int port;
    unsigned peer;
    bool is_connected, peer_is_gone;
    uint64_t retry_at; /* when to connect again, in milliseconds */
    published buckets[WARM_BUCKETS];
    uint64_t sent, unsent;                   /* frames that the client took, and that it refused */
    uint64_t skipped;                        /* calls of gossip_publish without a broker, or while it took nothing */
    uint64_t statuses[GOSSIP_STATUSES];      /* of frames that came */
    uint64_t own;                            /* of these: from this replica itself */
} gossip;

/* A replica that publishes its own history, and hears that of a peer. The broker need not be there yet. The host is a numeric address.
 * Answers NULL, or what is wrong. */
const char *gossip_open(gossip *g, pool_file *file, const char *host, int port, unsigned peer);

/* Takes what has come, and connects again where the connection is lost. Waits for so long at most. */
void gossip_poll(gossip *g, int milliseconds);

/* Publishes each piece of the history that has changed since it was last published. Where the broker has not yet taken what was published
 * before, nothing is: so what waits here is never more than one history. */
void gossip_publish(gossip *g);

/* Two lines: how many messages came, by the name of their status, and how many were sent. */
void gossip_print(const gossip *g, FILE *to);

void gossip_close(gossip *g);

#endif
