/*
 * Gossip by retained messages. A replica publishes its history bucket by bucket, in pieces of up to 1000 entries. A piece is the retained
 * message of a topic of its own, as warm/1/17/0: replica, bucket, piece. So the broker keeps the newest state, and a subscriber that comes
 * late, or again, gets it at once. Messages that are lost, repeated or out of order do no harm, so QoS 0 is enough.
 *
 * warm/1/state is "here", and by the client's last will "gone". That says that a connection ended, not that the primary is dead: a
 * standby does not take over by it.
 *
 * The client runs in mosquitto_loop, in the caller's thread: a handle is used from one thread alone. A database's transactions come to
 * pass between its calls, so none of them waits for a broker, or for a network that answers nothing: the connect is begun and not awaited
 * (in libmosquitto 2.0 mosquitto_connect_async), no name is looked up, and what the system does not take at once stays with the client.
 */
#define _GNU_SOURCE
#include "gossip.h"

#include <netdb.h>
#include <stdlib.h>
#include <string.h>
#include <sys/socket.h>
#include <unistd.h>

#include "clock.h"
#include "fnv.h"

/* A broker that says nothing for twice the seconds of KEEPALIVE is given up, as is a connect without an answer after one time that. */
enum { TOPIC_ROOM = 64, KEEPALIVE = 10, RETRY_MILLISECONDS = 200 };

static void state_topic(char topic[TOPIC_ROOM], unsigned replica) { snprintf(topic, TOPIC_ROOM, "warm/%u/state", replica); }

static void forget_published(gossip *g) {
    for (int at = 0; at < WARM_BUCKETS; at++) g->buckets[at].count = 0;
}

/* A broker may have come back without the messages that it retained: all is published again. */
static void on_connect(struct mosquitto *client, void *data, int code) {
    gossip *g = data;
    char topic[TOPIC_ROOM];
    if (code != 0) return;
    g->is_connected = true;
    forget_published(g);
    state_topic(topic, g->file->replica);
    int published = mosquitto_publish(client, NULL, topic, 4, "here", 0, true);
    snprintf(topic, sizeof topic, "warm/%u/#", g->peer);
    int subscribed = mosquitto_subscribe(client, NULL, topic, 0);
    /* Without memory for both another connection is tried. */
    if (published != MOSQ_ERR_SUCCESS || subscribed != MOSQ_ERR_SUCCESS) mosquitto_disconnect(client);
}

static void on_disconnect(struct mosquitto *client, void *data, int code) {
    (void)client;
    (void)code;
    ((gossip *)data)->is_connected = false;
}

/* A message that is damaged, or of another format, is refused whole, and its status counted. One of the replica itself brings nothing that it
 * does not know, or, after a restart, what it has forgotten. */
static void on_message(struct mosquitto *client, void *data, const struct mosquitto_message *message) {
    gossip *g = data;
    char topic[TOPIC_ROOM];
    (void)client;
    state_topic(topic, g->peer);
    size_t length = (size_t)message->payloadlen;
    if (strcmp(message->topic, topic) == 0) {
        g->peer_is_gone = length == 4 && memcmp(message->payload, "gone", 4) == 0;
        return;
    }
    static const uint8_t no_bytes[1];
    const uint8_t *bytes = length > 0 ? message->payload : no_bytes; /* a pointer is not null, also where there is no byte */
    int status = pool_file_receive(g->file, bytes, length);
    if (status >= 0 && status < GOSSIP_STATUSES) g->statuses[status]++;
    if (status == WARM_OK && message_sender(bytes, length) == g->file->replica) g->own++;
}

/* Begins to connect, now and then. mosquitto_loop says whether it came to pass; where it cannot even begin, it is tried again. */
static void connect_to_broker(gossip *g) {
    uint64_t now = milliseconds_now();
    if (now < g->retry_at) return;
    g->retry_at = now + RETRY_MILLISECONDS;
    mosquitto_connect_async(g->client, g->host, g->port, KEEPALIVE);
}

/* A name is looked up at each connect, and for as long as its servers like. */
static bool is_address(const char *host) {
    struct addrinfo hints = {.ai_flags = AI_NUMERICHOST, .ai_socktype = SOCK_STREAM}, *found;
    if (getaddrinfo(host, NULL, &hints, &found) != 0) return false;
    freeaddrinfo(found);
    return true;
}

const char *gossip_open(gossip *g, pool_file *file, const char *host, int port, unsigned peer) {
    char topic[TOPIC_ROOM];
    *g = (gossip){.file = file, .host = host, .port = port, .peer = peer};
    if (!is_address(host)) return "the broker's host is no numeric address";
    mosquitto_lib_init();
    g->client = mosquitto_new(NULL, true, g);
    if (g->client == NULL) return "no memory for an MQTT client";
    state_topic(topic, file->replica);
    if (mosquitto_will_set(g->client, topic, 4, "gone", 0, true) != MOSQ_ERR_SUCCESS) return "no memory for a last will";
    mosquitto_connect_callback_set(g->client, on_connect);
    mosquitto_disconnect_callback_set(g->client, on_disconnect);
    mosquitto_message_callback_set(g->client, on_message);
    connect_to_broker(g);
    return NULL;
}

void gossip_poll(gossip *g, int milliseconds) {
    int result = mosquitto_loop(g->client, milliseconds, 1);
    if (result == MOSQ_ERR_SUCCESS) return;
    g->is_connected = false;
    connect_to_broker(g);
    if (result == MOSQ_ERR_NO_CONN) usleep(1000 * (unsigned)milliseconds); /* the loop has not waited */
}

/* The place of a piece's hash, or NULL where there is no memory for it: then the piece is published again next time. */
static uint64_t *hash_place(published *bucket, size_t piece) {
    if (piece >= bucket->room) {
        uint64_t *hashes = realloc(bucket->hashes, (piece + 8) * sizeof *hashes);
        if (hashes == NULL) return NULL;
        bucket->hashes = hashes;
        bucket->room = piece + 8;
    }
    if (piece >= bucket->count) {
        bucket->hashes[piece] = 0;
        bucket->count = piece + 1;
    }
    return &bucket->hashes[piece];
}

static void publish_piece(gossip *g, unsigned bucket, size_t piece, const uint8_t *message, size_t length) {
    char topic[TOPIC_ROOM];
    uint64_t hash = fnv_add(FNV_START, message, length), *known = hash_place(&g->buckets[bucket], piece);
    if (known != NULL && *known == hash) return;
    snprintf(topic, sizeof topic, "warm/%u/%u/%zu", g->file->replica, bucket, piece);
    if (mosquitto_publish(g->client, NULL, topic, (int)length, message, 0, true) != MOSQ_ERR_SUCCESS) {
        g->unsent++;
        return;
    }
    g->sent++;
    if (known != NULL) *known = hash;
}

static void publish_bucket(gossip *g, uint8_t bucket, uint8_t *message) {
    warm_sending sending = {.bucket = bucket};
    size_t piece = 0;
    do {
        size_t length;
        /* Without memory the rest of the bucket is published next time. */
        if (warm_send(pool_file_handle(g->file), &sending, message, WARM_MESSAGE_ROOM, &length) != WARM_OK) return;
        publish_piece(g, bucket, piece++, message, length);
    } while (sending.more);
}

/* Gives what was published to the system, as far as it takes it in time. */
static void flush(gossip *g) {
    uint64_t end = milliseconds_now() + GOSSIP_WAIT;
    while (g->is_connected && mosquitto_want_write(g->client) && milliseconds_now() < end) gossip_poll(g, 5);
}

void gossip_publish(gossip *g) {
    if (!g->is_connected || mosquitto_want_write(g->client)) {
        g->skipped++;
        return;
    }
    uint8_t *message = malloc(WARM_MESSAGE_ROOM);
    if (message == NULL) return;
    pool_file_absorb(g->file);
    for (uint8_t bucket = 0; bucket < WARM_BUCKETS; bucket++) publish_bucket(g, bucket, message);
    free(message);
    flush(g);
}

void gossip_print(const gossip *g, FILE *to) {
    uint64_t all = 0;
    for (int status = 0; status < GOSSIP_STATUSES; status++) all += g->statuses[status];
    fprintf(to, "gossip: %llu messages came", (unsigned long long)all);
    for (int status = 0; status < GOSSIP_STATUSES; status++) {
        const char *words = warm_strerror(status);
        if (g->statuses[status] == 0) continue;
        fprintf(to, ", %llu %.*s", (unsigned long long)g->statuses[status], (int)strcspn(words, ":"), words);
    }
    fprintf(to, ", %llu of the replica itself\n", (unsigned long long)g->own);
    fprintf(to, "gossip: %llu messages sent, %llu refused, %llu times without a broker that takes them\n", (unsigned long long)g->sent,
        (unsigned long long)g->unsent, (unsigned long long)g->skipped);
    fflush(to);
}

void gossip_close(gossip *g) {
    mosquitto_destroy(g->client);
    for (int at = 0; at < WARM_BUCKETS; at++) free(g->buckets[at].hashes);
    mosquitto_lib_cleanup();
}
