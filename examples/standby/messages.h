/* What gossip needs to know of a message's bytes (docs/FORMATS.md, section 3). */
#ifndef MESSAGES_H
#define MESSAGES_H

#include <stdbool.h>
#include <stddef.h>
#include <stdint.h>

#include "warm.h"

/* The number of big-endian bytes. */
static inline uint64_t message_number(const uint8_t *at, int width) {
    uint64_t value = 0;
    for (int i = 0; i < width; i++) value = value << 8 | at[i];
    return value;
}

/* The replica that sent a message, or 0 where the bytes are too few for that. */
static inline unsigned message_sender(const uint8_t *message, size_t length) {
    return length < 7 ? 0 : (unsigned)message_number(message + 5, 2);
}

/* The latest time in a message: of its horizon, which the older format has not, and of its entries. The message is one that warm_receive took. */
static inline uint64_t message_latest(const uint8_t *message, size_t length) {
    size_t number = message[3] == '2' ? 8 : 4, head = number == 8 ? 23 : 15;
    uint64_t latest = number == 8 ? message_number(message + 7, 8) : 0;
    if (message[4] != 1) return latest;
    for (size_t at = head; at + 2 + number + 11 <= length; at += 2 + number + 1 + 10 * (size_t)message[at + 2 + number]) {
        uint64_t time = message_number(message + at + 2 + number + 1, 8);
        if (time > latest) latest = time;
    }
    return latest;
}

#endif
