/*
 * waits.h: how long a call waits for reads and writes of other calls. Not installed.
 *
 * Who waits for one waits for the shard's call_over, as all who wait there do, and then looks again
 * at what it waited for. Others may be first each time: they may read the page, fail and read it
 * again, or take each frame that may be had. So a handle can have a limit of time, which all waits
 * of a call share. Who waits for calls that are under way, and for none that begin later, needs
 * none: write-backs (writes.h), and who forgets pages or replaces a device.
 *
 * Who waits for a frame is also woken when a pin is taken back, a page is written, or pages leave.
 * A hold is given up with no shard entered (give_up_hold of shards.h). Its word is 0 first; then
 * its holder looks whether somebody wants a frame. Who wants one says so first, and then looks at
 * the holds. So one of the two sees the other, as long as each one's store comes before its look. A
 * processor may turn these round. So who wants a frame has the system order the memory of all
 * threads between the two (membarrier): either the holder's store came before that, and is seen, or
 * its look comes after it, and sees. A hit has no fence for this: with an exchange in place of the
 * holder's store it took a tenth more. If the system does not do so, the holder does, and finds
 * that in the same number (ORDERS_ITSELF).
 */
#ifndef WAITS_H
#define WAITS_H

#include <stdbool.h>
#include <stdint.h>
#include <time.h>

struct opened;
struct shard;

/* Until when a call waits, if its handle has a limit. All zeros is one that has not waited. */
typedef struct patience {
    bool has_begun, is_over;
    struct timespec until; /* if has_begun; by the clock of call_over */
} patience;

/* No status: what is known of the page may have changed, and it is to be looked for again. */
enum { READ_AGAIN = -1 };

/* By who is in a shard, which is locked: waits until a read, a write or a copying of the shard is
 * over, and returns READ_AGAIN. Once the time is over it does not wait, and returns WARM_BUSY. */
int await_call(const struct opened *its, struct shard *in, patience *left);

/* The same for who looks again without a wait. */
int look_again(const struct opened *its, patience *left);

/* Of table.wanting: set if whoever gives up a hold orders its store and its look by itself; and
 * what is added for each who waits. */
enum { ORDERS_ITSELF = 1, ONE_WANTS = 2 };

/* The first value of table.wanting. */
uint32_t nobody_wants(void);

/* By who is in a shard: says that it wants a frame, before it looks at the holds, and that it does
 * no more. */
void begin_to_want(struct shard *in);
void end_to_want(struct shard *in);

/* By whoever is in a shard, if a frame may be had now: wakes those who want one. */
void wake_wanting(struct shard *in);

/* The same by who has given up a hold, whose word is 0, and is in no shard: it is seldom called, so
 * that a hit does not jump. */
__attribute__((cold)) void enter_and_wake_wanting(struct shard *in, _Atomic uint64_t *word);

#endif
