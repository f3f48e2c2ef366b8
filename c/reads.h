/*
 * reads.h: reads of pages that are in no frame, with no shard locked. Not installed.
 *
 * Who is in a shard, and wants a page that is in no frame and that nobody reads, puts it into the
 * shard's list of reads, leaves the shard, reads the page into the buffer of the handle, enters the
 * shard again, hands the bytes to the node, and takes the page from the list. If the page that is
 * to leave for it is dirty, the shard is left before that once more (writes.h): so who fills a page
 * with zeros puts it into the list, too. Who wants a page that is in the list, be it to read it or
 * to fill it with zeros, waits until it is taken from there, and then looks again. So the bytes are
 * those that the device has:
 *  - Nobody writes a page to its device while the list has it: it is in no frame.
 *  - It was written before that: a dirty page is written before its frame is given to another one,
 *    and a page that is skipped, or whose write fails, keeps its frame.
 * A page that is forgotten meanwhile, or whose device is replaced, is read again: the caller may
 * then change the file. Who forgets or replaces waits, in no shard, until the old reads are over,
 * and for no later ones: each of these steps has a number.
 *
 * An entry of the list is on the stack of the call that reads. A handle that is alone meets no
 * other one here, and takes no lock: so the last close meets none. A read that fails is of its own
 * call: whoever waited tries again.
 */
#ifndef READS_H
#define READS_H

#include "nodes.h"
#include "waits.h"

struct opened;
struct shard;

/* A page that is being read. Who is in the shard reads and changes it. */
typedef struct reading {
    node_page page;
    bool is_awaited; /* somebody waits until it is over */
    bool is_at_file; /* its device is read, and the shard left */
    bool is_stale;   /* what is read is of no use */
    uint64_t since;  /* of which step that made reads stale; the first one */
    struct reading *next;
} reading;

/* All is called by who is in the shard, but for the last one. */

/* WARM_OK if nobody reads a page. Else waits, with the shard left, until it is read, and returns
 * READ_AGAIN; or WARM_BUSY. */
int wait_for_read(
    const struct opened *its, struct shard *in, node_page page, patience *left);

/* Puts a page into the list, and takes it from there. */
void begin_read(struct shard *in, reading *it);
void end_read(struct shard *in, reading *it);

/* Reads a page that is in the list into the handle's buffer. The shard is left meanwhile. Returns
 * WARM_OK; WARM_READ_FAULT, which is noted; or READ_AGAIN. */
int read_outside(struct opened *its, struct shard *in, reading *it, bool is_locked);

/* What is being read of the pages of a device, with this number and above, is of no use, since the
 * step with that number. */
void make_stale(struct shard *in, uint16_t dev, uint64_t from, uint64_t step);

/* Waits until nothing of a device is being read that is of no use since that step, or before it.
 * A pin that has read its page, and waits for a frame, keeps nobody. */
void wait_for_stale(struct opened *its, uint16_t dev, uint64_t step);

#endif
