/*
 * writes.h: writes of dirty pages, with no shard locked. Not installed.
 *
 * Who is in a shard, and wants a dirty page to be on its device, puts it into the shard's list of
 * writes, has the node pin it, and leaves the shard. It asks before_write, enters the shard, copies
 * the page into a buffer of the handle, leaves the shard, and writes the copy. Then it enters the
 * shard again, takes the page from the list, and tells the node of the write, before the shard is
 * left again. So the page is dirty until it is on its device. While the list has a page:
 *  - It keeps its frame. Who needs a frame, and finds none but such ones, waits (shards.c).
 *  - Nobody else writes it: who wants to waits for that write, and then looks again whether the
 *    page is dirty (write_page of write_back.c).
 *  - What is written is what before_write was asked about: who is about to change the page waits
 *    until it is copied. It is copied after before_write, which may have taken the page's latch.
 *  - If it is changed after that, it is dirty afterwards, too.
 *  - Nobody forgets it or replaces its device: who wants to waits, and meanwhile no write of the
 *    shard begins so. A page is then written with the shard locked, by its node.
 *
 * An entry of the list is on the stack of the call that writes, which waits for nobody before it
 * has taken the entry from the list: so whoever waits for one waits for a device, or for the
 * engine's functions, alone. The write says to those that wait what came of it, so no later one of
 * the page keeps them. A handle that is alone meets no other one here: its nodes write.
 */
#ifndef WRITES_H
#define WRITES_H

#include "nodes.h"
#include "waits.h"

struct opened;
struct shard;

/* Who waits for a write, on the stack of its call. Who is in the shard reads and changes it. */
typedef struct write_waiter {
    bool is_over;
    int error; /* what came of the write then, as write_outside says it */
    struct write_waiter *next;
} write_waiter;

/* A page that is being written. Who is in the shard reads and changes it. */
typedef struct writing {
    node_page page;
    node_slot slot;  /* of the pin that the node has */
    bool is_asked;   /* before_write is asked, and the page is not copied */
    bool is_changed; /* since it was copied */
    bool is_awaited; /* somebody waits until it is copied, or is over */
    write_waiter *waiters;
    struct writing *next;
} writing;

/* All is called by who is in the shard. */

/* Writes a page that is dirty, and that nobody writes. The shard is locked, and left meanwhile.
 * What came of it is 0; EAGAIN if before_write skipped the page; or another errno: with both the
 * page is dirty as before. False if it cannot be written so now, and nothing was done. */
bool write_outside(struct opened *its, struct shard *in, node_page page, int *error);

/* The entry of a page, or of the page of a slot, if one is being written; or NULL. */
writing *write_of_page(const struct shard *in, node_page page);
writing *write_of_slot(const struct shard *in, node_slot slot);

/* WARM_OK if a page with this entry, or with none (NULL), may be changed. If it was not copied yet,
 * waits for that, and returns READ_AGAIN: its entry is to be looked for again; or WARM_BUSY. */
int may_change(const struct opened *its, struct shard *in, writing *at, patience *left);

/* Notes that it was changed: a call that is refused leaves it as it was. */
void note_change(writing *at);

/* Whether somebody writes a page: then waits for that write, and for no later one, and writes what
 * came of it. */
bool wait_for_write(struct shard *in, node_page page, int *error);

/* Whether pages of a device are being written, with this number and above; and waits until none
 * is. */
bool are_written(const struct shard *in, uint16_t dev, uint64_t from);
void wait_for_writes(struct shard *in, uint16_t dev, uint64_t from);

#endif
