/*
 * sync_once.h: the syncs of descriptors that replicas have as devices. The shards of a replica
 * share its descriptors, and each asks for the syncs of its own writes: a sync is made once for all
 * that was written before it, and one that failed is remembered for all. A device that is synced by
 * a call of the engine has a number here in place of a descriptor: device_synced_as says which.
 */
#ifndef SYNC_ONCE_H
#define SYNC_ONCE_H

#include <stdbool.h>

/* A descriptor that a thread is about to sync, or is syncing. */
typedef struct counted sync_use;

/* Counts one more device with this descriptor; false if there is no memory for it. */
bool sync_add(int fd);

/* Counts one less. What is known of the descriptor is forgotten with the last one: its file was
 * synced, or may be lost. Who lets the last one go waits until nobody syncs it, and nobody does
 * from then on: the descriptor may be closed. */
void sync_drop(int fd);

/* A write to the descriptor has returned, whether it failed or not. */
void sync_wrote(int fd);

/* From here on sync_once of this thread leaves a descriptor that is counted alone and returns 0,
 * or, with false, syncs it again. Returns what was so before. Who leaves out syncs makes them
 * before a caller gets a result: so no lock of a shard is held meanwhile. */
bool sync_later(bool is_later);

/* Syncs the descriptor (fsync), unless nothing was written to it since its last sync that succeeded
 * began; -1 with errno if that fails. If a sync has failed while the descriptor was counted, each
 * later one fails, with the same errno. One thread at a time syncs a descriptor. Of one that is not
 * counted nothing is known, and each sync is made. */
int sync_once(int fd);

/* The two halves of that, for a descriptor that is counted: NULL if there is nothing to sync, and
 * no sync of it has failed. What was taken is synced, by sync_taken: it says whether a sync was
 * made, or failed before. Between the two the descriptor may be let go: it is not synced then. */
sync_use *sync_take(int fd);
bool sync_is_settled(int fd); /* whether it is NULL */
int sync_taken(sync_use *its, bool *is_made);

#endif
