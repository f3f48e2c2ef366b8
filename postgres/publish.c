/*
 * publish.c
 *		Messages into the WAL of a primary: what is new, and everything in turn, slowly, so that a
 *		standby that comes late learns all.
 */
#include "postgres.h"

#include "access/xlog.h"
#include "access/xloginsert.h"
#include "miscadmin.h"
#include "postmaster/interrupt.h"
#include "replication/message.h"
#include "replication/slot.h"
#include "replication/walsender_private.h"
#include "standby_prewarm.h"

#define EMPTY_HISTORY	23		/* bytes of the library's message without an entry */
#define DEVICES_A_MESSAGE 1000
#define MOST_LATE_US	(60 * US_PER_S)
#define BURST_S			10
#define SLICES			5		/* a publication sends one of a second's */

static warm_sending walk;		/* the bucket that is sent, piece by piece */
static bool walk_is_on;			/* pieces of it follow */

/* Stamps before this were sent, or are not new; 0: all of it is to be sent. */
static uint64 sent_until[SP_BUCKETS];
static uint8 next_bucket = 0;	/* where the search for a changed one begins */
static uint8 next_in_turn = 0;
static uint64 turn_at;			/* when the last bucket in turn was due */
static int	devices_saved,
			devices_sent;		/* the numbers below these */
static uint64 directory_at;		/* when all of it was sent last */
static int64 allowance = 0;		/* bytes that may be sent now */
static uint64 paid_at;			/* since when none were added */
static XLogRecPtr last_record = InvalidXLogRecPtr;	/* a message's end */

/*
 * The next publication sends the directory first.  What the history has by now is not new: either
 * it came by the WAL, or it is sent in turn.
 */
void
sp_publish_reset(void)
{
	walk_is_on = false;
	for (int i = 0; i < SP_BUCKETS; i++)
		sent_until[i] = sp_latest + 1;
	devices_saved = devices_sent = 0;
	allowance = 0;
	directory_at = paid_at = turn_at = sp_us();
}

/*
 * Whether a message is to count as important WAL.  A checkpoint is skipped, also one that WAL asks
 * for, where nothing important was written since the last one: where only this worker writes, no
 * segment would ever be recycled.  So a message is important once a quarter of max_wal_size has no
 * important record.  WAL asks for a checkpoint after half of it at the earliest, which is not
 * skipped then.  All others are unimportant: else an idle server would make a checkpoint each
 * checkpoint_timeout, and switch segments each archive_timeout.
 */
static bool
publish_is_important(void)
{
	return GetXLogInsertRecPtr() - GetLastImportantRecPtr() >=
		(XLogRecPtr) max_wal_size_mb * (1024 * 1024 / 4);
}

static void
publish_message(uint8 kind, uint8 *message, Size length)
{
	xl_logical_message record = {0};

	record.prefix_size = sizeof SP_NAME;
	record.message_size = length;
	message[0] = SP_MESSAGE_VERSION;
	message[1] = kind;
	sp_put(sp_put(message + 2, (uint64) GetCurrentTimestamp(), 8), sp_stats.known, 8);
	XLogBeginInsert();
	XLogRegisterData((char *) &record, SizeOfLogicalMessage);
	XLogRegisterData((char *) SP_NAME, sizeof SP_NAME);
	XLogRegisterData((char *) message, length);
	if (!publish_is_important())
		XLogSetRecordFlags(XLOG_MARK_UNIMPORTANT);
	last_record = XLogInsert(RM_LOGICALMSG_ID, XLOG_LOGICAL_MESSAGE);
	allowance -= length;
	sp_stats.messages_sent++;
	sp_stats.bytes_sent += length;
}

/*
 * Sends the numbers of devices that were not sent; now and then all of them.  They are saved first,
 * so that a primary that crashed does not give them again; where that fails, they wait.
 */
static void
publish_directory(uint64 now, int64 rate)
{
	uint8		message[SP_HEADER + DEVICES_A_MESSAGE * SP_DEVICE_BYTES];
	uint64		cost_us = (uint64) sp_device_count * SP_DEVICE_BYTES * US_PER_S / rate;

	if (devices_saved != sp_device_count && sp_directory_save())
		devices_saved = sp_device_count;
	if (now - directory_at > Max(sp_full_interval * US_PER_S, cost_us * 10))
	{
		devices_sent = 0;
		directory_at = now;
	}
	while (devices_sent < devices_saved)
	{
		uint8	   *end = sp_directory_encode(&devices_sent, devices_saved, DEVICES_A_MESSAGE,
											  message + SP_HEADER);

		publish_message(SP_MESSAGE_DIRECTORY, message, end - message);
	}
}

/* Sends the next piece of the bucket; false where it is refused. */
static bool
publish_piece(void)
{
	uint8		message[SP_HEADER + WARM_MESSAGE_ROOM];
	Size		length;

	if (sp_note(warm_send(&sp_history, &walk, message + SP_HEADER, WARM_MESSAGE_ROOM, &length),
				"a publication") != WARM_OK)
		return false;
	walk_is_on = walk.more;
	if (length > EMPTY_HISTORY)
		publish_message(SP_MESSAGE_HISTORY, message, SP_HEADER + length);
	return true;
}

/*
 * Begins with the next bucket that has something new, or whose turn it is to be sent whole.  No
 * bucket shuts others out, so neither kind waits for ever.  A turn that is late is caught up with,
 * but not one of long ago.
 */
static bool
publish_begin(uint64 now)
{
	uint64		rest = sp_full_interval * US_PER_S / SP_BUCKETS;

	if (now - turn_at >= rest)
	{
		turn_at = Max(turn_at + rest, now - Min(now, rest + MOST_LATE_US));
		sent_until[next_in_turn] = 0;
		sp_changed_buckets |= UINT64CONST(1) << next_in_turn;
		next_in_turn = (next_in_turn + 1) % SP_BUCKETS;
	}
	if (sp_changed_buckets == 0)
		return false;
	while ((sp_changed_buckets >> next_bucket & 1) == 0)
		next_bucket = (next_bucket + 1) % SP_BUCKETS;
	memset(&walk, 0, sizeof walk);
	walk.bucket = next_bucket;
	walk.since = sent_until[next_bucket];
	walk_is_on = true;
	/* The next sample's time is later than the latest. */
	sent_until[next_bucket] = sp_latest + 1;
	sp_changed_buckets &= ~(UINT64CONST(1) << next_bucket);
	next_bucket = (next_bucket + 1) % SP_BUCKETS;
	return true;
}

/* Whether WAL goes anywhere: into an archive, or to who streams it or will. */
static bool
publish_has_reader(void)
{
	bool		found = XLogArchivingActive();

	for (int i = 0; i < max_wal_senders && !found; i++)
	{
		WalSnd	   *sender = &WalSndCtl->walsnds[i];

		SpinLockAcquire(&sender->mutex);
		found = sender->pid != 0;
		SpinLockRelease(&sender->mutex);
	}
	LWLockAcquire(ReplicationSlotControlLock, LW_SHARED);
	for (int i = 0; i < max_replication_slots && !found; i++)
		found = ReplicationSlotCtl->replication_slots[i].in_use &&
			SlotIsPhysical(&ReplicationSlotCtl->replication_slots[i]);
	LWLockRelease(ReplicationSlotControlLock);
	return found;
}

/*
 * Sends what is new, as far as the rate allows; true where more waits for the rate.  What was not
 * used in the last seconds may be, but not at once: a commit would wait until all of it is flushed.
 * A message may take more, of the next seconds.
 */
bool
sp_publish(void)
{
	uint64		now = sp_us();
	int64		rate = sp_publish_rate * INT64CONST(1024);
	XLogRecPtr	before = last_record;
	int64		least;

	if (!XLogIsNeeded() || !publish_has_reader())
		return false;			/* what is new waits for one */
	allowance = Min(allowance + (int64) (rate * ((now - paid_at) / 1e6)), rate * BURST_S);
	paid_at = now;
	least = Max(allowance - rate / SLICES, 0);
	publish_directory(now, rate);
	while (allowance > least && !ShutdownRequestPending && (walk_is_on || publish_begin(now)) &&
		   publish_piece())
		CHECK_FOR_INTERRUPTS();
	if (last_record != before)
		XLogSetAsyncXactLSN(last_record);	/* for the WAL writer */
	return allowance <= least && (walk_is_on || sp_changed_buckets != 0);
}
