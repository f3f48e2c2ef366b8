/*
 * receive.c
 *		Messages out of the WAL of a standby.
 *
 * The worker reads the WAL that was replayed, from pg_wal, so no message makes replay wait or fail.
 * One that starts on a primary reads what was written since its history was saved.  Where a segment
 * is gone, or a record cannot be read, it goes on at the end, and counts the bytes that it skipped.
 */
#include "postgres.h"

#include "access/xlog_internal.h"
#include "access/xlogrecovery.h"
#include "access/xlogutils.h"
#include "miscadmin.h"
#include "replication/message.h"
#include "storage/fd.h"
#include "utils/memutils.h"
#include "standby_prewarm.h"

/* Most WAL that one turn reads, so that other work gets its turn too. */
#define BYTES_A_TURN	(16 * 1024 * 1024)

static XLogReaderState *reader = NULL;
static char segment_path[MAXPGPATH];	/* of the segment that was looked for last */
static XLogRecPtr own_end;		/* of the WAL that a primary begins with; of a standby invalid */
static TimeLineID own_timeline;
static bool is_cut;				/* own_end is within the record that was to be read */

/* Up to where messages were taken in; invalid where none are. */
XLogRecPtr	sp_received = InvalidXLogRecPtr;

/* Where WAL ends for now: a standby's at what was replayed. */
static XLogRecPtr
wal_end(TimeLineID *timeline)
{
	if (XLogRecPtrIsInvalid(own_end))
		return GetXLogReplayRecPtr(timeline);
	*timeline = own_timeline;
	return own_end;
}

/* Opens a segment for WALRead, which wants a file: for one that is gone an empty one. */
static void
open_segment(XLogReaderState *state, XLogSegNo number, TimeLineID *timeline)
{
	char		partial[MAXPGPATH];
	int			fd;

	XLogFilePath(segment_path, *timeline, number, wal_segment_size);
	fd = BasicOpenFile(segment_path, O_RDONLY | PG_BINARY);
	if (fd < 0 && errno == ENOENT)
	{
		/* A promotion renames the last segment of the timeline before it. */
		snprintf(partial, sizeof partial, "%s.partial", segment_path);
		fd = BasicOpenFile(partial, O_RDONLY | PG_BINARY);
	}
	state->seg.ws_file = fd >= 0 ? fd : BasicOpenFile(DEVNULL, O_RDONLY | PG_BINARY);
}

/* Reads a page of WAL, as far as there is any.  A segment that is gone is no error. */
static int
read_page(XLogReaderState *state, XLogRecPtr page, int wanted, XLogRecPtr record, char *into)
{
	TimeLineID	timeline;
	XLogRecPtr	end = wal_end(&timeline);
	WALReadError error;
	int			length;

	if (page + wanted > end)
	{
		is_cut = !XLogRecPtrIsInvalid(own_end); /* others go on to write it */
		return -1;
	}
	length = (int) Min(XLOG_BLCKSZ, end - page);
	XLogReadDetermineTimeline(state, page, wanted, timeline);
	return WALRead(state, into, page, length, state->currTLI, &error) ? length : -1;
}

/* Goes on at a place.  A record does not begin at a page, but behind its header. */
static void
begin_read(XLogRecPtr from)
{
	if (XLogSegmentOffset(from, wal_segment_size) == 0)
		from += SizeOfXLogLongPHD;
	else if (from % XLOG_BLCKSZ == 0)
		from += SizeOfXLogShortPHD;
	sp_received = from;
	XLogBeginRead(reader, from);
}

/*
 * Begins with the WAL from a place on.  A standby goes on with what is replayed; of a primary it is
 * what was written before its worker started.
 */
void
sp_receive_start(XLogRecPtr from, bool is_standby)
{
	MemoryContext old = MemoryContextSwitchTo(TopMemoryContext);

	sp_receive_stop();
	reader = XLogReaderAllocate(wal_segment_size, NULL,
								XL_ROUTINE(.page_read = read_page, .segment_open = open_segment,
										   .segment_close = wal_segment_close), NULL);
	MemoryContextSwitchTo(old);
	if (reader == NULL)
		ereport(ERROR, (errcode(ERRCODE_OUT_OF_MEMORY), errmsg("out of memory")));
	own_end = is_standby ? InvalidXLogRecPtr : GetFlushRecPtr(&own_timeline);
	begin_read(from);
}

void
sp_receive_stop(void)
{
	if (reader != NULL)
		XLogReaderFree(reader);
	reader = NULL;
	sp_received = InvalidXLogRecPtr;
}

/* What a message is refused for by its header, which is so long, or WARM_OK. */
static int
header_status(const uint8 *bytes, Size length, Size header, uint64 limit)
{
	if (length < SP_HEADER_1)
		return SP_BAD_MESSAGE;
	if (bytes[0] != SP_MESSAGE_VERSION && bytes[0] != SP_MESSAGE_VERSION - 1)
		return SP_BAD_VERSION;
	if (length < header || (bytes[1] != SP_MESSAGE_HISTORY && bytes[1] != SP_MESSAGE_DIRECTORY) ||
		(header == SP_HEADER && sp_get(bytes + SP_HEADER_1, 8) > SP_MOST_KNOWN))
		return SP_BAD_MESSAGE;
	return sp_get(bytes + 2, 8) > limit ? SP_LATE_MESSAGE : WARM_OK;
}

/*
 * Takes in a message: the bytes behind the prefix.  A device number that was given twice says that
 * two primaries gave them: the later one is believed.
 */
static void
take_message(const uint8 *bytes, Size length)
{
	uint64		limit = sp_time_limit();
	Size		header = length > 0 && bytes[0] == 1 ? SP_HEADER_1 : SP_HEADER;
	int			status = header_status(bytes, length, header, limit);

	if (status == WARM_OK && bytes[1] == SP_MESSAGE_DIRECTORY)
	{
		status = sp_directory_decode(bytes + header, length - header);
		if (status == SP_OTHER_DIRECTORY)
		{
			sp_history_reset("another primary gave the numbers of devices");
			(void) sp_directory_decode(bytes + header, length - header);
		}
	}
	else if (status == WARM_OK)
	{
		warm_limit(&sp_history, limit);
		status = warm_receive(&sp_history, bytes + header, length - header);
		if (status == WARM_OK)
		{
			sp_stats.last_message = Max(sp_stats.last_message, (TimestampTz) sp_get(bytes + 2, 8));
			sp_latest = Max(sp_latest, sp_get(bytes + 2, 8));
			sp_stats.primary_known = header == SP_HEADER ? sp_get(bytes + SP_HEADER_1, 8) : -1;
			sp_stats.messages_received++;
		}
	}
	(void) sp_note(status, "a message of its primary");
}

/* Hands on the message of a record, where it is one of ours. */
static void
look_at_record(void)
{
	xl_logical_message *message = (xl_logical_message *) XLogRecGetData(reader);
	Size		length = XLogRecGetDataLen(reader);

	if (XLogRecGetRmid(reader) != RM_LOGICALMSG_ID ||
		(XLogRecGetInfo(reader) & ~XLR_INFO_MASK) != XLOG_LOGICAL_MESSAGE ||
		length < SizeOfLogicalMessage + sizeof SP_NAME ||
		message->dbId != InvalidOid || message->prefix_size != sizeof SP_NAME ||
		memcmp(message->message, SP_NAME, sizeof SP_NAME) != 0 ||
		message->message_size != length - SizeOfLogicalMessage - sizeof SP_NAME)
		return;
	take_message((const uint8 *) message->message + sizeof SP_NAME, message->message_size);
}

/* WAL is skipped up to end, for what the reader says: nothing of a file that is gone. */
static void
note_skipped(XLogRecPtr end, const char *why)
{
	sp_stats.wal_skipped += end - sp_received;
	sp_stats.wal_read -= end - sp_received;
	if (!sp_may_log(SP_FAULT_WAL))
		return;
	/* A crash or a promotion is followed by a checkpoint, after which WAL is recycled. */
	ereport(XLogRecPtrIsInvalid(own_end) ? WARNING : LOG,
			(errcode(why != NULL ? ERRCODE_DATA_CORRUPTED : ERRCODE_UNDEFINED_FILE),
			 errmsg("standby_prewarm skipped WAL from %X/%X to %X/%X, last of file \"%s\": %s",
					LSN_FORMAT_ARGS(sp_received), LSN_FORMAT_ARGS(end), segment_path,
					why != NULL ? why : "it is gone"),
			 errdetail("What was published in it is known once it is published or referenced again.")));
}

/* Reads the WAL that there is; true where it is more than a turn of it. */
bool
sp_receive(void)
{
	XLogRecPtr	begun = sp_received;
	TimeLineID	timeline;
	XLogRecPtr	end = wal_end(&timeline);
	MemoryContext old = MemoryContextSwitchTo(TopMemoryContext);	/* the reader's buffers grow */

	while (sp_received < end && sp_received - begun < BYTES_A_TURN)
	{
		char	   *message;

		CHECK_FOR_INTERRUPTS();
		is_cut = false;
		if (XLogReadRecord(reader, &message) == NULL)
		{
			if (!is_cut)
				note_skipped(end, message);
			begin_read(end);
			break;
		}
		look_at_record();
		sp_received = reader->EndRecPtr;
	}
	if (reader->seg.ws_file >= 0)
		wal_segment_close(reader);	/* one from the archive may take its place */
	MemoryContextSwitchTo(old);
	sp_stats.wal_read += sp_received - begun;
	return sp_received < end;
}
