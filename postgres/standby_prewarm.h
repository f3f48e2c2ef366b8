/*
 * standby_prewarm.h
 *		A streaming standby that takes over warm.
 *
 * One worker owns the history of page references (history.c).  On a primary it
 * samples the buffer descriptors (sample.c) and writes messages into the WAL
 * (publish.c).  On a standby it reads them back (receive.c), ranks the pages
 * (rank.c), and hands those that are missing to loaders (loader.c).
 */
#ifndef STANDBY_PREWARM_H
#define STANDBY_PREWARM_H

#include "compat.h"
#include "postmaster/bgworker.h"
#include "storage/latch.h"
#include "utils/timestamp.h"
#include "warm.h"

#define SP_NAME "standby_prewarm"
#define US_PER_S UINT64CONST(1000000)

/* Statuses of messages: those of warm.h are below 100, these are ours. */
#define SP_STATUSES		128
#define SP_BAD_MESSAGE	100		/* too short, or of an unknown kind, or of too many pages */
#define SP_BAD_VERSION	101		/* of another version of the message */
#define SP_BAD_DIRECTORY 102	/* a directory that is damaged */
#define SP_OTHER_DIRECTORY 103	/* a number that was given twice */
#define SP_LATE_MESSAGE 104		/* written later than our clock allows */

/* What is logged at most once in five minutes: each status, and these. */
#define SP_FAULT_WAL	(SP_STATUSES + 0)	/* WAL was skipped */
#define SP_FAULT_READ	(SP_STATUSES + 1)	/* a page could not be read */
#define SP_FAULT_WORKERS (SP_STATUSES + 2)	/* a loader has no process */
#define SP_FAULT_DEVICES (SP_STATUSES + 3)	/* there are no more numbers */
#define SP_FAULT_SAVE	(SP_STATUSES + 4)	/* a file could not be saved */
#define SP_FAULT_WARM	(SP_STATUSES + 5)	/* no fault: the standby is warm */
#define SP_FAULTS		(SP_STATUSES + 6)

#define SP_BATCH		4096	/* pages handed to a loader at a time */
#define SP_BUCKETS		64		/* of a history, by which it is sent */
#define SP_MOST_DEVICES 65536	/* a page of the history has 16 bits for them */
#define SP_MOST_KNOWN	PG_INT32_MAX	/* pages; history_pages is below half of it */
#define SP_MOST_LOADERS 64		/* that max_loaders can ask for */

/* A device of the history: files of one tablespace, database and fork. */
typedef struct SpDevice
{
	Oid			space;
	Oid			database;
	int32		fork;
} SpDevice;

/* A page by its names.  No two pages differ in anything but these 20 bytes. */
typedef struct SpPage
{
	SpDevice	device;
	Oid			file;
	BlockNumber block;
} SpPage;

/* What a loader answers to a page. */
typedef enum SpOutcome
{
	SP_WAITING,
	SP_LOADED,
	SP_BUSY,					/* its relation is locked: try again later */
	SP_NO_FILE,					/* no relation has this file */
	SP_NO_DATABASE,				/* no loader can connect */
	SP_NO_BLOCK,				/* the file is shorter */
	SP_FAILED					/* the read ended in an error */
} SpOutcome;

typedef struct SpRequest
{
	SpPage		page;
	uint8		outcome;
} SpRequest;

typedef enum SpSlotState
{
	SP_SLOT_IDLE,				/* the worker may fill it */
	SP_SLOT_FULL,				/* the loader works on it */
	SP_SLOT_DONE				/* the outcomes are there */
} SpSlotState;

typedef struct SpLoader
{
	Oid			database;		/* InvalidOid: the slot is free */
	SpSlotState state;
	Latch	   *latch;			/* of the loader, NULL while it starts */
	uint64		took_us;		/* of a batch that is done */
	uint32		count;
	SpRequest	pages[SP_BATCH];
} SpLoader;

/*
 * What the worker shows once a turn.  The fields before refused are columns of
 * standby_prewarm_status, in their order.
 */
typedef struct SpStats
{
	TimestampTz last_message;	/* when it was written; times are 0 where there is none */
	TimestampTz stats_reset;	/* since when is counted */
	TimestampTz last_round;		/* this and the next four: of a server that loads pages */
	int64		wanted;
	int64		resident;
	int64		unloadable;
	int64		primary_known;	/* pages of the primary's history; -1: unknown */
	int64		known;			/* pages of the history */
	int64		devices;
	int64		messages_received;
	int64		wal_read;		/* bytes of WAL that were looked through */
	int64		wal_skipped;	/* bytes that were gone, or unreadable */
	int64		pages_touched;
	int64		rounds;
	int64		round_us;		/* cost of the last round */
	int64		samples;
	int64		sample_us;		/* cost of the last sample */
	int64		page_references;
	int64		messages_sent;
	int64		bytes_sent;
	int64		saves;
	int64		save_failures;
	int64		resets;
	int64		pages_read;		/* by loaders, as the next two */
	int64		read_us;
	int64		pages_failed;
	int64		rankings;		/* rounds for which the history was ranked */
	int64		refused[SP_STATUSES];
	bool		is_standby;
	bool		is_warming;		/* a primary that started loads what it knew */
	bool		others_wait;	/* databases wait for a loader: idle ones end */
} SpStats;

/*
 * lock guards all of it, but a batch: the state of its slot says whose it is.
 * Loaders look at others_wait without it.
 */
typedef struct SpShared
{
	LWLock	   *lock;
	Latch	   *latch;			/* of the worker, NULL while there is none */
	uint64		epoch;			/* counts the starts of the worker */
	bool		reset_wanted;
	SpStats		stats;
	uint64		logged_at[SP_FAULTS];	/* by sp_us; 0: never */
	int			loader_count;
	SpLoader	loaders[FLEXIBLE_ARRAY_MEMBER];
} SpShared;

extern SpShared *sp_shared;

/* The worker's own. */
extern SpStats sp_stats;

/* Settings, in the units that their names have in standby_prewarm.c. */
extern bool sp_enabled,
			sp_load;
extern double sp_fraction;
extern int	sp_sample_interval,
			sp_publish_interval,
			sp_full_interval,
			sp_publish_rate,
			sp_history_age,
			sp_history_pages,
			sp_load_interval,
			sp_load_rate,
			sp_load_after_start,
			sp_clock_tolerance;

/* directory.c */
extern int	sp_device_count;
extern void sp_directory_reset(void);
extern bool sp_page_of(const BufferTag *tag, bool give, warm_page *page);
extern bool sp_names_of(warm_page page, SpPage *names);
extern uint8 *sp_directory_encode(int *next, int end, int most, uint8 *to);
extern int	sp_directory_decode(const uint8 *bytes, Size length);

/* history.c */
extern warm sp_history;
extern uint64 sp_latest;
extern uint64 sp_changed_buckets;
extern XLogRecPtr sp_saved_position;
extern const char *sp_status_name(int status);
extern int	sp_note(int status, const char *what);
extern void sp_history_reset(const char *why);
extern uint64 sp_time_limit(void);
extern uint64 sp_clock(void);
extern void sp_reference(warm_page page, uint64 time);
extern void sp_references_end(void);
extern void sp_history_bound(void);
extern bool sp_directory_save(void);
extern void sp_history_save(XLogRecPtr position);
extern void sp_history_start(void);

/* sample.c */
extern void sp_sample_reset(void);
extern bool sp_sample(void);
extern bool sp_look(int buffer, BufferTag *tag, uint32 *state);

/* publish.c */
extern void sp_publish_reset(void);
extern bool sp_publish(void);

/* receive.c */
extern XLogRecPtr sp_received;
extern void sp_receive_start(XLogRecPtr from, bool is_standby);
extern bool sp_receive(void);
extern void sp_receive_stop(void);

/* rank.c */
extern void sp_rank_reset(void);
extern void sp_round(void);

/* standby_prewarm.c */
extern uint64 sp_us(void);
extern bool sp_may_log(int fault);
extern bool sp_wait(long milliseconds);
extern void sp_describe_worker(BackgroundWorker *worker, const char *function,
							   const char *name);

/*
 * A message: a header of SP_HEADER bytes, and its content.  Standbys are
 * upgraded before their primary, so the version before this one is taken too.
 */
#define SP_MESSAGE_VERSION 2
#define SP_MESSAGE_HISTORY 1
#define SP_MESSAGE_DIRECTORY 2
#define SP_HEADER		18		/* version, kind, time, pages known */
#define SP_HEADER_1		10		/* of version 1: the same without the pages */
#define SP_DEVICE_BYTES 11		/* number, tablespace, database, fork */

/* Numbers are big-endian, as in the library's messages. */
static inline uint8 *
sp_put(uint8 *to, uint64 value, int bytes)
{
	for (int i = bytes; i-- > 0; value >>= 8)
		to[i] = (uint8) value;
	return to + bytes;
}

static inline uint64
sp_get(const uint8 *from, int bytes)
{
	uint64		value = 0;

	while (bytes-- > 0)
		value = value << 8 | *from++;
	return value;
}

#endif							/* STANDBY_PREWARM_H */
