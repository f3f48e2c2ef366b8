/*
 * history.c
 *		The handle of libwarm_c, its clock and horizon, and its files.
 *
 * The handle is the worker's alone: it is opened after the fork, and no other
 * process uses it.  It has no device, so it is a history alone.
 */
#include "postgres.h"

#include <sys/stat.h>

#include "access/xlog.h"
#include "miscadmin.h"
#include "port/pg_crc32c.h"
#include "postmaster/interrupt.h"
#include "storage/fd.h"
#include "storage/procsignal.h"
#include "standby_prewarm.h"

#define HISTORY_FILE "standby_prewarm.history"
#define DIRECTORY_FILE "standby_prewarm.directory"
#define DRAFT_FILE "standby_prewarm.tmp"
#define DIRECTORY_MAGIC UINT64CONST(0x5741524d44495232)	/* WARMDIR2 */
#define DIRECTORY_HEADER 32		/* magic, system, latest time, position */
#define MOST_DIRECTORY_BYTES (DIRECTORY_HEADER + SP_MOST_DEVICES * SP_DEVICE_BYTES + 4)

#define REFERENCES		1024
#define BOUND_US		(60 * US_PER_S)
#define DAY_US			(86400 * US_PER_S)
#define MOST_KNOWN		10000000	/* by default: some 0.7 GB */
#define STOP_US			(US_PER_S / 2)	/* for a save at a stop */

uint64		sp_changed_buckets = 0;
uint64		sp_latest = 0;		/* the latest time given or heard of */

/* The saved history has all that WAL says before this. */
XLogRecPtr	sp_saved_position = InvalidXLogRecPtr;

warm		sp_history = {0};
static uint16 replica = 1;		/* of a primary, by its timeline */

/* References wait by bucket: the history takes a run of one bucket fastest. */
static warm_reference references[SP_BUCKETS][REFERENCES];
static int	reference_counts[SP_BUCKETS];

/* When a save at a stop is given up; 0: it is another save. */
static uint64 save_until;
static int	save_error;			/* of a piece of the dump; ECANCELED: it is given up */

/* The name of a status, until the next call: of "WARM_LATE_STAMP: .." LateStamp. */
const char *
sp_status_name(int status)
{
	static const char *own[] = {"BadMessage", "BadVersion", "BadDirectory",
	"OtherDirectory", "LateMessage"};
	static char name[32];
	const char *from = warm_strerror(status);
	int			length = 0;

	if (status >= SP_BAD_MESSAGE && status <= SP_LATE_MESSAGE)
		return own[status - SP_BAD_MESSAGE];
	if (strncmp(from, "WARM_", 5) != 0)
		return "Unknown";
	for (from += 5; *from != ':' && length < (int) sizeof name - 1; from++)
		if (*from != '_')
			name[length++] = from[-1] == '_' ? *from : pg_tolower((unsigned char) *from);
	name[length] = 0;
	return name;
}

/* Opens an empty history. */
static void
history_open(void)
{
	const warm_options options = {.size = sizeof options, .replica = 1};
	int			status = warm_open(&sp_history, &options);

	if (status != WARM_OK)
		ereport(ERROR,
				(errcode(ERRCODE_OUT_OF_MEMORY),
				 errmsg("standby_prewarm could not open its history: %s", sp_status_name(status))));
	memset(reference_counts, 0, sizeof reference_counts);
	sp_changed_buckets = 0;
}

/* Forgets everything: history, directory, clock, files. */
void
sp_history_reset(const char *why)
{
	ereport(LOG, (errmsg("standby_prewarm begins a new history: %s", why)));
	warm_close(&sp_history);
	(void) unlink(HISTORY_FILE);
	(void) unlink(DIRECTORY_FILE);
	sp_directory_reset();
	history_open();
	sp_latest = 0;
	sp_saved_position = InvalidXLogRecPtr;
	sp_publish_reset();			/* the numbers are given and sent again */
	sp_stats.resets++;
}

/*
 * The limit of times that are believed, in microseconds since 2000.  Where one is known that is
 * later, a new history begins: a primary's standbys would refuse its references, and a standby's
 * horizon may be later than all that comes.
 */
uint64
sp_time_limit(void)
{
	uint64		limit = GetCurrentTimestamp() + sp_clock_tolerance * US_PER_S;

	if (sp_latest > limit)
		sp_history_reset("the clock was set back");
	return limit;
}

/* The time of a primary's sample, later than all before it, and than those of a former primary. */
uint64
sp_clock(void)
{
	(void) sp_time_limit();
	sp_latest = Max((uint64) GetCurrentTimestamp(), sp_latest + 1);
	/* Timelines differ, so two primaries do. */
	replica = (uint16) ((GetWALInsertionTimeLine() - 1) % 64 + 1);
	return sp_latest;
}

/* What an operator can do where this is refused, or NULL. */
static const char *
history_hint(int status)
{
	switch (status)
	{
		case SP_BAD_VERSION:
			return "Upgrade this server to the version of its primary.";
		case SP_OTHER_DIRECTORY:
			return "Unless the primary was reset, two servers were primaries at the same time.";
		case SP_LATE_MESSAGE:
		case WARM_LATE_STAMP:
		case WARM_LATE_HORIZON:
			return "Compare the clocks of the servers. They may differ by \"standby_prewarm.clock_tolerance\".";
		default:
			return NULL;
	}
}

/* Counts what is refused, a message or a call of the library, and warns; returns its status. */
int
sp_note(int status, const char *what)
{
	const char *hint = history_hint(status);

	if (status == WARM_OK || status < 0 || status >= SP_STATUSES)
		return status;
	sp_stats.refused[status]++;
	if (sp_may_log(status))
		ereport(WARNING,
				(errcode(status == WARM_MEMORY ? ERRCODE_OUT_OF_MEMORY :
						 ERRCODE_PROTOCOL_VIOLATION),
				 errmsg("standby_prewarm refused %s: %s", what, sp_status_name(status)),
				 hint != NULL ? errhint("%s", hint) : 0));
	return status;
}

static void
history_absorb_bucket(int bucket)
{
	sp_note(warm_absorb(&sp_history, references[bucket], reference_counts[bucket]),
			"references of a sample");
	reference_counts[bucket] = 0;
}

/* Hands the references that wait to the history. */
void
sp_references_end(void)
{
	for (int bucket = 0; bucket < SP_BUCKETS; bucket++)
		history_absorb_bucket(bucket);
}

/* Keeps a reference for the history, with others of its bucket. */
void
sp_reference(warm_page page, uint64 time)
{
	int			bucket = (page.dev + page.no) % SP_BUCKETS;
	warm_reference *at = &references[bucket][reference_counts[bucket]++];

	at->time = time;
	at->no = page.no;
	at->dev = page.dev;
	at->replica = replica;
	sp_changed_buckets |= UINT64CONST(1) << bucket;
	sp_stats.page_references++;
	if (reference_counts[bucket] == REFERENCES)
		history_absorb_bucket(bucket);
}

/* Counts the pages known, and lets interrupts in between walks. */
static Size
history_length(void)
{
	Size		length = 0;

	CHECK_FOR_INTERRUPTS();
	warm_history_length(&sp_history, &length);
	return length;
}

/*
 * Forgets pages without a reference for too long; and where there are too many, the older
 * references of all, in steps of a quarter of the time that is left.  It walks the history, so it
 * is done once a minute, or where there are an eighth too many pages.  A standby has its primary's
 * horizon, and goes by its clock.
 */
void
sp_history_bound(void)
{
	static uint64 bound_at = 0;
	bool		is_standby = RecoveryInProgress();
	Size		usual = is_standby ? PG_INT32_MAX : Min((Size) NBuffers * 4, MOST_KNOWN);
	Size		most = sp_history_pages > 0 ? sp_history_pages : usual;
	uint64		now = Max(is_standby ? 0 : GetCurrentTimestamp(), sp_latest);
	uint64		age = sp_history_age * 60 * US_PER_S;
	uint64		horizon = 0;

	sp_stats.known = history_length();
	sp_stats.devices = sp_device_count;
	if (sp_stats.known <= most + most / 8 && sp_us() < bound_at)
		return;
	if (sp_device_count == SP_MOST_DEVICES && !is_standby && sp_may_log(SP_FAULT_DEVICES))
		ereport(WARNING,
				(errcode(ERRCODE_PROGRAM_LIMIT_EXCEEDED),
				 errmsg("standby_prewarm has no number for the pages of further databases and tablespaces"),
				 errhint("Call standby_prewarm_reset() to begin a new history.")));
	bound_at = sp_us() + BOUND_US;
	warm_raise(&sp_history, age > 0 && age < now ? now - age : 0, &horizon);
	if (horizon == 0 && history_length() > most)
		warm_raise(&sp_history, now - Min(now, DAY_US), &horizon);
	while (history_length() > most && horizon < now)
		warm_raise(&sp_history, horizon + (now - horizon) / 4 + 1, &horizon);
	sp_stats.known = history_length();
}

/*
 * Replaces a file by what write_draft writes, whole or not at all.  An error, which it returns, is
 * logged, unless the save is given up.
 */
static bool
history_replace(const char *path, int (*write_draft) (int *fd))
{
	int			fd,
				error;

	(void) unlink(DRAFT_FILE);
	fd = OpenTransientFile(DRAFT_FILE, O_CREAT | O_EXCL | O_WRONLY | PG_BINARY);
	error = fd < 0 ? errno : write_draft(&fd);
	if (fd >= 0 && CloseTransientFile(fd) != 0 && error == 0)
		error = errno;
	if (error == 0 && durable_rename(DRAFT_FILE, path, DEBUG1) == 0)
		return true;
	error = error == 0 ? errno : error;
	(void) unlink(DRAFT_FILE);
	if (error == ECANCELED || !sp_may_log(SP_FAULT_SAVE))
		return false;
	errno = error;
	ereport(WARNING,
			(errcode_for_file_access(),
			 errmsg("could not write file \"%s\" for \"%s\": %m", DRAFT_FILE, path)));
	return false;
}

static pg_crc32c
history_checksum(const uint8 *bytes, Size length)
{
	pg_crc32c	crc;

	INIT_CRC32C(crc);
	COMP_CRC32C(crc, bytes, length);
	FIN_CRC32C(crc);
	return crc;
}

static int
history_write_directory(int *fd)
{
	uint8	   *bytes = palloc(MOST_DIRECTORY_BYTES);
	uint8	   *end = sp_put(bytes, DIRECTORY_MAGIC, 8);
	int			next = 0;
	Size		length;

	end = sp_put(end, GetSystemIdentifier(), 8);
	end = sp_put(sp_put(end, sp_latest, 8), sp_saved_position, 8);
	end = sp_directory_encode(&next, sp_device_count, sp_device_count, end);
	end = sp_put(end, history_checksum(bytes, end - bytes), 4);
	length = end - bytes;
	errno = ENOSPC;				/* a write that is short says nothing */
	return write(*fd, bytes, length) == (ssize_t) length && pg_fsync(*fd) == 0 ? 0 : errno;
}

/* Saves the directory, the latest time, and the position of the saved history. */
bool
sp_directory_save(void)
{
	return history_replace(DIRECTORY_FILE, history_write_directory);
}

/*
 * Writes a piece of a dump, unless the save is to end: where the server is to stop.  One that the
 * stop makes has a while, as it holds up a switchover.  What waits for all processes, as DROP
 * DATABASE, does not wait for the save.  No error may leave this.
 */
static int
history_write_piece(void *context, uint64_t no, const void *bytes, size_t length)
{
	MemoryContext old = CurrentMemoryContext;

	PG_TRY();
	{
		if (ProcSignalBarrierPending)
			ProcessProcSignalBarrier();
	}
	PG_CATCH();
	{
		MemoryContextSwitchTo(old);
		FlushErrorState();		/* it is processed at the next chance */
	}
	PG_END_TRY();
	errno = ENOSPC;				/* a write that is short says nothing */
	if (save_until > 0 ? sp_us() > save_until : ShutdownRequestPending)
		errno = ECANCELED;
	else if (pg_pwrite(*(int *) context, bytes, length, no) == (ssize_t) length)
		return 0;
	return save_error = errno;
}

static int
history_sync_dump(void *context)
{
	return pg_fsync(*(int *) context) == 0 ? 0 : (save_error = errno);
}

/* A save reads nothing. */
static int
history_read_nothing(void *context, uint64_t no, void *into, size_t length)
{
	return EIO;
}

static int
history_write_dump(int *fd)
{
	static const warm_device_ops calls = {.size = sizeof calls, .read = history_read_nothing,
	.write = history_write_piece, .sync = history_sync_dump};
	const warm_device file = {.ops = &calls, .context = fd};
	int			status;

	save_error = ENOMEM;		/* where no call fails */
	status = warm_save_to(&sp_history, &file);
	if (status == WARM_OK)
		return 0;
	if (save_error != ECANCELED)
		sp_note(status, "a save");
	return save_error;
}

/*
 * Saves directory and history.  The directory comes first: it never changes a number, so a newer
 * one fits an older history.  The position, up to which the history has what WAL says, comes last.
 */
void
sp_history_save(XLogRecPtr position)
{
	static uint64 cost = 0;		/* of the last save */
	uint64		begun = sp_us();

	save_error = 0;
	save_until = !ShutdownRequestPending ? 0 : cost < STOP_US ? begun + STOP_US : 1;
	if (sp_directory_save() && history_replace(HISTORY_FILE, history_write_dump))
	{
		cost = sp_us() - begun;
		sp_stats.saves++;
		sp_saved_position = position;
		(void) sp_directory_save();
	}
	else if (save_error != ECANCELED)
		sp_stats.save_failures++;
}

/* Opens a file for reading; -1 where there is none. */
static int
history_open_saved(const char *path)
{
	int			fd = OpenTransientFile(path, O_RDONLY | PG_BINARY);

	if (fd < 0 && errno != ENOENT)
		ereport(LOG,
				(errcode_for_file_access(), errmsg("could not open file \"%s\": %m", path)));
	return fd;
}

static bool
history_load_directory(void)
{
	uint8	   *bytes = palloc(MOST_DIRECTORY_BYTES);
	int			fd = history_open_saved(DIRECTORY_FILE);
	ssize_t		length;

	if (fd < 0)
		return false;
	length = read(fd, bytes, MOST_DIRECTORY_BYTES);
	CloseTransientFile(fd);
	if (length >= DIRECTORY_HEADER + 4 &&
		sp_get(bytes, 8) == DIRECTORY_MAGIC &&
		sp_get(bytes + 8, 8) == GetSystemIdentifier() &&
		history_checksum(bytes, length - 4) == sp_get(bytes + length - 4, 4) &&
		sp_directory_decode(bytes + DIRECTORY_HEADER, length - 4 - DIRECTORY_HEADER) == WARM_OK)
	{
		sp_latest = sp_get(bytes + 16, 8);
		sp_saved_position = sp_get(bytes + 24, 8);
		return true;
	}
	ereport(LOG,
			(errmsg("standby_prewarm does not use \"%s\": damaged, or of another cluster",
					DIRECTORY_FILE)));
	sp_directory_reset();
	return false;
}

/* Begins with what was saved.  Files that are damaged are left alone. */
void
sp_history_start(void)
{
	struct stat st;
	int			fd,
				status;

	history_open();
	sp_directory_reset();
	if (history_load_directory() && (fd = history_open_saved(HISTORY_FILE)) >= 0)
	{
		status = sp_note(fstat(fd, &st) != 0 ? WARM_DUMP_NOT_READ :
						 warm_load(&sp_history, fd, st.st_size), "a saved history");
		CloseTransientFile(fd);
		if (status != WARM_OK)
		{
			ereport(LOG,
					(errmsg("standby_prewarm does not use \"%s\": %s", HISTORY_FILE,
							sp_status_name(status))));
			sp_saved_position = InvalidXLogRecPtr;
		}
	}
	sp_history_bound();
}
