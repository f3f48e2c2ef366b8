/*
 * standby_prewarm.c
 *		Settings, shared memory, and the worker that owns the history.
 */
#include "postgres.h"

#include "access/xlog.h"
#include "miscadmin.h"
#include "pgstat.h"
#include "postmaster/interrupt.h"
#include "storage/fd.h"
#include "storage/ipc.h"
#include "utils/guc.h"
#include "utils/memutils.h"
#include "utils/pidfile.h"
#include "standby_prewarm.h"

PG_MODULE_MAGIC;

PGDLLEXPORT void _PG_init(void);
PGDLLEXPORT void standby_prewarm_main(Datum main_arg);

#define RESTART_SECONDS 5
#define SAVE_AGAIN_MS	10000
#define PUBLISH_AGAIN_MS 100	/* where more waits */
#define LOG_AGAIN_US	(300 * US_PER_S)

#define SHARE			9		/* what rests, rests so many times as long as it took */
#define MOST_REST_US	(600 * US_PER_S)	/* but no longer: the machine may have stood still */

SpShared   *sp_shared = NULL;
SpStats		sp_stats;

bool		sp_enabled,
			sp_load;
double		sp_fraction;
int			sp_sample_interval,
			sp_publish_interval,
			sp_full_interval,
			sp_publish_rate,
			sp_history_age,
			sp_history_pages,
			sp_load_interval,
			sp_load_rate,
			sp_load_after_start,
			sp_clock_tolerance;

static int	max_loaders;

static shmem_request_hook_type prev_shmem_request_hook = NULL;
static shmem_startup_hook_type prev_shmem_startup_hook = NULL;

typedef struct IntSetting
{
	int		   *value;
	const char *name;
	int			usual,
				least,
				most,
				unit;
	const char *what,
			   *more;
} IntSetting;

/* All by SIGHUP, but max_loaders.  The first four are a primary's. */
static const IntSetting int_settings[] = {
	{&sp_sample_interval, "standby_prewarm.sample_interval", 1000, 10, 3600 * 1000, GUC_UNIT_MS,
	"Sets the time between two samples of a primary's buffers."},
	{&sp_publish_interval, "standby_prewarm.publish_interval", 5000, 100, 3600 * 1000, GUC_UNIT_MS,
	"Sets the time between two publications of what changed."},
	{&sp_full_interval, "standby_prewarm.full_interval", 600, 1, 7 * 86400, GUC_UNIT_S,
	"Sets the time in which everything known is published once."},
	{&sp_publish_rate, "standby_prewarm.publish_rate", 1024, 1, 1024 * 1024, GUC_UNIT_KB,
	"Sets how much WAL is written for publications each second."},
	{&sp_history_age, "standby_prewarm.history_age", 1440, 0, PG_INT32_MAX / 60, GUC_UNIT_MIN,
	"Sets after which time without a reference a page is forgotten.", "0 means never."},
	{&sp_history_pages, "standby_prewarm.history_pages", 0, 0, PG_INT32_MAX / 2, GUC_UNIT_BLOCKS,
		"Sets how many pages are known at most.",
		"0 means four times shared_buffers on a primary, 10 million at most, and on a standby "
	"what its primary knows."},
	{&sp_load_interval, "standby_prewarm.load_interval", 1000, 10, 3600 * 1000, GUC_UNIT_MS,
	"Sets the time between two rounds of loading."},
	{&sp_load_rate, "standby_prewarm.load_rate", -1, -1, PG_INT32_MAX / 2, GUC_UNIT_BLOCKS,
		"Sets how many pages a standby reads each second at most.",
	"-1 means a hundredth of shared_buffers, and 2000 pages at least."},
	{&sp_load_after_start, "standby_prewarm.load_after_start", 300, 0, 86400, GUC_UNIT_S,
	"Sets for how long a primary that starts loads the pages that it knew."},
	{&sp_clock_tolerance, "standby_prewarm.clock_tolerance", 600, 1, 7 * 86400, GUC_UNIT_S,
	"Sets how far ahead of this server's clock a time in a message is believed."},
	{&max_loaders, "standby_prewarm.max_loaders", 4, 1, SP_MOST_LOADERS, 0,
		"Sets how many databases are loaded at the same time.",
	"Each loader is one of max_worker_processes."},
};

static void
define_settings(void)
{
	DefineCustomBoolVariable("standby_prewarm.enabled", "Whether standby_prewarm does anything.",
							 NULL, &sp_enabled, true, PGC_SIGHUP, 0, NULL, NULL, NULL);
	DefineCustomBoolVariable("standby_prewarm.load", "Whether a standby loads pages.", NULL,
							 &sp_load, true, PGC_SIGHUP, 0, NULL, NULL, NULL);
	DefineCustomRealVariable("standby_prewarm.fraction",
							 "Sets the share of shared_buffers that a standby keeps warm.", NULL,
							 &sp_fraction, 0.5, 0.0, 1.0, PGC_SIGHUP, 0, NULL, NULL, NULL);
	for (int i = 0; i < lengthof(int_settings); i++)
	{
		const IntSetting *s = &int_settings[i];

		DefineCustomIntVariable(s->name, s->what, s->more, s->value, s->usual, s->least, s->most,
								s->value == &max_loaders ? PGC_POSTMASTER : PGC_SIGHUP, s->unit,
								NULL, NULL, NULL);
	}
	MarkGUCPrefixReserved(SP_NAME);
}

static Size
shared_size(void)
{
	return add_size(offsetof(SpShared, loaders), mul_size(sizeof(SpLoader), max_loaders));
}

static void
request_shared(void)
{
	if (prev_shmem_request_hook)
		prev_shmem_request_hook();
	RequestAddinShmemSpace(shared_size());
	RequestNamedLWLockTranche(SP_NAME, 1);
}

static void
start_shared(void)
{
	bool		found;

	if (prev_shmem_startup_hook)
		prev_shmem_startup_hook();
	LWLockAcquire(AddinShmemInitLock, LW_EXCLUSIVE);
	sp_shared = ShmemInitStruct(SP_NAME, shared_size(), &found);
	if (!found)
	{
		memset(sp_shared, 0, shared_size());
		sp_shared->lock = &(GetNamedLWLockTranche(SP_NAME))->lock;
		sp_shared->loader_count = max_loaders;
	}
	LWLockRelease(AddinShmemInitLock);
}

/* Describes a worker of this library, which is connected and runs on a standby too. */
void
sp_describe_worker(BackgroundWorker *worker, const char *function, const char *name)
{
	memset(worker, 0, sizeof *worker);
	worker->bgw_flags = BGWORKER_SHMEM_ACCESS | BGWORKER_BACKEND_DATABASE_CONNECTION;
	worker->bgw_start_time = BgWorkerStart_ConsistentState;
	strlcpy(worker->bgw_library_name, SP_NAME, BGW_MAXLEN);
	strlcpy(worker->bgw_function_name, function, BGW_MAXLEN);
	strlcpy(worker->bgw_name, name, BGW_MAXLEN);
}

/* Waits at most so long, and with 0 not at all; true where the settings may be others then. */
bool
sp_wait(long milliseconds)
{
	(void) WaitLatch(MyLatch, WL_LATCH_SET | WL_TIMEOUT | WL_EXIT_ON_PM_DEATH, milliseconds,
					 PG_WAIT_EXTENSION);
	ResetLatch(MyLatch);
	CHECK_FOR_INTERRUPTS();
	if (!ConfigReloadPending)
		return false;
	ConfigReloadPending = false;
	ProcessConfigFile(PGC_SIGHUP);
	return true;
}

void
_PG_init(void)
{
	BackgroundWorker worker;

	if (!process_shared_preload_libraries_in_progress)
		return;
	define_settings();
	prev_shmem_request_hook = shmem_request_hook;
	shmem_request_hook = request_shared;
	prev_shmem_startup_hook = shmem_startup_hook;
	shmem_startup_hook = start_shared;

	sp_describe_worker(&worker, "standby_prewarm_main", SP_NAME);
	worker.bgw_restart_time = RESTART_SECONDS;
	RegisterBackgroundWorker(&worker);
}

static XLogRecPtr saved_redo;	/* of the checkpoint at which the history was saved last */
static uint64 sample_at,
			publish_at,
			round_at,
			save_at;			/* when they are due */
static uint64 warming_until;

/* Microseconds of a clock that nobody sets: what the worker waits by. */
uint64
sp_us(void)
{
	instr_time	now;

	INSTR_TIME_SET_CURRENT(now);
	return INSTR_TIME_GET_MICROSEC(now);
}

/* Whether a fault is to be logged now: each at most once in five minutes, by whichever process. */
bool
sp_may_log(int fault)
{
	uint64		now = sp_us();
	bool		may;

	LWLockAcquire(sp_shared->lock, LW_EXCLUSIVE);
	may = sp_shared->logged_at[fault] == 0 || now - sp_shared->logged_at[fault] >= LOG_AGAIN_US;
	if (may)
		sp_shared->logged_at[fault] = now;
	LWLockRelease(sp_shared->lock);
	return may;
}

/* When work that began then is to be done again: after its rest at least. */
static uint64
next_time(uint64 begun, int interval)
{
	uint64		now = sp_us();

	return Max(begun + interval * UINT64CONST(1000),
			   now + Min((now - begun) * SHARE, MOST_REST_US));
}

static void
release_worker(int code, Datum arg)
{
	LWLockReleaseAll();			/* an error may have come below ours */
	LWLockAcquire(sp_shared->lock, LW_EXCLUSIVE);
	sp_shared->latch = NULL;
	LWLockRelease(sp_shared->lock);
}

/* Begins to sample, once all WAL that is left was read, so that no number is given twice. */
static void
begin_primary(void)
{
	while (sp_enabled && !ShutdownRequestPending && sp_receive())
		(void) sp_wait(0);		/* which ends the worker where the postmaster has ended */
	if (!ShutdownRequestPending)
		sp_receive_stop();
	sp_stats.primary_known = -1;
	sp_sample_reset();
	sp_publish_reset();
}

/* Up to where the history has what WAL says: all of it, where a primary goes on. */
static XLogRecPtr
known_position(void)
{
	return !XLogRecPtrIsInvalid(sp_received) ? sp_received :
		ShutdownRequestPending ? GetXLogInsertRecPtr() : GetRedoRecPtr();
}

/* A primary that started loads what it knew, until there is no free buffer. */
static void
warm_primary(void)
{
	uint64		now = sp_us();

	if (now < warming_until && sp_load && have_free_buffer())
	{
		if (now < round_at)
			return;
		sp_round();
		round_at = next_time(now, sp_load_interval);
		if (sp_stats.resident < sp_stats.wanted)
			return;
	}
	sp_stats.is_warming = false;
	if (sp_stats.wanted > 0)
		ereport(LOG,
				(errmsg("standby_prewarm has warmed a primary: " INT64_FORMAT " of " INT64_FORMAT
						" wanted pages are resident", sp_stats.resident, sp_stats.wanted)));
	sp_rank_reset();			/* the loaders end by themselves */
}

/* Begins, with what was saved.  A promotion from now on is seen by the first turn. */
static void
start_worker(void)
{
	sp_stats.is_standby = RecoveryInProgress();
	sp_stats.is_warming = !sp_stats.is_standby && sp_load_after_start > 0;
	sp_stats.primary_known = -1;
	sp_stats.stats_reset = GetCurrentTimestamp();
	LWLockAcquire(sp_shared->lock, LW_EXCLUSIVE);
	sp_shared->latch = MyLatch;
	sp_shared->epoch++;
	sp_shared->stats = sp_stats;
	LWLockRelease(sp_shared->lock);
	sp_history_start();
	sp_rank_reset();
	/* what was published since the save, also by others */
	sp_receive_start(sp_stats.is_standby || XLogRecPtrIsInvalid(sp_saved_position) ?
					 GetRedoRecPtr() : sp_saved_position, sp_stats.is_standby);
	if (!sp_stats.is_standby)
		begin_primary();
	warming_until = sp_us() + sp_load_after_start * US_PER_S;
	saved_redo = GetRedoRecPtr();
	ereport(LOG, (errmsg("standby_prewarm started on a %s, with " INT64_FORMAT " pages known",
						 sp_stats.is_standby ? "standby" : "primary", sp_stats.known)));
}

/* The standby was promoted: the worker goes on as the sampler. */
static void
become_primary(void)
{
	ereport(LOG, (errmsg("standby_prewarm was promoted: " INT64_FORMAT " pages known, " INT64_FORMAT
						 " of " INT64_FORMAT " wanted pages resident", sp_stats.known,
						 sp_stats.resident, sp_stats.wanted)));
	sp_rank_reset();			/* the loaders end by themselves */
	sp_stats.is_standby = false;
	begin_primary();
}

/* Does what is due; returns when something is due next. */
static uint64
primary_turn(void)
{
	uint64		now = sp_us();

	if (now >= sample_at)
	{
		int			interval = sp_sample() ? sp_sample_interval : 0;

		sp_history_bound();
		sample_at = next_time(now, interval);
	}
	now = sp_us();
	if (now >= publish_at)
		publish_at = next_time(now, sp_publish() ? Min(PUBLISH_AGAIN_MS, sp_publish_interval) :
							   sp_publish_interval);
	if (sp_stats.is_warming)
		warm_primary();
	return Min(Min(sample_at, publish_at), sp_stats.is_warming ? round_at : publish_at);
}

static uint64
standby_turn(void)
{
	bool		more = sp_receive();
	uint64		now = sp_us();

	sp_history_bound();			/* also while it catches up */
	if (now >= round_at)
	{
		sp_round();
		round_at = next_time(now, sp_load_interval);
	}
	return more ? now : round_at;
}

/* One turn; returns for how many milliseconds the worker may sleep, a second at most. */
static long
take_turn(void)
{
	uint64		next = sp_us() + US_PER_S;
	uint64		now;
	bool		reset_wanted;

	if (sp_stats.is_standby && !RecoveryInProgress())
		become_primary();
	if (sp_enabled)
		next = Min(next, sp_stats.is_standby ? standby_turn() : primary_turn());
	else if (!sp_stats.is_standby)
		sp_sample_reset();		/* what comes in meanwhile is no reference */
	now = sp_us();
	if (GetRedoRecPtr() != saved_redo && now >= save_at)
	{
		saved_redo = GetRedoRecPtr();	/* a checkpoint, or a restartpoint */
		sp_history_save(known_position());
		save_at = next_time(now, SAVE_AGAIN_MS);
	}
	LWLockAcquire(sp_shared->lock, LW_EXCLUSIVE);
	sp_shared->stats = sp_stats;
	reset_wanted = sp_shared->reset_wanted;
	sp_shared->reset_wanted = false;
	LWLockRelease(sp_shared->lock);
	if (reset_wanted)
		sp_history_reset("standby_prewarm_reset was called");
	now = sp_us();
	return now < next ? (long) ((next - now) / 1000 + 1) : 0;
}

/* Whether the whole server stops, as its lock file says, and not this worker alone. */
static bool
is_server_stopping(void)
{
	FILE	   *file = AllocateFile("postmaster.pid", "r");
	char		line[MAXPGPATH] = "";
	int			number = 0;

	if (file == NULL)
		return false;
	while (number < LOCK_FILE_LINE_PM_STATUS && fgets(line, sizeof line, file) != NULL)
		number++;
	FreeFile(file);
	return number == LOCK_FILE_LINE_PM_STATUS &&
		strncmp(line, PM_STATUS_STOPPING, strlen(PM_STATUS_STOPPING)) == 0;
}

/*
 * The worker.  It is connected to no database, so it can neither hold one back from being dropped
 * nor read its catalogs.  An error ends it; the postmaster starts it again, with the history that
 * was saved last.
 */
void
standby_prewarm_main(Datum main_arg)
{
	MemoryContext context;

	pqsignal(SIGHUP, SignalHandlerForConfigReload);
	pqsignal(SIGTERM, SignalHandlerForShutdownRequest);
	pqsignal(SIGINT, SIG_IGN);	/* a cancel would cost what was learned since the last save */
	BackgroundWorkerUnblockSignals();
	BackgroundWorkerInitializeConnection(NULL, NULL, 0);
	before_shmem_exit(release_worker, (Datum) 0);
	context = AllocSetContextCreate(TopMemoryContext, SP_NAME, ALLOCSET_DEFAULT_SIZES);
	MemoryContextSwitchTo(context);
	start_worker();
	while (!ShutdownRequestPending)
	{
		if (sp_wait(take_turn()))
			sample_at = publish_at = round_at = 0;	/* the intervals may be others */
		MemoryContextReset(context);
	}
	sp_history_save(known_position());
	/* With 1 it starts again, and the log has a line. */
	proc_exit(is_server_stopping() ? 0 : 1);
}
