/*
 * loader.c
 *		The worker that reads the pages of one database.
 *
 * It reads a batch file by file, in short transactions, under a lock that no drop or truncation
 * passes.  DESIGN.md says who waits for whom.
 */
#include "postgres.h"

#include "access/relation.h"
#include "access/xact.h"
#include "access/xlog.h"
#include "miscadmin.h"
#include "pgstat.h"
#include "postmaster/interrupt.h"
#include "storage/ipc.h"
#include "storage/lmgr.h"
#include "tcop/tcopprot.h"
#include "utils/guc.h"
#include "utils/snapmgr.h"
#include "standby_prewarm.h"

#define PAGES_A_LOCK	32
#define IDLE_MS			1000
#define IDLE_TURNS		10
#define MOST_BATCHES	1000	/* of a loader, whose cache of relations grows */
#define BATCH_US		US_PER_S	/* of a primary's loader, however slow its reads */

PGDLLEXPORT void standby_prewarm_loader_main(Datum main_arg);

/* A locked catalog is waited for no longer.  By the others a database's owner could end a loader. */
static const char *const settings[][2] = {
	{"lock_timeout", "1000"}, {"exit_on_error", "off"}, {"transaction_timeout", "0"}
};

static SpLoader *slot;
static uint64 epoch;
static bool is_connected = false;
static SpRequest *reading;		/* the page that is read, NULL where none is */
static SpRequest batch[SP_BATCH];
static uint64 batch_until;		/* when a primary's loader leaves what it has not read */

/* By device and file, in any order, and then by block. */
static int
loader_by_page(const void *a, const void *b)
{
	const SpPage *x = &((const SpRequest *) a)->page;
	const SpPage *y = &((const SpRequest *) b)->page;
	int			order = memcmp(x, y, offsetof(SpPage, block));

	return order != 0 ? order : x->block < y->block ? -1 : x->block > y->block;
}

/*
 * Reads pages of one fork of a relation that is locked, while there is time.  The system is asked
 * for the next ones, too: storage takes them together.
 */
static void
loader_read_pages(Relation relation, SpRequest *some, int count)
{
	ForkNumber	fork = some->page.device.fork;
	BlockNumber blocks = 0;
	int			asked = 0;

	if (smgrexists(RelationGetSmgr(relation), fork))
		blocks = smgrnblocks(RelationGetSmgr(relation), fork);
	for (int i = 0; i < count && sp_us() < batch_until; i++)
	{
		BlockNumber block = some[i].page.block;

		for (; asked < count && asked <= i + maintenance_io_concurrency; asked++)
			if (some[asked].page.block < blocks)
				(void) PrefetchBuffer(relation, fork, some[asked].page.block);
		if (block >= blocks)
		{
			some[i].outcome = SP_NO_BLOCK;
			continue;
		}
		reading = &some[i];
		ReleaseBuffer(ReadBufferExtended(relation, fork, block, RBM_NORMAL, NULL));
		some[i].outcome = SP_LOADED;
		reading = NULL;
		CHECK_FOR_INTERRUPTS();
	}
}

/* Reads pages of one file, in a transaction; returns why those fail that were not looked at. */
static SpOutcome
loader_read_file(SpRequest *some, int count)
{
	Oid			relid = RelidOfFile(some->page.device.space, some->page.file);
	Relation	relation;
	SpOutcome	rest = SP_NO_FILE;

	if (!OidIsValid(relid))
		return SP_NO_FILE;
	if (!ConditionalLockRelationOid(relid, AccessShareLock))
		return SP_BUSY;
	relation = try_relation_open(relid, NoLock);
	if (relation == NULL)
	{
		UnlockRelationOid(relid, AccessShareLock);
		return SP_NO_FILE;
	}
	/* Reads under the catalogs' snapshot would conflict with replay. */
	InvalidateCatalogSnapshotConditionally();
	/* The relation may have got another file before it was locked. */
	if (RelationFile(relation) == some->page.file &&
		RelationSpace(relation) == some->page.device.space)
	{
		loader_read_pages(relation, some, count);
		rest = SP_WAITING;		/* those are handed out again */
	}
	relation_close(relation, AccessShareLock);
	return rest;
}

/* Says why a page was not read, unless the read was a conflict with replay. */
static void
loader_log_error(const ErrorData *error, bool cancelled, const SpPage *page)
{
	ereport(!cancelled && sp_may_log(SP_FAULT_READ) ? WARNING : DEBUG1,
			(errcode(error->sqlerrcode),
			 errmsg("standby_prewarm could not read a page: %s", error->message),
			 errdetail("It is block %u of fork %d of file %u in tablespace %u and database %u.",
					   page->block, page->device.fork, page->file, page->device.space,
					   page->device.database)));
}

/* The same, where an error costs these pages and nothing else. */
static void
loader_try_file(SpRequest *some, int count)
{
	MemoryContext context = CurrentMemoryContext;
	volatile SpOutcome rest = SP_FAILED;

	reading = NULL;
	PG_TRY();
	{
		SetCurrentStatementStartTimestamp();
		StartTransactionCommand();
		rest = loader_read_file(some, count);
		CommitTransactionCommand();
	}
	PG_CATCH();
	{
		ErrorData  *error;
		bool		cancelled;

		MemoryContextSwitchTo(context);
		error = CopyErrorData();
		FlushErrorState();
		AbortCurrentTransaction();
		cancelled = error->sqlerrcode == ERRCODE_LOCK_NOT_AVAILABLE ||
			ERRCODE_TO_CATEGORY(error->sqlerrcode) == ERRCODE_TRANSACTION_ROLLBACK;
		if (reading != NULL && !cancelled)
			reading->outcome = SP_FAILED;
		if (error->sqlerrcode == ERRCODE_LOCK_NOT_AVAILABLE)
			rest = SP_BUSY;
		else if (reading != NULL || cancelled)
			rest = SP_WAITING;
		loader_log_error(error, cancelled, reading != NULL ? &reading->page : &some->page);
		FreeErrorData(error);
	}
	PG_END_TRY();
	QueryCancelPending = false; /* a late one is of the transaction that ended */
	MemoryContextSwitchTo(context);
	for (int i = 0; i < count; i++)
		if (some[i].outcome == SP_WAITING)
			some[i].outcome = rest;
}

/* Whether the worker that started this loader is there, and wants it. */
static bool
loader_is_needed(void)
{
	bool		needed;

	LWLockAcquire(sp_shared->lock, LW_SHARED);
	needed = sp_shared->epoch == epoch && (sp_shared->stats.is_warming || RecoveryInProgress());
	LWLockRelease(sp_shared->lock);
	return needed;
}

/* A primary's loader ends in time for a DROP DATABASE, which waits five seconds for it. */
static void
loader_read_batch(uint32 count)
{
	batch_until = RecoveryInProgress() ? PG_UINT64_MAX : sp_us() + BATCH_US;
	qsort(batch, count, sizeof(SpRequest), loader_by_page);
	for (uint32 i = 0, next; i < count && sp_us() < batch_until && loader_is_needed(); i = next)
	{
		next = i + 1;
		while (next < count && next - i < PAGES_A_LOCK &&
			   memcmp(&batch[i].page, &batch[next].page, offsetof(SpPage, block)) == 0)
			next++;
		CHECK_FOR_INTERRUPTS();
		loader_try_file(&batch[i], next - i);
	}
}

/* Takes the batch of the slot, where there is one. */
static uint32
loader_take_batch(void)
{
	uint32		count = 0;

	LWLockAcquire(sp_shared->lock, LW_SHARED);
	if (sp_shared->epoch == epoch && slot->state == SP_SLOT_FULL)
	{
		count = slot->count;
		memcpy(batch, slot->pages, count * sizeof(SpRequest));
	}
	LWLockRelease(sp_shared->lock);
	return count;
}

static void
loader_give_outcomes(uint32 count, uint64 took_us)
{
	LWLockAcquire(sp_shared->lock, LW_EXCLUSIVE);
	if (sp_shared->epoch == epoch)
	{
		memcpy(slot->pages, batch, count * sizeof(SpRequest));
		slot->took_us = took_us;
		slot->state = SP_SLOT_DONE;
	}
	LWLockRelease(sp_shared->lock);
}

/*
 * Gives the slot back.  Where the loader could not connect its batch stays, by which the worker
 * sees it, and so do outcomes that were not read yet.
 */
static void
loader_release_slot(int code, Datum arg)
{
	LWLockAcquire(sp_shared->lock, LW_EXCLUSIVE);
	if (sp_shared->epoch == epoch)
	{
		slot->latch = NULL;
		if (is_connected && slot->state != SP_SLOT_DONE)
			slot->state = SP_SLOT_IDLE;
		slot->database = InvalidOid;	/* it gets no further batch */
	}
	LWLockRelease(sp_shared->lock);
}

/* Connects to the database of the slot. */
static void
loader_begin(int number)
{
	Oid			database;

	memcpy(&epoch, MyBgworkerEntry->bgw_extra, sizeof epoch);
	slot = &sp_shared->loaders[number];
	before_shmem_exit(loader_release_slot, (Datum) 0);
	LWLockAcquire(sp_shared->lock, LW_EXCLUSIVE);
	database = sp_shared->epoch == epoch ? slot->database : InvalidOid;
	if (OidIsValid(database))
		slot->latch = MyLatch;
	LWLockRelease(sp_shared->lock);
	if (!OidIsValid(database))
		proc_exit(0);			/* the slot is another's by now */
	for (int i = 0; i < lengthof(settings); i++)
		if (GetConfigOption(settings[i][0], true, false) != NULL)
			SetConfigOption(settings[i][0], settings[i][1], PGC_SUSET, PGC_S_OVERRIDE);
	BackgroundWorkerInitializeConnectionByOid(database, InvalidOid, BGWORKER_BYPASS_ALLOWCONN);
	is_connected = true;
}

void
standby_prewarm_loader_main(Datum main_arg)
{
	pqsignal(SIGTERM, die);
	pqsignal(SIGHUP, SignalHandlerForConfigReload);
	BackgroundWorkerUnblockSignals();
	loader_begin(DatumGetInt32(main_arg));
	for (int idle = 1, batches = 0; loader_is_needed(); idle++)
	{
		uint32		count = loader_take_batch();
		uint64		begun = sp_us();

		if (count > 0)
		{
			pgstat_report_activity(STATE_RUNNING, "standby_prewarm reads pages");
			loader_read_batch(count);
			pgstat_report_activity(STATE_IDLE, NULL);
			loader_give_outcomes(count, sp_us() - begun);
			(void) pgstat_report_stat(false);
			idle = 0;
			batches++;
		}
		/* a primary's does not stay: DROP DATABASE waits for it */
		if (idle == IDLE_TURNS || batches == MOST_BATCHES || sp_shared->stats.others_wait ||
			!RecoveryInProgress())
			break;
		(void) sp_wait(IDLE_MS);
	}
	proc_exit(0);
}
