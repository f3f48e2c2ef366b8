/*
 * rank.c
 *		Which pages a standby wants, has, touches and loads.
 *
 * A round ranks the history, looks which of the pages are in the buffers, and goes through them,
 * the hottest first.  One that is resident is touched.  One that is missing goes to the loader of
 * its database.
 */
#include "postgres.h"

#include <sys/stat.h>

#include "common/relpath.h"
#include "miscadmin.h"
#include "port/pg_bitutils.h"
#include "utils/memutils.h"
#include "standby_prewarm.h"

/* For how long a page that cannot be read is left alone, and a locked file. */
#define FORGIVE_US		(300 * US_PER_S)
#define BUSY_US			(10 * US_PER_S)
#define MOST_UNLOADABLE 65536
#define LEAST_RATE		2000	/* pages a second that are read by default */
#define BUFFERS_OF_REPLAY 256	/* that are kept for it at least */
#define NO_SLOT			(-1)
#define NOT_AGAIN		(-2)

/* Pages; without a block whole files; and without a file too, all of a device. */
typedef struct Unloadable
{
	SpPage		page;			/* the key */
	uint64		until;
} Unloadable;

static HTAB *unloadable = NULL;
static uint64 round_at;			/* when the last round began */
static double load_allowance;	/* pages that may be read now */
static bool is_warm;
static bool is_filling;			/* each round found a free buffer */

/* The ranking: it is made again where the history has changed. */
static MemoryContext ranking = NULL;
static warm_page *listed;		/* the hottest first */
static Size listed_count,
			listed_room;
static int64 listed_messages,
			listed_resets;		/* of the history that was ranked */
static uint32 *places;			/* a hash table: ranks plus 1; 0 is free */
static uint64 places_mask;
static int *buffers;			/* by rank: the page's buffer plus 1; 0: missing */

/* The worker's side of a loader's slot. */
typedef struct Slot
{
	BackgroundWorkerHandle *handle; /* of its loader, NULL where none runs */
	Oid			database;		/* InvalidOid: the slot is vacant */
	Oid			left_by;		/* the database whose loader ended last */
	bool		takes;			/* it gets pages in this round */
} Slot;

static Slot slots[SP_MOST_LOADERS];
static Oid	resident_database;	/* one that had a page in a buffer in the round before */
static bool others_waited;		/* in the round before a database has found no slot */

static void
rank_forget_unloadable(void)
{
	HASHCTL		control = {.keysize = sizeof(SpPage), .entrysize = sizeof(Unloadable),
	.hcxt = TopMemoryContext};

	if (unloadable != NULL)
		hash_destroy(unloadable);
	unloadable = hash_create("standby_prewarm unloadable pages", 256, &control,
							 HASH_ELEM | HASH_BLOBS | HASH_CONTEXT);
}

/* Whether a page is left alone, or its file, or its device. */
static bool
rank_is_unloadable(const SpPage *page)
{
	SpPage		key = *page;

	for (int i = 0; i < 3 && hash_get_num_entries(unloadable) > 0; i++)
	{
		const Unloadable *found;

		if (i > 0)
			key.block = InvalidBlockNumber;
		if (i > 1)
			key.file = InvalidOid;
		found = hash_search(unloadable, &key, HASH_FIND, NULL);
		if (found != NULL && found->until > round_at)
			return true;
		if (found != NULL)
			hash_search(unloadable, &key, HASH_REMOVE, NULL);
	}
	return false;
}

/*
 * Notes what a loader read of its batch, and what it could not read.  Where it took no batch, it
 * could not connect, and nobody can load its database; what is of shared catalogs goes to another
 * loader soon.
 */
static void
rank_note_batch(const SpLoader *loader, bool is_taken)
{
	sp_stats.read_us += is_taken ? loader->took_us : 0;
	for (uint32 i = 0; i < loader->count; i++)
	{
		SpPage		key = loader->pages[i].page;
		Unloadable *entry;
		uint8		outcome = is_taken ? loader->pages[i].outcome :
			OidIsValid(key.device.database) ? SP_NO_DATABASE : SP_BUSY;

		sp_stats.pages_read += outcome == SP_LOADED;
		sp_stats.pages_failed += outcome == SP_FAILED;
		if (outcome < SP_BUSY)
			continue;
		if (outcome == SP_NO_DATABASE)
			key.file = InvalidOid;
		if (outcome <= SP_NO_DATABASE)
			key.block = InvalidBlockNumber;
		if (hash_get_num_entries(unloadable) >= MOST_UNLOADABLE)
			rank_forget_unloadable();
		entry = hash_search(unloadable, &key, HASH_ENTER, NULL);
		entry->until = round_at + (outcome == SP_BUSY ? BUSY_US : FORGIVE_US);
	}
}

/* Empties a slot; with ended, it is vacant, too. */
static void
rank_clear_slot(int i, bool ended)
{
	SpLoader   *loader = &sp_shared->loaders[i];

	LWLockAcquire(sp_shared->lock, LW_EXCLUSIVE);
	loader->state = SP_SLOT_IDLE;
	loader->count = 0;
	if (ended)
	{
		slots[i].left_by = slots[i].database;
		slots[i].database = loader->database = InvalidOid;
		loader->latch = NULL;
	}
	LWLockRelease(sp_shared->lock);
}

/* Forgets what an earlier worker left: its loaders end by the new epoch. */
void
sp_rank_reset(void)
{
	memset(slots, 0, sizeof slots);
	for (int i = 0; i < sp_shared->loader_count; i++)
		rank_clear_slot(i, true);
	if (ranking == NULL)
		ranking = AllocSetContextCreate(TopMemoryContext, "standby_prewarm ranking",
										ALLOCSET_DEFAULT_SIZES);
	MemoryContextReset(ranking);
	listed = NULL;
	rank_forget_unloadable();
	round_at = sp_us();
	load_allowance = 0;
	is_warm = false;
	is_filling = true;
	sp_stats.wanted = sp_stats.resident = sp_stats.unloadable = 0;
}

/*
 * Notes what the loader of a slot answered, and whether the slot takes pages.  A batch is the
 * worker's but while its slot is full.
 */
static void
rank_open_slot(int i)
{
	SpLoader   *loader = &sp_shared->loaders[i];
	SpSlotState state;
	bool		ended = false;
	pid_t		pid;

	if (slots[i].handle != NULL && GetBackgroundWorkerPid(slots[i].handle, &pid) == BGWH_STOPPED)
	{
		pfree(slots[i].handle);
		slots[i].handle = NULL;
		ended = true;
	}
	LWLockAcquire(sp_shared->lock, LW_SHARED);
	state = loader->state;
	LWLockRelease(sp_shared->lock);
	slots[i].takes = state != SP_SLOT_FULL || ended;
	if (!slots[i].takes)
		return;
	if (state != SP_SLOT_IDLE)
		rank_note_batch(loader, state == SP_SLOT_DONE);
	rank_clear_slot(i, ended);
}

/*
 * The slot of a database, or one that is vacant; else NO_SLOT.  Where databases wait, one does not
 * get the slot again that it has just left: NOT_AGAIN, for a round.  It does not wait then, else it
 * would be kept away for ever where no other comes.  Pages of shared catalogs (of no database) may
 * go to any loader.
 */
static int
rank_slot_of(Oid database)
{
	int			slot = NO_SLOT;

	for (int i = 0; i < sp_shared->loader_count; i++)
	{
		Oid			of = slots[i].database;

		if (OidIsValid(of) && (of == database || !OidIsValid(database)))
			return i;
		if (!OidIsValid(of) && slots[i].handle == NULL && slot < 0)
			slot = others_waited && slots[i].left_by == database ? NOT_AGAIN : i;
	}
	return slot;
}

/* Keeps a page for a loader; false where none takes it now. */
static bool
rank_hand_out(const SpPage *page)
{
	Oid			database = page->device.database;
	int			i = rank_slot_of(database);
	SpLoader   *loader;

	if (i == NO_SLOT)
		sp_stats.others_wait |= OidIsValid(database);
	if (i < 0 || !slots[i].takes)
		return false;
	if (!OidIsValid(slots[i].database))
		slots[i].database = OidIsValid(database) ? database : resident_database;
	loader = &sp_shared->loaders[i];
	if (!OidIsValid(slots[i].database) || loader->count == SP_BATCH)
		return false;
	loader->pages[loader->count].page = *page;
	loader->pages[loader->count++].outcome = SP_WAITING;
	return true;
}

/*
 * Whether there is a folder of the database: else a loader would fail.  Pages of shared catalogs
 * alone go to a database that is there.
 */
static bool
rank_has_database(const SpLoader *loader)
{
	Oid			seen = InvalidOid;

	for (uint32 i = 0; i < loader->count; i++)
	{
		const SpDevice *device = &loader->pages[i].page.device;
		struct stat st;

		if (device->database != loader->database || device->space == seen)
			continue;
		seen = device->space;
		if (stat(GetDatabasePath(device->database, seen), &st) == 0)
			return true;
	}
	return !OidIsValid(seen);
}

/* Starts the loader of a slot; false where there is no process for it. */
static bool
rank_start_loader(int i)
{
	MemoryContext old = MemoryContextSwitchTo(TopMemoryContext);
	BackgroundWorker worker;
	bool		started;

	sp_describe_worker(&worker, "standby_prewarm_loader_main", "standby_prewarm loader");
	worker.bgw_restart_time = BGW_NEVER_RESTART;
	worker.bgw_main_arg = Int32GetDatum(i);
	memcpy(worker.bgw_extra, &sp_shared->epoch, sizeof sp_shared->epoch);
	started = RegisterDynamicBackgroundWorker(&worker, &slots[i].handle);
	MemoryContextSwitchTo(old);
	if (!started && sp_may_log(SP_FAULT_WORKERS))
		ereport(WARNING,
				(errcode(ERRCODE_CONFIGURATION_LIMIT_EXCEEDED),
				 errmsg("standby_prewarm has no worker process for a loader"),
				 errhint("You might need to increase \"max_worker_processes\".")));
	return started;
}

/* Lets a loader have its batch.  One that ended meanwhile has left its slot. */
static void
rank_send_batch(int i)
{
	SpLoader   *loader = &sp_shared->loaders[i];
	bool		starts = slots[i].handle == NULL;
	bool		sent;

	LWLockAcquire(sp_shared->lock, LW_EXCLUSIVE);
	sent = starts || loader->database == slots[i].database;
	if (sent)
	{
		loader->database = slots[i].database;
		loader->state = SP_SLOT_FULL;
		if (loader->latch != NULL)
			SetLatch(loader->latch);
	}
	LWLockRelease(sp_shared->lock);
	if (!sent || !starts)
		return;
	if (!rank_has_database(loader))
		rank_note_batch(loader, false);
	else if (rank_start_loader(i))
		return;
	rank_clear_slot(i, true);
}

/* How many pages are to be warm: all, until no buffer is free.  The smallest pools have no room. */
static Size
rank_most_wanted(void)
{
	bool		all = sp_stats.is_warming || (is_filling && sp_fraction > 0);
	double		fraction = all ? 1.0 : sp_fraction;

	return Min((Size) (fraction * NBuffers), (Size) Max(NBuffers - BUFFERS_OF_REPLAY, 0));
}

/* Where a page has its place in the table, or may have it. */
static inline uint32 *
rank_place_of(warm_page page)
{
	uint64		at = (page.no * 31 + page.dev + 1) * UINT64CONST(0x9e3779b97f4a7c15) >> 31;

	for (at &= places_mask; places[at] != 0; at = (at + 1) & places_mask)
		if (listed[places[at] - 1].no == page.no && listed[places[at] - 1].dev == page.dev)
			break;
	return &places[at];
}

/* Lists the hottest pages, where the history has changed since the last time. */
static void
rank_list_pages(void)
{
	Size		room = Min(rank_most_wanted() * 2, (Size) sp_stats.known);

	if (listed != NULL && room == listed_room && sp_stats.resets == listed_resets &&
		sp_stats.messages_received == listed_messages)
		return;
	MemoryContextReset(ranking);
	listed = NULL;
	listed = MemoryContextAllocHuge(ranking, room * sizeof(warm_page));
	listed_count = 0;
	if (room > 0)
		sp_note(warm_list(&sp_history, listed, room, &listed_count), "a ranking");
	places_mask = pg_nextpower2_64(Max(listed_count, 1) * 2) - 1;
	places = MemoryContextAllocExtended(ranking, (places_mask + 1) * sizeof(uint32),
										MCXT_ALLOC_HUGE | MCXT_ALLOC_ZERO);
	buffers = MemoryContextAllocHuge(ranking, listed_count * sizeof(int));
	for (Size i = 0; i < listed_count; i++)
		*rank_place_of(listed[i]) = (uint32) i + 1;
	listed_room = room;
	listed_messages = sp_stats.messages_received;
	listed_resets = sp_stats.resets;
	sp_stats.rankings++;
}

/* Looks in which buffers the listed pages are. */
static void
rank_find_buffers(void)
{
	memset(buffers, 0, listed_count * sizeof(int));
	for (int i = 0; i < NBuffers; i++)
	{
		BufferTag	tag;
		uint32		state;
		warm_page	page;

		if (sp_look(i, &tag, &state) && sp_page_of(&tag, false, &page))
		{
			uint32		place = *rank_place_of(page);

			if (place != 0)
				buffers[place - 1] = i + 1;
		}
	}
}

/* Raises a count of 0 to 1, where the buffer has that page still.  More would last too long. */
static void
rank_touch_buffer(int buffer, const SpPage *page)
{
	BufferDesc *descriptor = GetBufferDescriptor(buffer);
	const BufferTag *tag = &descriptor->tag;
	uint32		state = pg_atomic_read_u32(&descriptor->state);

	if (BUF_STATE_GET_USAGECOUNT(state) > 0)
		return;
	state = LockBufHdr(descriptor);
	if (BUF_STATE_GET_USAGECOUNT(state) == 0 && (state & BM_VALID) != 0 &&
		tag->blockNum == page->block && TagFile(tag) == page->file &&
		tag->forkNum == page->device.fork && TagDatabase(tag) == page->device.database &&
		TagSpace(tag) == page->device.space)
	{
		state += BUF_USAGECOUNT_ONE;
		sp_stats.pages_touched++;
	}
	UnlockBufHdr(descriptor, state);
}

/*
 * Goes through the wanted pages, the hottest first, touches those that are resident, and hands out
 * those that are missing.  A touch of a primary's would be a reference at its next sample.
 */
static void
rank_visit_pages(void)
{
	Size		most = rank_most_wanted();
	Size		wanted = 0;
	Oid			resident = InvalidOid;

	sp_stats.resident = sp_stats.unloadable = 0;
	for (Size i = 0; i < listed_count && wanted < most; i++)
	{
		SpPage		page;

		if (i % 65536 == 0)
			CHECK_FOR_INTERRUPTS();
		if (!sp_names_of(listed[i], &page))
			continue;
		if (buffers[i] != 0)
		{
			sp_stats.resident++;
			if (OidIsValid(page.device.database))
				resident = page.device.database;
			if (sp_load && !sp_stats.is_warming)
				rank_touch_buffer(buffers[i] - 1, &page);
		}
		else if (rank_is_unloadable(&page))
		{
			sp_stats.unloadable++;
			continue;
		}
		else if (sp_load && load_allowance >= 1 && rank_hand_out(&page))
			load_allowance--;
		wanted++;
	}
	resident_database = resident;
	/* One that lacks a part of its primary's history wants that part, too. */
	sp_stats.wanted = Min((int64) most,
						  (int64) wanted + Max(sp_stats.primary_known - sp_stats.known, 0));
}

/* Says once that a standby is warm, and again where it was not for a while. */
static void
rank_note_warmth(void)
{
	double		share = is_warm ? 0.9 : 0.99;
	bool		now = sp_stats.wanted > 0 && sp_stats.resident >= sp_stats.wanted * share;

	if (now && !is_warm && sp_stats.last_message != 0 && !sp_stats.is_warming &&
		sp_may_log(SP_FAULT_WARM))
		ereport(LOG,
				(errmsg("standby_prewarm is warm: " INT64_FORMAT " of " INT64_FORMAT
						" wanted pages are resident", sp_stats.resident, sp_stats.wanted)));
	is_warm = now;
}

/* A round of a standby, or of a primary that has just started. */
void
sp_round(void)
{
	uint64		begun = sp_us();
	double		passed = (begun - round_at) / 1e6;
	double		rate = sp_load_rate >= 0 ? sp_load_rate : Max(LEAST_RATE, NBuffers / 100);

	round_at = begun;
	load_allowance = Min(load_allowance + passed * rate,
						 Max(2.0 * rate * sp_load_interval / 1000, 1));
	others_waited = sp_stats.others_wait;
	sp_stats.others_wait = false;
	for (int i = 0; i < sp_shared->loader_count; i++)
		rank_open_slot(i);
	is_filling = is_filling && have_free_buffer();
	rank_list_pages();
	rank_find_buffers();
	rank_visit_pages();
	for (int i = 0; i < sp_shared->loader_count; i++)
		if (slots[i].takes && sp_shared->loaders[i].count > 0)
			rank_send_batch(i);
	rank_note_warmth();
	sp_stats.rounds++;
	sp_stats.round_us = sp_us() - begun;
	sp_stats.last_round = GetCurrentTimestamp();
}
