/*
 * sample.c
 *		References, from the buffer descriptors of a primary.
 *
 * A page is referenced at most once a sample, which is LRU-2's correlated reference period.
 * DESIGN.md says when, why a page that comes in is not referenced, and why one whose count is at its
 * greatest is, once a minute.
 */
#include "postgres.h"

#include "common/hashfn.h"
#include "miscadmin.h"
#include "utils/memutils.h"
#include "standby_prewarm.h"

#define SATURATED_US	(60 * US_PER_S)
#define SEEN_NONE		UINT64CONST(15)
#define REFERENCES_A_TURN 300000	/* the history takes some 200 ms for them */

/* For each buffer a hash of its page, with its usage count in the last bits. */
static uint64 *seen = NULL;
static bool is_first = true;
static uint64 saturated_at = 0;
static int	next_buffer;		/* where the sample goes on */
static uint64 cost;				/* of it so far */

/*
 * Reads the tag and the state of a valid buffer, without its lock unless it is locked or changes
 * meanwhile.  One that gets another page and the same state within these few instructions may give
 * a tag of both, which does no harm.
 */
bool
sp_look(int buffer, BufferTag *tag, uint32 *state)
{
	BufferDesc *descriptor = GetBufferDescriptor(buffer);
	uint32		before = pg_atomic_read_u32(&descriptor->state);

	if (buffer % 65536 == 0)
		CHECK_FOR_INTERRUPTS(); /* a walk is long, and a drop of a database waits for us */
	if ((before & BM_VALID) == 0)
		return false;
	pg_read_barrier();
	*tag = descriptor->tag;
	pg_read_barrier();
	*state = pg_atomic_read_u32(&descriptor->state);
	if (*state != before || (before & BM_LOCKED) != 0)
	{
		before = LockBufHdr(descriptor);
		*tag = descriptor->tag;
		*state = before;
		UnlockBufHdr(descriptor, before);
	}
	return (*state & (BM_VALID | BM_TAG_VALID)) == (BM_VALID | BM_TAG_VALID);
}

/* The next sample is the first: it only notes what is there. */
void
sp_sample_reset(void)
{
	if (seen == NULL)
		seen = MemoryContextAllocHuge(TopMemoryContext, sizeof(uint64) * (Size) NBuffers);
	is_first = true;
	saturated_at = sp_us();
	next_buffer = 0;
}

/* Notes a buffer, and its page as referenced where it is. */
static void
sample_buffer(int i, uint64 time, bool saturated)
{
	BufferTag	tag;
	uint32		state;
	uint64		before = seen[i];
	uint64		mark = SEEN_NONE;
	warm_page	page;
	bool		is_hotter;

	/* Pages of unlogged relations are not on a standby. */
	if (sp_look(i, &tag, &state) && (state & BM_PERMANENT) != 0)
	{
		mark = hash_bytes_extended((const unsigned char *) &tag, sizeof tag, 0);
		mark = (mark & ~SEEN_NONE) | BUF_STATE_GET_USAGECOUNT(state);
		is_hotter = ((before ^ mark) <= SEEN_NONE && mark > before) ||
			(saturated && BUF_STATE_GET_USAGECOUNT(state) == BM_MAX_USAGE_COUNT);
		if (!is_first && is_hotter && sp_page_of(&tag, true, &page))
			sp_reference(page, time);
	}
	seen[i] = mark;
}

/*
 * Takes a sample; false where much is referenced, and this was a piece of it.  Each piece has a
 * time of its own, as what is new since a time may be published.
 */
bool
sp_sample(void)
{
	static bool saturated;
	uint64		time = sp_clock();
	uint64		begun = sp_us();
	int64		most = sp_stats.page_references + REFERENCES_A_TURN;

	if (next_buffer == 0)
	{
		saturated = begun - saturated_at >= SATURATED_US;
		if (saturated)
			saturated_at = begun;
		cost = 0;
	}
	while (next_buffer < NBuffers && sp_stats.page_references < most)
		sample_buffer(next_buffer++, time, saturated);
	sp_references_end();
	cost += sp_us() - begun;
	if (next_buffer < NBuffers)
		return false;
	next_buffer = 0;
	is_first = false;
	sp_stats.samples++;
	sp_stats.sample_us = cost;
	return true;
}
