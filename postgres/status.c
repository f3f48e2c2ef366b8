/*
 * status.c
 *		What SQL sees: the row of pg_stat_standby_prewarm, and a reset.
 */
#include "postgres.h"

#include "funcapi.h"
#include "lib/stringinfo.h"
#include "utils/builtins.h"
#include "standby_prewarm.h"

#define OWN_COLUMNS		4		/* before those of SpStats */
#define COLUMN(field)	(offsetof(SpStats, field) / sizeof(int64))

PG_FUNCTION_INFO_V1(standby_prewarm_status);
PG_FUNCTION_INFO_V1(standby_prewarm_reset);

static void
status_need_shared(void)
{
	if (sp_shared == NULL)
		ereport(ERROR,
				(errcode(ERRCODE_OBJECT_NOT_IN_PREREQUISITE_STATE),
				 errmsg("standby_prewarm must be loaded via \"shared_preload_libraries\"")));
}

/* What was refused, by name, as JSON, and its sum. */
static Datum
status_refused(const int64 *refused, int64 *sum)
{
	StringInfoData text;

	initStringInfo(&text);
	appendStringInfoChar(&text, '{');
	*sum = 0;
	for (int i = 0; i < SP_STATUSES; i++)
	{
		if (refused[i] == 0)
			continue;
		appendStringInfo(&text, "%s\"%s\": " INT64_FORMAT, *sum == 0 ? "" : ", ",
						 sp_status_name(i), refused[i]);
		*sum += refused[i];
	}
	appendStringInfoChar(&text, '}');
	return DirectFunctionCall1(jsonb_in, CStringGetDatum(text.data));
}

/*
 * The row of pg_stat_standby_prewarm.  The extension of another version may have fewer columns,
 * or more, which are null then: new ones come last.
 */
Datum
standby_prewarm_status(PG_FUNCTION_ARGS)
{
	TupleDesc	desc;
	Datum		values[MaxTupleAttributeNumber] = {0};
	bool		nulls[MaxTupleAttributeNumber];
	SpShared	now;
	const int64 *counts = (const int64 *) &now.stats;
	int64		refused;
	int			loaders = 0;
	bool		loads;

	status_need_shared();
	if (get_call_result_type(fcinfo, NULL, &desc) != TYPEFUNC_COMPOSITE)
		elog(ERROR, "return type must be a row type");
	LWLockAcquire(sp_shared->lock, LW_SHARED);
	memcpy(&now, sp_shared, offsetof(SpShared, loaders));
	for (int i = 0; i < now.loader_count; i++)
		loaders += sp_shared->loaders[i].latch != NULL;
	LWLockRelease(sp_shared->lock);

	loads = now.latch != NULL && sp_enabled && (now.stats.is_standby || now.stats.is_warming);
	memset(nulls, true, sizeof nulls);
	values[0] = CStringGetTextDatum(now.latch == NULL ? "none" : !sp_enabled ? "disabled" :
									now.stats.is_standby ? "standby" : "primary");
	values[2] = status_refused(now.stats.refused, &refused);
	values[1] = Int64GetDatum(refused);
	values[3] = Int32GetDatum(loaders);
	nulls[0] = nulls[1] = nulls[3] = false;
	nulls[2] = refused == 0;
	for (int i = 0; i < COLUMN(refused); i++)
	{
		values[OWN_COLUMNS + i] = Int64GetDatum(counts[i]);
		nulls[OWN_COLUMNS + i] = counts[i] < (i < COLUMN(wanted) ? 1 : 0) ||
			(!loads && i >= COLUMN(last_round) && i < COLUMN(known));
	}
	PG_RETURN_DATUM(HeapTupleGetDatum(heap_form_tuple(BlessTupleDesc(desc), values, nulls)));
}

/* Lets the worker begin a new history, soon. */
Datum
standby_prewarm_reset(PG_FUNCTION_ARGS)
{
	status_need_shared();
	LWLockAcquire(sp_shared->lock, LW_EXCLUSIVE);
	sp_shared->reset_wanted = true;
	if (sp_shared->latch != NULL)
		SetLatch(sp_shared->latch);
	LWLockRelease(sp_shared->lock);
	PG_RETURN_VOID();
}
