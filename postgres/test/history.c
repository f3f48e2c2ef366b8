/*
 * postgres/test/history.c: for measure, a saved history: history PAGES PATH.  The pages are of
 * device 0, in files of 100,000 pages; half of them were referenced twice in the last ten minutes.
 */
#include <fcntl.h>
#include <stdint.h>
#include <stdlib.h>
#include <time.h>
#include <unistd.h>

#include "warm.h"

#define BUCKETS 64
#define WAITING 1024

static warm history;
static warm_reference waiting[BUCKETS][WAITING];
static size_t counts[BUCKETS];

static void
absorb(int bucket)
{
	if (warm_absorb(&history, waiting[bucket], counts[bucket]) != WARM_OK)
		exit(1);
	counts[bucket] = 0;
}

/* Page by page, every step-th, in the five minutes from a time on, in microseconds. */
static void
refer(uint64_t pages, uint64_t step, uint64_t time)
{
	for (uint64_t page = 0; page < pages; page += step)
	{
		uint64_t	no = (16384 + page / 100000) << 32 | page % 100000;
		int			bucket = (int) (no % BUCKETS);
		warm_reference *at = &waiting[bucket][counts[bucket]++];

		at->time = time + page * 300000000 / pages;
		at->no = no;
		at->dev = 0;
		at->replica = 1;
		if (counts[bucket] == WAITING)
			absorb(bucket);
	}
	for (int bucket = 0; bucket < BUCKETS; bucket++)
		absorb(bucket);
}

int
main(int count, char **arguments)
{
	const warm_options options = {.size = sizeof options, .replica = 1, .page_size = 1};
	uint64_t	pages = count == 3 ? strtoull(arguments[1], NULL, 10) : 0;
	/* since 2000, as the extension's times */
	uint64_t	begun = ((uint64_t) time(NULL) - 946684800 - 600) * 1000000;
	int			file;

	if (pages == 0 || warm_open(&history, &options) != WARM_OK)
		return 2;
	refer(pages, 1, begun);
	refer(pages, 2, begun + 300000000);
	file = open(arguments[2], O_CREAT | O_TRUNC | O_RDWR, 0600);
	return file < 0 || warm_save(&history, file) != WARM_OK;
}
