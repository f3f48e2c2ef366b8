/*
 * directory.c
 *		The numbers of (tablespace, database, fork), which are devices of the history.
 *
 * The primary gives them, and none a second time, also where a database was dropped.  A standby
 * that is promoted goes on with them.
 */
#include "postgres.h"

#include "catalog/pg_tablespace_d.h"
#include "utils/memutils.h"
#include "standby_prewarm.h"

typedef struct Number
{
	SpDevice	device;			/* the key */
	uint16		number;
} Number;

int			sp_device_count = 0;	/* the greatest number given, plus 1 */

static HTAB *numbers = NULL;
static Number *last = NULL;		/* the one that was looked for last, often also the next */
static SpDevice devices[SP_MOST_DEVICES];	/* by number; fork -1: not given */

/* Forgets all numbers. */
void
sp_directory_reset(void)
{
	HASHCTL		control = {.keysize = sizeof(SpDevice), .entrysize = sizeof(Number),
	.hcxt = TopMemoryContext};

	if (numbers != NULL)
		hash_destroy(numbers);
	numbers = hash_create("standby_prewarm devices", 64, &control,
						  HASH_ELEM | HASH_BLOBS | HASH_CONTEXT);
	last = NULL;
	sp_device_count = 0;
}

/*
 * Whether there can be such a device: what is in pg_global is of no database, and nothing else is.
 * One that was forged, or read while its buffer changed, may not be.
 */
static bool
is_device(const SpDevice *device)
{
	return device->fork >= MAIN_FORKNUM && device->fork <= MAX_FORKNUM &&
		OidIsValid(device->space) &&
		(device->space == GLOBALTABLESPACE_OID) == !OidIsValid(device->database);
}

/* The device of a number, or NULL. */
static const SpDevice *
device_of(int number)
{
	return number < sp_device_count && devices[number].fork >= 0 ? &devices[number] : NULL;
}

/* Notes that a device has a number; false where it has another, or the number another device. */
static bool
put_number(uint16 number, const SpDevice *device)
{
	Number	   *entry = hash_search(numbers, device, HASH_FIND, NULL);

	if (entry != NULL || device_of(number) != NULL)
		return entry != NULL && entry->number == number;
	while (sp_device_count <= number)
		devices[sp_device_count++].fork = -1;
	devices[number] = *device;
	((Number *) hash_search(numbers, device, HASH_ENTER, NULL))->number = number;
	return true;
}

/*
 * Writes the page of the history that a buffer's tag names: the file's number, and the block; false
 * where its device has no number.  With give, it is given one, where there are any.
 */
bool
sp_page_of(const BufferTag *tag, bool give, warm_page *page)
{
	SpDevice	device = {TagSpace(tag), TagDatabase(tag), tag->forkNum};

	page->no = (uint64) TagFile(tag) << 32 | tag->blockNum;
	if (last == NULL || memcmp(&last->device, &device, sizeof device) != 0)
		last = hash_search(numbers, &device, HASH_FIND, NULL);
	if (last != NULL)
		page->dev = last->number;
	else if (give && is_device(&device) && sp_device_count < SP_MOST_DEVICES)
	{
		page->dev = (uint16) sp_device_count;
		put_number(page->dev, &device);
	}
	else
		return false;
	return true;
}

/* Writes the names of a page of the history; false where there can be none of these names. */
bool
sp_names_of(warm_page page, SpPage *names)
{
	const SpDevice *device = device_of(page.dev);

	if (device == NULL || page.no >> 32 == InvalidOid ||
		(BlockNumber) page.no == InvalidBlockNumber)
		return false;
	names->device = *device;
	names->file = (Oid) (page.no >> 32);
	names->block = (BlockNumber) page.no;
	return true;
}

/* Writes the numbers from *next to below end, at most that many; returns the end of the bytes. */
uint8 *
sp_directory_encode(int *next, int end, int most, uint8 *to)
{
	for (; most > 0 && *next < end; ++*next)
	{
		const SpDevice *device = device_of(*next);

		if (device == NULL)
			continue;
		to = sp_put(sp_put(to, *next, 2), device->space, 4);
		to = sp_put(sp_put(to, device->database, 4), device->fork, 1);
		most--;
	}
	return to;
}

/* Takes numbers in, up to the first that is refused. */
int
sp_directory_decode(const uint8 *bytes, Size length)
{
	if (length % SP_DEVICE_BYTES != 0)
		return SP_BAD_DIRECTORY;
	for (const uint8 *at = bytes; at < bytes + length; at += SP_DEVICE_BYTES)
	{
		SpDevice	device = {sp_get(at + 2, 4), sp_get(at + 6, 4), at[10]};

		if (!is_device(&device))
			return SP_BAD_DIRECTORY;
		if (!put_number((uint16) sp_get(at, 2), &device))
			return SP_OTHER_DIRECTORY;
	}
	return WARM_OK;
}
