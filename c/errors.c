/*
 * errors.c: what include/warm.h says in words: statuses and the version. Nothing here is proved;
 * c/check tests it.
 */
#include "warm.h"

#define SAYS(status, words) \
    case status: return #status ": " words;

const char *warm_strerror(int status) {
    switch (status) {
        SAYS(WARM_OK, "done")
        SAYS(WARM_MEMORY, "an allocation failed")
        SAYS(WARM_BAD_FRAMES, "a shard has 1 to 65,536 frames")
        SAYS(WARM_BAD_PAGE_SIZE, "a page has 1 to 65,536 bytes")
        SAYS(WARM_NO_DEVICE, "there is no device of this number")
        SAYS(WARM_NO_PAGE, "the device has no page of this number")
        SAYS(WARM_ALL_PINNED, "each frame of the page's shard has a pinned page")
        SAYS(WARM_READ_FAULT, "the page could not be read")
        SAYS(WARM_EVICT_FAULT, "the page to evict could not be written, nor those after it")
        SAYS(WARM_PINS_FULL, "the page has 2^32 - 1 pins, or its frame had 2^64 - 1 pages")
        SAYS(WARM_OUT_OF_PAGE, "the bytes reach beyond the end of the page")
        SAYS(WARM_PINNED, "a page that is to leave its frame is pinned")
        SAYS(WARM_WRITE_FAULT, "a page could not be written, or a device not flushed")
        SAYS(WARM_STALE_SLOT, "the slot has no pinned page, or another one now")
        SAYS(WARM_TRUNCATED, "the message ends too early")
        SAYS(WARM_BAD_MAGIC, "the first bytes are no message's")
        SAYS(WARM_BAD_KIND, "there is no such kind of message")
        SAYS(WARM_BAD_SENDER, "the sender of the message is no replica")
        SAYS(WARM_BAD_LENGTH, "the message has another length than its content")
        SAYS(WARM_BAD_COUNT, "the message has too many entries")
        SAYS(WARM_BAD_TAG, "an entry of the message begins with no tag")
        SAYS(WARM_BAD_STAMP, "an entry has a stamp of no replica, or two in the wrong order")
        SAYS(WARM_BAD_ORDER, "the entries of the message are not in the order of their pages")
        SAYS(WARM_CLOSED, "the handle is closed")
        SAYS(WARM_ALREADY_OPEN, "the handle is open")
        SAYS(WARM_BUFFER_TOO_SMALL, "the message does not fit into its room")
        SAYS(WARM_BAD_REPLICA, "a replica has a number from 1 to 64")
        SAYS(WARM_BAD_BUCKET, "a bucket has a number from 0 to 63")
        SAYS(WARM_SAME_FILE, "two devices have one file, or one context of own calls")
        SAYS(WARM_LATE_HORIZON, "the horizon of the message is later than a limit")
        SAYS(WARM_LATE_STAMP, "a stamp of the message is later than the limit")
        SAYS(WARM_BAD_SHARDS, "a replica has 1, 2, 4, 8, 16, 32 or 64 shards")
        SAYS(WARM_UNEVEN_FRAMES, "the frames do not divide by the number of shards")
        SAYS(WARM_ATTACHED, "other handles are attached to the replica")
        SAYS(WARM_PINS_LEFT, "the handle has pins")
        SAYS(WARM_NO_SHARD, "there is no shard of this number")
        SAYS(WARM_CUT_SHORT, "the dump ends before its digests do")
        SAYS(WARM_DIGESTS_DIFFER, "the digests of the dump are not those of its entries")
        SAYS(WARM_HORIZONS_DIFFER, "the parts of the dump have different horizons")
        SAYS(WARM_MORE_FOLLOWS, "bytes follow the digests of the dump")
        SAYS(WARM_DUMP_NOT_READ, "the file of the dump could not be read")
        SAYS(WARM_DUMP_NOT_WRITTEN, "the file of the dump could not be written or synced")
        SAYS(WARM_APPENDS, "the descriptor of a device has O_APPEND")
        SAYS(WARM_TOO_MANY_PAGES, "the message has more pages than the limit leaves room for")
        SAYS(WARM_BAD_OPTIONS, "a size or a flag is not one of this version")
        SAYS(WARM_BAD_DEVICE, "there are too many devices, or one is too large or has bad ops")
        SAYS(WARM_DIRTY, "pages are dirty, and would be lost")
        SAYS(WARM_SKIPPED, "before_write has skipped pages, and nothing has failed")
        SAYS(WARM_BUSY, "the call has waited for others as long as it may")
        default: return "there is no such status";
    }
}

const char *warm_version(void) { return WARM_VERSION; }
