/*
 * rocks.cc: the block caches of RocksDB, LRUCache ("lru") and HyperClockCache ("clock"), with as many shards as the load says, or as each chooses. A call
 * looks a page up, which pins it, reads its first eight bytes in place, and releases it. A page that is not there is read from the file into
 * a block of its own and inserted, as RocksDB does with the blocks of its files.
 */
#include "load.h"

#include <rocksdb/cache.h>

#include <cstdio>
#include <cstdlib>
#include <cstring>
#include <unistd.h>

using rocksdb::Cache;
using rocksdb::Slice;

extern "C" {
const char *const program = "rocks";
const char *const kinds[2] = {"lru", "clock"};
}

namespace {

// HyperClockCache takes keys of 16 bytes: which file, and where in it.
struct key {
    uint64_t file, page;
};

struct pool {
    std::shared_ptr<Cache> cache;
    int fd;
};

void ok(bool is_ok, const char *call) {
    if (is_ok) return;
    fprintf(stderr, "rocks: %s\n", call);
    exit(1);
}

void drop_block(const Slice &, void *block) {
    delete[] static_cast<char *>(block);
}

// The page, read from the file and put into the cache.
Cache::Handle *brought_in(pool *pool, const Slice &name, uint64_t page) {
    char *block = new char[PAGE_SIZE];
    Cache::Handle *handle = nullptr;
    ok(pread(pool->fd, block, PAGE_SIZE, static_cast<off_t>(page) * PAGE_SIZE) == PAGE_SIZE, "pread");
    ok(pool->cache->Insert(name, block, PAGE_SIZE, drop_block, &handle).ok(), "Insert");
    return handle;
}

uint64_t number_in(pool *pool, uint64_t page) {
    key key = {0, page};
    Slice name(reinterpret_cast<const char *>(&key), sizeof key);
    uint64_t number;
    Cache::Handle *handle = pool->cache->Lookup(name);
    if (handle == nullptr) handle = brought_in(pool, name, page);
    memcpy(&number, pool->cache->Value(handle), sizeof number);
    pool->cache->Release(handle);
    return number;
}

}  // namespace

// Where all pages are to be hits, there is room for a quarter more, since shards are of unequal length. Neither cache counts its own memory.
void *open_pool(const struct load *load, uint64_t) {
    size_t bytes = size_t(load->pages) * PAGE_SIZE;
    if (!load->is_of_misses) bytes += bytes / 4;
    int shard_bits = load->shards == 0 ? -1 : __builtin_ctz(load->shards);
    rocksdb::LRUCacheOptions lru;
    lru.num_shard_bits = shard_bits;
    lru.capacity = bytes;
    lru.metadata_charge_policy = rocksdb::kDontChargeCacheMetadata;
    rocksdb::HyperClockCacheOptions clock(bytes, PAGE_SIZE, shard_bits);
    clock.metadata_charge_policy = rocksdb::kDontChargeCacheMetadata;
    bool is_lru = strcmp(load->kind, kinds[0]) == 0;
    return new pool{is_lru ? rocksdb::NewLRUCache(lru) : clock.MakeSharedCache(), load->fd};
}

void *join_pool(void *pool) { return pool; }

void leave_pool(void *, void *) {}

void before_slice(void *, const uint32_t *, size_t) {}

uint64_t play_slice(void *at, const uint32_t *pages, size_t count) {
    uint64_t checksum = 0;
    for (size_t i = 0; i < count; i++) checksum = added(checksum, number_in(static_cast<pool *>(at), pages[i]));
    return checksum;
}

void close_pool(void *at) {
    delete static_cast<pool *>(at);
}
