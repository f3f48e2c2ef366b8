/*
 * layouts.h: what the types of nodes.h are in the proved part (crates/warm_c_base/src/values.rt and
 * counters.rt; crates/warm_c/src/handle.rt, visit_handle.rt and message_limits.rt), and those of
 * include/warm.h in every program that was built with it: a change here needs a new SONAME. Not
 * installed.
 */
#ifndef LAYOUTS_H
#define LAYOUTS_H

#include "shards.h"

#define SIZE_IS(type, size) _Static_assert(sizeof(type) == (size), #type)
#define FIELD_IS(type, field, at, width)                                                      \
    _Static_assert(offsetof(type, field) == (at) && sizeof(((type *)0)->field) == (width), \
        #type "." #field)

_Static_assert(sizeof(size_t) == 8 && sizeof(bool) == 1, "lengths have 64 bits, and a bool 8");
SIZE_IS(node, 16);
FIELD_IS(node, is_open, 0, 1);
FIELD_IS(node, at, 8, 8);
SIZE_IS(visit, 16);
FIELD_IS(visit, is_open, 0, 1);
FIELD_IS(visit, at, 8, 8);
SIZE_IS(node_page, 16);
FIELD_IS(node_page, no, 0, 8);
FIELD_IS(node_page, dev, 8, 2);
SIZE_IS(node_reference, 24);
FIELD_IS(node_reference, replica, 0, 2);
FIELD_IS(node_reference, dev, 2, 2);
FIELD_IS(node_reference, no, 8, 8);
FIELD_IS(node_reference, time, 16, 8);
SIZE_IS(node_slot, 16);
FIELD_IS(node_slot, generation, 0, 8);
FIELD_IS(node_slot, index, 8, 4);
FIELD_IS(node_slot, shard, 12, 4);
SIZE_IS(node_device, 16);
FIELD_IS(node_device, pages, 0, 8);
FIELD_IS(node_device, number, 8, 4);
SIZE_IS(node_counters, 48);
FIELD_IS(node_counters, hits, 0, 8);
FIELD_IS(node_counters, misses, 8, 8);
FIELD_IS(node_counters, evictions, 16, 8);
FIELD_IS(node_counters, written_back, 24, 8);
FIELD_IS(node_counters, resident, 32, 8);
FIELD_IS(node_counters, dirty, 40, 8);
SIZE_IS(node_device_counters, 32);
FIELD_IS(node_device_counters, reads, 0, 8);
FIELD_IS(node_device_counters, writes, 8, 8);
FIELD_IS(node_device_counters, flushes, 16, 8);
FIELD_IS(node_device_counters, failures, 24, 8);
SIZE_IS(node_failure, 16);
FIELD_IS(node_failure, no, 0, 8);
FIELD_IS(node_failure, dev, 8, 2);
FIELD_IS(node_failure, what, 10, 2);
FIELD_IS(node_failure, error, 12, 4);
SIZE_IS(node_limits, 32);
FIELD_IS(node_limits, time, 0, 8);
FIELD_IS(node_limits, horizon, 8, 8);
FIELD_IS(node_limits, pages, 16, 8);
FIELD_IS(node_limits, known, 24, 8);
/* node_pin writes a slot's index and the shard after it as one number, and so does put_place. */
_Static_assert(__BYTE_ORDER__ == __ORDER_LITTLE_ENDIAN__, "the lowest byte of a number is first");
_Static_assert(sizeof(shard) % LINE == 0 && sizeof(opened) % LINE == 0, "whole lines");
_Static_assert(sizeof(replica) % LINE == 0, "whole lines");

SIZE_IS(warm, 8);
SIZE_IS(warm_page, 16);
FIELD_IS(warm_page, dev, 0, 2);
FIELD_IS(warm_page, no, 8, 8);
SIZE_IS(warm_reference, 24);
FIELD_IS(warm_reference, replica, 0, 2);
FIELD_IS(warm_reference, dev, 2, 2);
FIELD_IS(warm_reference, no, 8, 8);
FIELD_IS(warm_reference, time, 16, 8);
SIZE_IS(warm_slot, 16);
FIELD_IS(warm_slot, generation, 0, 8);
FIELD_IS(warm_slot, index, 8, 4);
FIELD_IS(warm_slot, shard, 12, 2);
FIELD_IS(warm_slot, hit, 14, 2);
SIZE_IS(warm_device_ops, 48);
FIELD_IS(warm_device_ops, size, 0, 8);
FIELD_IS(warm_device_ops, read, 8, 8);
FIELD_IS(warm_device_ops, write, 16, 8);
FIELD_IS(warm_device_ops, sync, 24, 8);
FIELD_IS(warm_device_ops, before_write, 32, 8);
FIELD_IS(warm_device_ops, after_write, 40, 8);
SIZE_IS(warm_device, 32);
FIELD_IS(warm_device, pages, 0, 8);
FIELD_IS(warm_device, fd, 8, 4);
FIELD_IS(warm_device, ops, 16, 8);
FIELD_IS(warm_device, context, 24, 8);
SIZE_IS(warm_options, 56);
FIELD_IS(warm_options, size, 0, 8);
FIELD_IS(warm_options, replica, 8, 4);
FIELD_IS(warm_options, flags, 12, 4);
FIELD_IS(warm_options, shards, 16, 8);
FIELD_IS(warm_options, frames, 24, 8);
FIELD_IS(warm_options, page_size, 32, 8);
FIELD_IS(warm_options, devices, 40, 8);
FIELD_IS(warm_options, device_count, 48, 8);
SIZE_IS(warm_sending, 32);
FIELD_IS(warm_sending, since, 0, 8);
FIELD_IS(warm_sending, after, 8, 16);
FIELD_IS(warm_sending, bucket, 24, 1);
FIELD_IS(warm_sending, has_after, 25, 1);
FIELD_IS(warm_sending, more, 26, 1);
SIZE_IS(warm_counters, 128);
FIELD_IS(warm_counters, hits, 0, 8);
FIELD_IS(warm_counters, misses, 8, 8);
FIELD_IS(warm_counters, evictions, 16, 8);
FIELD_IS(warm_counters, written_back, 24, 8);
FIELD_IS(warm_counters, resident, 32, 8);
FIELD_IS(warm_counters, dirty, 40, 8);
SIZE_IS(warm_device_counters, 64);
FIELD_IS(warm_device_counters, reads, 0, 8);
FIELD_IS(warm_device_counters, writes, 8, 8);
FIELD_IS(warm_device_counters, flushes, 16, 8);
FIELD_IS(warm_device_counters, failures, 24, 8);
SIZE_IS(warm_failure, 32);
FIELD_IS(warm_failure, dev, 0, 2);
FIELD_IS(warm_failure, what, 2, 2);
FIELD_IS(warm_failure, error, 4, 4);
FIELD_IS(warm_failure, no, 8, 8);
FIELD_IS(warm_failure, count, 16, 8);

#endif
