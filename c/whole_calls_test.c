/*
 * Tests the calls on a whole replica (whole_calls.c, errors.c) over fake_library.h: histories,
 * messages and dumps, in parts by shards, with memory refused; and what is counted and said of
 * failures. examples/c tests the same over the proved part.
 */
#include "fake_library.h"

/* ---- histories ---- */

static void test_batches(void) {
    warm_reference seen[128] = {{0}};
    warm handle = {0};
    for (uint64_t no = 0; no < 128; no++) seen[no] = (warm_reference){.no = no, .replica = 1};
    open_shards(&handle, 4);
    seen[127].replica = 0;
    MUST(warm_absorb(&handle, seen, 128) == WARM_BAD_REPLICA);
    MUST(known(&handle) == 0); /* none, though it is the last */
    seen[127].replica = 1;
    size_t before = 0;
    for (size_t grants = 1; grants < 5; grants++) { /* the visit has one, then the first shards */
        granted = grants;
        MUST(warm_absorb(&handle, seen, 128) == WARM_MEMORY);
        granted = SIZE_MAX;
        MUST(known(&handle) == before + 32 * (grants - 1));
        before = known(&handle);
    }
    OK(warm_absorb(&handle, seen, 128));
    MUST(known(&handle) == before + 128);
    OK(warm_abandon(&handle));
}

/* An empty batch needs no memory. References of one shard, here the first, are a call of its node,
 * which has one allocation: a visit would have two. */
static void test_small_batches(void) {
    const warm_reference seen[] = {
        {.no = 3, .dev = 1, .replica = 1}, {.no = 3, .dev = 1, .replica = 1, .time = 1}};
    for (size_t count = 1; count <= 4; count *= 4) {
        const size_t most = count == 1 ? 2 : 1;
        warm handle = {0};
        open_shards(&handle, count);
        granted = 0;
        OK(warm_absorb(&handle, seen, 0));
        MUST(warm_absorb(&handle, seen, most) == WARM_MEMORY && known(&handle) == 0);
        granted = 1;
        OK(warm_absorb(&handle, seen, most));
        granted = SIZE_MAX;
        MUST(known(&handle) == most && node_of(&handle, 0)->known == most);
        OK(warm_abandon(&handle));
        MUST(warm_absorb(&handle, seen, 0) == WARM_CLOSED);
        nothing_left();
    }
}

/* Each shard has its own of many references; none has any, if the visit finds no memory. */
static void test_great_batches(void) {
    enum { MANY = 300 };
    static warm_reference seen[MANY];
    warm handle = {0};
    for (uint64_t at = 0; at < MANY; at++)
        seen[at] = (warm_reference){.no = at % 3 == 0 ? 4 * at : at, .replica = 64};
    for (size_t count = 1; count <= 64; count *= 2) {
        open_shards(&handle, count);
        granted = 0;
        MUST(warm_absorb(&handle, seen, MANY) == WARM_MEMORY && known(&handle) == 0);
        granted = SIZE_MAX;
        int there = blocks;
        OK(warm_absorb(&handle, seen, MANY));
        MUST(blocks == there && known(&handle) == MANY);
        for (size_t number = 0; number < count; number++) {
            size_t its = 0;
            for (size_t at = 0; at < MANY; at++) its += seen[at].no % count == number;
            MUST(((fake *)((opened *)handle.at)->shards[number].node.at)->known == its);
        }
        for (size_t at = 0; at < MANY; at += MANY - 1) {
            seen[at].replica = 65;
            MUST(warm_absorb(&handle, seen, MANY) == WARM_BAD_REPLICA);
            seen[at].replica = 64;
        }
        OK(warm_absorb(&handle, seen, 1));
        MUST(known(&handle) == MANY + 1);
        OK(warm_abandon(&handle));
    }
    nothing_left();
}

/* A horizon is within both of its limits. */
static void test_limits_of_horizons(void) {
    const uint8_t frames[][66] = {{FAKE_ENTRIES, 3, 0, 0, 1}, {FAKE_DIGESTS, 3}, {FAKE_REQUEST, 3}};
    warm handle = {0};
    MUST(warm_limit_history(&handle, 1, 1) == WARM_CLOSED);
    open_shards(&handle, 4);
    for (int kind = 0; kind < 3; kind++) {
        for (uint64_t limit = 2; limit < 5; limit++) {
            for (uint64_t other = 2; other < 5; other++) {
                int expected = limit < 3 || other < 3 ? WARM_LATE_HORIZON : WARM_OK;
                OK(warm_limit(&handle, limit));
                OK(warm_limit_history(&handle, other, SIZE_MAX));
                MUST(warm_receive(&handle, frames[kind], sizeof frames[kind]) == expected);
            }
        }
    }
    MUST(known(&handle) == 4); /* one entry each time that none of them is exceeded */
    OK(warm_abandon(&handle));
}

/* A stamp is within the limit of times, and may be later than that of horizons. */
static void test_limits_of_stamps(void) {
    const uint8_t entries[10] = {FAKE_ENTRIES, 3, 0, 0, 1, 5};
    warm handle = {0};
    open_shards(&handle, 4);
    for (uint64_t limit = 2; limit < 7; limit++) {
        for (uint64_t other = 2; other < 7; other++) {
            int late = limit < 3 || other < 3 ? WARM_LATE_HORIZON : WARM_LATE_STAMP;
            OK(warm_limit(&handle, limit));
            OK(warm_limit_history(&handle, other, SIZE_MAX));
            MUST(warm_receive(&handle, entries, sizeof entries) ==
                 (limit < 5 || other < 3 ? late : WARM_OK));
        }
    }
    MUST(known(&handle) == 8); /* two limits of times, four of horizons */
    OK(warm_abandon(&handle));
}

/* What is received with this limit of pages, of a history that knows two, and how many it knows
 * then. */
static void receive_by(size_t limit, const uint8_t frame[66], int expected, size_t then) {
    const warm_reference seen[] = {{.no = 1, .replica = 1}, {.no = 2, .replica = 1}};
    const uint8_t request[10] = {FAKE_REQUEST, 3, 1, 1};
    uint8_t answer[FAKE_FULL];
    warm handle = {0};
    size_t length = 0;
    open_shards(&handle, 4);
    OK(warm_absorb(&handle, seen, 2));
    OK(warm_receive(&handle, request, sizeof request));
    OK(warm_limit_history(&handle, UINT64_MAX, limit));
    MUST(warm_receive(&handle, frame, 66) == expected && known(&handle) == then);
    if (expected != WARM_OK) { /* the answers to what came before still wait */
        OK(warm_next_answer(&handle, answer, sizeof answer, &length));
        MUST(length == FAKE_FULL);
    }
    OK(warm_abandon(&handle));
    nothing_left();
}

/* Each entry counts as a new page, whichever it is. Frames without entries have any limit. */
static void test_limits_of_pages(void) {
    const uint8_t none[66] = {FAKE_ENTRIES, 3}, one[66] = {FAKE_ENTRIES, 3, 0, 0, 1},
                  many[66] = {FAKE_ENTRIES, 3, 0, 300 >> 8, 300 & 255},
                  digests[66] = {FAKE_DIGESTS, 3, 1, 1, 1},
                  request[66] = {FAKE_REQUEST, 3, 1, 1, 1};
    for (size_t limit = 0; limit < 4; limit++) {
        receive_by(limit, none, WARM_OK, 2);
        receive_by(limit, digests, WARM_OK, 2);
        receive_by(limit, request, WARM_OK, 2);
    }
    for (size_t limit = 0; limit < 3; limit++) receive_by(limit, one, WARM_TOO_MANY_PAGES, 2);
    receive_by(3, one, WARM_OK, 3); /* a fake shard takes one page of a frame, whatever it has */
    for (size_t limit = 0; limit < 302; limit++) receive_by(limit, many, WARM_TOO_MANY_PAGES, 2);
    receive_by(302, many, WARM_OK, 4);
    receive_by(303, many, WARM_OK, 4);
    receive_by(SIZE_MAX - 1, many, WARM_OK, 4);
    receive_by(SIZE_MAX, many, WARM_OK, 4);
}

static bool says(int status, const char *words) {
    return strcmp(warm_strerror(status), words) == 0;
}

/* Each status has words of its own behind its name, and no other number has any. */
static void test_words(void) {
    static const int last[] = {13, 42, 89};
    const char *none = warm_strerror(-1);
    int named = 0;
    for (int status = -100; status < 1000; status++) {
        bool is_one = false;
        for (int at = 0, first = 0; at < 3; at++, first = at == 1 ? 34 : 64)
            is_one = is_one || (status >= first && status <= last[at]);
        const char *words = warm_strerror(status);
        MUST(is_one ? strncmp(words, "WARM_", 5) == 0 && strstr(words, ": ") != NULL
                    : words == none);
        named += is_one;
    }
    MUST(named == 14 + 9 + 26 && strncmp(none, "WARM_", 5) != 0);
    MUST(says(INT32_MAX, none));
    MUST(says(WARM_OK, "WARM_OK: done"));
    MUST(says(WARM_BAD_ORDER,
        "WARM_BAD_ORDER: the entries of the message are not in the order of their pages"));
    MUST(says(WARM_MORE_FOLLOWS, "WARM_MORE_FOLLOWS: bytes follow the digests of the dump"));
    MUST(strcmp(warm_version(), WARM_VERSION) == 0);
    MUST(sizeof(warm_counters) == 128 && sizeof(warm_failure) == 32); /* layouts.h has the rest */
}

/* The pages of a list are those that the node, or a copy of all histories, has written. */
static void test_lists(void) {
    const warm_reference seen[] = {
        {.no = 0, .replica = 1}, {.no = 1, .replica = 1}, {.no = 2, .replica = 1}};
    for (size_t count = 1; count <= 4; count *= 4) {
        warm_page pages[4] = {{0}};
        warm handle = {0};
        size_t listed;
        open_shards(&handle, count);
        OK(warm_absorb(&handle, seen, 3));
        OK(warm_list(&handle, pages, 4, &listed));
        MUST(listed == 3 && pages[3].no == 0);
        for (size_t at = 0; at < 3; at++) MUST(pages[at].no == at + 1 && pages[at].dev == at + 7);
        for (size_t room = 0; room < 3; room++) {
            memset(pages, 0, sizeof pages);
            OK(warm_list(&handle, pages, room, &listed));
            MUST(listed == room && pages[room].no == 0 && pages[room].dev == 0);
        }
        OK(warm_close(&handle));
        nothing_left();
    }
}

/* A bucket is sent while more follow; a message without entries leaves the place as it was. */
static void test_sending(void) {
    const warm_reference seen = {.no = 1, .replica = 1};
    warm_sending sending = {.bucket = 3}, before;
    uint8_t message[FAKE_FULL];
    size_t length = 0;
    warm handle = {0};
    MUST(warm_send(&handle, &sending, message, sizeof message, &length) == WARM_CLOSED);
    open_shards(&handle, 4);
    OK(warm_send(&handle, &sending, message, sizeof message, &length));
    MUST(length == FAKE_EMPTY && !sending.has_after && !sending.more && sending.after.no == 0);
    OK(warm_absorb(&handle, &seen, 1));
    sending.bucket = 1;
    before = sending;
    MUST(warm_send(&handle, &sending, message, FAKE_FULL - 1, &length) == WARM_BUFFER_TOO_SMALL &&
         length == FAKE_FULL);
    sending.bucket = 64;
    MUST(warm_send(&handle, &sending, message, sizeof message, &length) == WARM_BAD_BUCKET);
    sending.bucket = 1;
    EACH_REFUSED(warm_send(&handle, &sending, message, sizeof message, &length),
        memcmp(&sending, &before, sizeof before) == 0);
    MUST(length == FAKE_FULL && message[2] == 1 && sending.has_after && sending.more &&
         sending.after.no == 1);
    OK(warm_send(&handle, &sending, message, sizeof message, &length));
    MUST(length == FAKE_FULL && sending.has_after && !sending.more && sending.after.no == 2 &&
         sending.bucket == 1 && sending.since == 0);
    OK(warm_abandon(&handle));
    nothing_left();
}

/* Each allocation of a call on the whole fails in turn, and nothing is left of it. */
static void test_memory(void) {
    const uint8_t entries[10] = {FAKE_ENTRIES, 1, 0, 0, 2};
    uint8_t frame[66];
    size_t length = 77;
    bool found;
    warm_page page;
    warm handle = {0};
    open_shards(&handle, 4);
    int there = blocks;
    EACH_REFUSED(warm_load(&handle, 1, 8), blocks == there);
    EACH_REFUSED(warm_list(&handle, &page, 1, &length), blocks == there && length == 77);
    EACH_REFUSED(warm_save(&handle, 1), blocks == there);
    MUST(warm_save(&handle, -1) == WARM_DUMP_NOT_WRITTEN &&
         warm_load(&handle, -1, 1) == WARM_DUMP_NOT_READ && blocks == there);
    EACH_REFUSED(warm_step(&handle, &found, &page), true);
    EACH_REFUSED(warm_receive(&handle, entries, sizeof entries), blocks == there);
    there++; /* what was received */
    length = 77;
    EACH_REFUSED(
        warm_offer(&handle, frame, sizeof frame, &length), blocks == there && length == 77);
    MUST(warm_offer(&handle, frame, 65, &length) == WARM_BUFFER_TOO_SMALL && length == 66);
    MUST(blocks == there);
    memset(frame + 2, 9, 64);
    EACH_REFUSED(warm_receive(&handle, frame, sizeof frame), blocks == there);
    length = 77;
    EACH_REFUSED(
        warm_next_answer(&handle, frame, sizeof frame, &length), blocks == there && length == 77);
    MUST(blocks == there);
    OK(warm_abandon(&handle));
    nothing_left();
}

/* Each shard has this horizon, and they know this many pages together. */
static bool have(warm *handle, uint64_t horizon, size_t pages) {
    for (size_t number = 0; number < ((opened *)handle->at)->count; number++)
        if (node_of(handle, number)->horizon != horizon) return false;
    return known(handle) == pages;
}

/* Each shard has its part of a dump, two references. Without memory the first shards have it, and
 * all have the dump's horizon, unless it was refused before. */
static void test_loads_in_parts(void) {
    for (size_t count = 1; count <= 4; count *= 4) {
        warm handle = {0}, other = {0};
        open_shards(&handle, count);
        OK(warm_attach(&handle, &other));
        size_t before = 0;
        for (size_t grants = 0; grants < 2 + count; grants++) { /* one reads, one is the visit's */
            granted = grants;
            MUST(warm_load(&handle, 1, 2 * count) == WARM_MEMORY);
            granted = SIZE_MAX;
            if (grants > 2) before += 2 * (grants - 2);
            MUST(have(&handle, grants < 2 ? 0 : FAKE_DUMPED, before));
        }
        OK(warm_load(&handle, 1, 2 * count));
        MUST(have(&handle, FAKE_DUMPED, before + 2 * count));
        OK(warm_close(&other));
        OK(warm_close(&handle));
        nothing_left();
    }
}

/* The only handle of one shard loads all or nothing. It saves what the node has, and any handle
 * lists that: no history is copied, for which a visit would have more allocations than one. */
static void test_one_shard_alone(void) {
    warm handle = {0}, other = {0};
    warm_page page;
    size_t listed;
    open_shards(&handle, 1);
    EACH_REFUSED(warm_load(&handle, 1, 2), have(&handle, 0, 0));
    MUST(have(&handle, FAKE_DUMPED, 2));
    granted = 1;
    OK(warm_save(&handle, 1));
    granted = SIZE_MAX;
    OK(warm_attach(&handle, &other));
    granted = 1;
    OK(warm_list(&other, &page, 1, &listed));
    granted = SIZE_MAX;
    OK(warm_close(&other));
    OK(warm_close(&handle));
    nothing_left();
}

/* A message has an entry of the first shard, and one of the third if there is one. Without memory
 * the first shard may have its part, and all have the message's horizon, unless it was refused
 * before. So it is of digests, which have no parts. */
static void test_receives_in_parts(void) {
    const uint8_t entries[10] = {FAKE_ENTRIES, 3, 0, 0, 2}, digests[66] = {FAKE_DIGESTS, 5};
    for (size_t count = 1; count <= 4; count *= 4) {
        const size_t parts = count > 2 ? 2 : 1;
        warm handle = {0};
        open_shards(&handle, count);
        for (size_t grants = 0; grants < 1 + parts; grants++) { /* the visit has one */
            granted = grants;
            MUST(warm_receive(&handle, entries, sizeof entries) == WARM_MEMORY);
            granted = SIZE_MAX;
            MUST(have(&handle, grants == 0 ? 0 : 3, grants > 1));
        }
        OK(warm_receive(&handle, entries, sizeof entries));
        MUST(have(&handle, 3, parts + (parts > 1)));
        granted = 1;
        MUST(warm_receive(&handle, digests, sizeof digests) == WARM_MEMORY);
        granted = SIZE_MAX;
        MUST(have(&handle, 5, parts + (parts > 1)));
        OK(warm_close(&handle));
        nothing_left();
    }
}

/* Another handle of the one shard looks between the two steps of a call on the whole. */
static warm looking;
static size_t seen_pages;
static uint64_t seen_horizon;

static void look(void) {
    seen_pages = known(&looking);
    OK(warm_raise(&looking, 0, &seen_horizon));
}

/* First the horizon is raised, and then the shard is given its part. */
static void test_steps_in_one_shard(void) {
    const uint8_t entries[10] = {FAKE_ENTRIES, 9, 0, 0, 1};
    for (int is_dump = 0; is_dump < 2; is_dump++) {
        const uint64_t horizon = is_dump ? FAKE_DUMPED : 9;
        warm handle = {0};
        open_shards(&handle, 1);
        OK(warm_attach(&handle, &looking));
        at_unlock = look;
        unlocks_before = 0;
        OK(is_dump ? warm_load(&handle, 1, 1) : warm_receive(&handle, entries, sizeof entries));
        MUST(at_unlock == NULL && seen_horizon == horizon && seen_pages == 0);
        MUST(have(&handle, horizon, 1));
        OK(warm_close(&looking));
        OK(warm_close(&handle));
        nothing_left();
    }
}

/* Frames that are refused, at once or by each allocation. The answers that wait still do. */
static void refuse_frames(warm *handle) {
    const uint8_t digests[66] = {FAKE_DIGESTS, 3};
    MUST(warm_receive(handle, digests, 9) == WARM_TRUNCATED);
    for (size_t grants = 0; grants < 4; grants++) {
        granted = grants;
        MUST(warm_receive(handle, digests, sizeof digests) == WARM_MEMORY);
        granted = SIZE_MAX;
    }
}

/* The answers to digests that all differ, of which there is not enough room at first: of odd
 * buckets both frames, and then the request, which is left in the frame. */
static void take_answers(warm *handle, uint8_t frame[66]) {
    size_t length, none;
    for (uint8_t bucket = 1; bucket < 64; bucket += 2) {
        for (int part = 0; part < 2; part++) {
            memset(frame, 'x', 66);
            MUST(warm_next_answer(handle, frame, FAKE_FULL - 1, &length) == WARM_BUFFER_TOO_SMALL &&
                 length == FAKE_FULL && frame[0] == 'x');
            OK(warm_next_answer(handle, frame, FAKE_FULL, &length));
            MUST(length == FAKE_FULL && frame[0] == FAKE_ENTRIES && frame[1] == 3 &&
                 frame[2] == bucket && frame[FAKE_FULL] == 'x');
        }
    }
    memset(frame, 'x', 66);
    MUST(warm_next_answer(handle, frame, 9, &length) == WARM_BUFFER_TOO_SMALL && length == 10 &&
         frame[0] == 'x');
    OK(warm_next_answer(handle, frame, 10, &length));
    MUST(length == 10 && frame[0] == FAKE_REQUEST && frame[1] == 3 && frame[2] == 1 &&
         frame[9] == 1);
    OK(warm_next_answer(handle, frame + 10, 10, &none));
    MUST(none == 0);
}

/* Bucket by bucket, of each that has something both frames, and then the request. A bucket that has
 * nothing has no frame, and leaves no trace. */
static void test_answers(void) {
    const warm_reference seen = {.no = 1, .replica = 1};
    uint8_t frame[66] = {FAKE_DIGESTS, 3};
    size_t length;
    warm handle = {0};
    open_shards(&handle, 2);
    /* the second shard knows something, and the first nothing */
    OK(warm_absorb(&handle, &seen, 1));
    memset(frame + 2, 2, 64); /* all digests differ */
    OK(warm_receive(&handle, frame, sizeof frame));
    take_answers(&handle, frame);
    OK(warm_receive(&handle, frame, 10)); /* a request for buckets 0 to 7 */
    for (int part = 0; part < 8; part++) {
        refuse_frames(&handle);
        OK(warm_next_answer(&handle, frame, sizeof frame, &length));
        MUST(length == FAKE_FULL && frame[2] == 1 + part / 2 * 2);
    }
    memset(frame, 'x', sizeof frame);
    OK(warm_next_answer(&handle, frame, sizeof frame, &length));
    /* no request follows an answer to one */
    MUST(length == 0 && frame[0] == 'x' && frame[22] == 'x');
    OK(warm_receive(&handle, (uint8_t[10]){FAKE_REQUEST, 3, 1, 0, 1, 0, 1}, 10));
    OK(warm_next_answer(&handle, frame, 0, &length)); /* none of these buckets has anything */
    MUST(length == 0 && frame[0] == 'x');
    OK(warm_receive(&handle, (uint8_t[10]){FAKE_REQUEST, 3, 1, 1}, 10));
    OK(warm_receive(&handle, (uint8_t[10]){FAKE_ENTRIES, 3}, 10)); /* which is not answered */
    OK(warm_next_answer(&handle, frame, sizeof frame, &length));
    MUST(length == 0);
    OK(warm_limit(&handle, 2));
    frame[0] = FAKE_REQUEST;
    frame[1] = 3;
    MUST(warm_receive(&handle, frame, 10) == WARM_LATE_HORIZON &&
         warm_receive(&handle, frame, 9) == WARM_TRUNCATED);
    OK(warm_abandon(&handle));
    nothing_left();
}

/* A call that is refused if one allocation is granted, and then the same call. */
#define BOTH(call)                   \
    do {                             \
        granted = 1;                 \
        MUST((call) == WARM_MEMORY); \
        granted = SIZE_MAX;          \
        OK(call);                    \
    } while (0)

static void call_all_others(warm *handle) {
    const warm_reference seen[] = {{.no = 0, .replica = 1}, {.no = 1, .replica = 1}};
    uint8_t frame[66];
    uint64_t horizon;
    size_t number;
    warm_page page;
    warm_sending sending = {.bucket = 1};
    BOTH(warm_absorb(handle, seen, 2));
    OK(warm_absorb(handle, seen, 1));
    OK(warm_raise(handle, 1, &horizon));
    BOTH(warm_offer(handle, frame, sizeof frame, &number));
    OK(warm_send(handle, &sending, frame, sizeof frame, &number));
    BOTH(warm_list(handle, &page, 1, &number));
    BOTH(warm_save(handle, 1));
    BOTH(warm_load(handle, 1, 2));
    OK(warm_history_length(handle, &number));
}

/* Answers wait while the handle makes its other calls. */
static void test_calls_while_answers_wait(void) {
    const uint8_t request[10] = {FAKE_REQUEST, 3, 1, 1};
    uint8_t frame[66];
    warm handle = {0};
    size_t length;
    open_shards(&handle, 2);
    call_all_others(&handle);
    OK(warm_receive(&handle, request, sizeof request));
    for (int part = 0; part < 4; part++) {
        call_all_others(&handle);
        OK(warm_next_answer(&handle, frame, sizeof frame, &length));
        MUST(length == FAKE_FULL && frame[0] == FAKE_ENTRIES && frame[2] == part / 2);
    }
    call_all_others(&handle);
    OK(warm_next_answer(&handle, frame, sizeof frame, &length));
    MUST(length == 0);
    OK(warm_abandon(&handle));
    nothing_left();
}

/* A visit knows who sends what it makes, and how many shards there are. */
static void are_visits_of(const warm *handle, uint16_t replica, size_t count) {
    const opened *its = handle->at;
    const fake_visit *calls = its->calls.at, *answers = its->answers.at;
    MUST(calls->replica == replica && calls->shards == count);
    MUST(answers->replica == replica && answers->shards == count);
}

static void test_visits_of_replicas(void) {
    for (uint16_t replica = 7; replica <= 64; replica += 57) {
        warm handle = {0}, other = {0};
        OK(open_with(&handle, replica, 4, 8, devices, FAKE_DEVICES));
        OK(warm_attach(&handle, &other));
        are_visits_of(&handle, replica, 4);
        are_visits_of(&other, replica, 4);
        OK(warm_close(&other));
        OK(warm_close(&handle));
        nothing_left();
    }
}

/* Of a message, also of one that nothing answers, a handle keeps something until it is said that no
 * answer waits, another message is received, or the handle is closed. */
static void test_what_is_kept(void) {
    const uint8_t entries[10] = {FAKE_ENTRIES, 3, 0, 0, 2}, request[10] = {FAKE_REQUEST, 3, 1, 1};
    uint8_t frame[66];
    warm handle = {0};
    size_t length = 77;
    open_shards(&handle, 4);
    int there = blocks;
    for (int times = 0; times < 3; times++) {
        OK(warm_receive(&handle, times == 1 ? request : entries, 10));
        OK(warm_receive(&handle, entries, 10));
        MUST(blocks == there + 1);
        OK(warm_next_answer(&handle, frame, sizeof frame, &length));
        MUST(length == 0 && blocks == there);
        OK(warm_next_answer(&handle, frame, sizeof frame, &length));
        MUST(length == 0 && blocks == there);
    }
    OK(warm_receive(&handle, request, 10));
    for (int part = 0; part < 4; part++) { /* two of bucket 0: shard 1 knows nothing */
        OK(warm_next_answer(&handle, frame, sizeof frame, &length));
        MUST(length == (part < 2 ? FAKE_FULL : 0) && blocks == there + (part < 2));
    }
    OK(warm_receive(&handle, entries, 10));
    OK(warm_abandon(&handle));
    nothing_left();
}

/* Each allocation of each answer fails in turn, in a shard or as the frame is made: no answer is
 * lost, and none comes twice, whatever the length was before. */
static void test_refused_answers(void) {
    const uint8_t request[10] = {FAKE_REQUEST, 3, 1, 1, 1, 1, 1, 1, 1, 1};
    const warm_reference seen[] = {{.no = 0, .replica = 1}, {.no = 1, .replica = 1},
        {.no = 2, .replica = 1}, {.no = 3, .replica = 1}};
    uint8_t frame[66];
    warm handle = {0};
    size_t length;
    open_shards(&handle, 4);
    OK(warm_absorb(&handle, seen, 4));
    OK(warm_receive(&handle, request, sizeof request));
    for (int part = 0; part < 16; part++) {
        const size_t before = part % 3 == 0 ? 0 : 77;
        length = before;
        frame[0] = 'x';
        EACH_REFUSED(warm_next_answer(&handle, frame, sizeof frame, &length),
            length == before && frame[0] == 'x');
        MUST(length == FAKE_FULL && frame[0] == FAKE_ENTRIES && frame[2] == part / 2);
    }
    OK(warm_next_answer(&handle, frame, sizeof frame, &length));
    MUST(length == 0);
    OK(warm_abandon(&handle));
    nothing_left();
}

/* ---- dumps ---- */

/* Another handle calls the one shard of the replica while its dump is written, synced or read: it
 * would wait for the shard's lock. Each time the history knows one page more. */
static warm beside;
static int dump_calls;

static int call_shard(void) {
    const warm_reference seen = {.no = (uint64_t)++dump_calls, .replica = 1};
    warm_slot slot;
    MUST(held == 0);
    OK(warm_absorb(&beside, &seen, 1));
    OK(warm_pin(&beside, page_at(seen.no), &slot));
    return warm_unpin(&beside, slot);
}

static int write_dump(void *context, uint64_t no, const void *bytes, size_t length) {
    (void)context, (void)no, (void)bytes, (void)length;
    return call_shard();
}

static int read_dump(void *context, uint64_t no, void *into, size_t length) {
    (void)context, (void)no;
    memset(into, 'u', length);
    return call_shard();
}

static int sync_dump(void *context) {
    (void)context;
    return call_shard();
}

static void write_descriptor(int fd, off_t at) { MUST(fd == 1 && at <= 2 && call_shard() == 0); }

static void sync_descriptor(int fd) { MUST(fd == 1 && call_shard() == 0); }

/* A fake dump of two references has two pieces, and is synced; of one that a device has, one byte
 * is read. */
static void test_no_lock_during_save_and_load_of_one_shard(void) {
    static const warm_device_ops calls = {
        .size = sizeof calls, .read = read_dump, .write = write_dump, .sync = sync_dump};
    const warm_device file = {.ops = &calls};
    const warm_reference seen[] = {{.no = 0, .replica = 1}, {.no = 1, .replica = 1}};
    for (int by_descriptor = 0; by_descriptor < 2; by_descriptor++) {
        warm handle = {0};
        open_shards(&handle, 1);
        OK(warm_attach(&handle, &beside));
        OK(warm_absorb(&handle, seen, 2));
        dump_calls = 0;
        at_write = by_descriptor ? write_descriptor : NULL;
        at_sync = by_descriptor ? sync_descriptor : NULL;
        OK(by_descriptor ? warm_save(&handle, 1) : warm_save_to(&handle, &file));
        at_write = NULL;
        MUST(dump_calls == 3 && known(&handle) == 2 + 3);
        OK(warm_load_from(&handle, &file, 4));
        MUST(dump_calls == 4 && known(&handle) == 2 + 4 + 4);
        OK(warm_close(&beside));
        OK(warm_close(&handle));
        nothing_left();
    }
}

/* ---- counts and failures ---- */

static void test_counts(void) {
    warm handle = {0};
    warm_counters counters;
    warm_device_counters of_device;
    open_shards(&handle, 4);
    OK(warm_counts(&handle, &counters));
    MUST(counters.hits == 0 && counters.misses == 0 && counters.evictions == 0 &&
         counters.written_back == 0 && counters.resident == 0 && counters.dirty == 0);
    write_each(&handle, 1, 6);
    write_each(&handle, 1, 3); /* again */
    for (uint64_t no = 6; no < 10; no++) read_from(&handle, (warm_page){.no = no, .dev = 1});
    OK(warm_counts(&handle, &counters));
    MUST(counters.hits == 3 && counters.misses == 10 && counters.evictions == 2 &&
         counters.written_back == 2 && counters.resident == 8 && counters.dirty == 4);
    OK(warm_device_counts(&handle, 0, &of_device));
    MUST(of_device.reads == 4 && of_device.writes == 8 && of_device.flushes == 0 &&
         of_device.failures == 4); /* no node is asked for a flush */
    OK(warm_device_counts(&handle, FAKE_DEVICES - 1, &of_device));
    /* it stays there */
    MUST(of_device.reads == UINT64_MAX && of_device.failures == UINT64_MAX &&
         of_device.writes == 8);
    MUST(warm_device_counts(&handle, FAKE_DEVICES, &of_device) == WARM_NO_DEVICE);
    OK(warm_abandon(&handle));
}

/* Each handle has the failure of its own last call that failed. */
static void test_failures(void) {
    const uint64_t bad = 500;
    warm first = {0}, second = {0};
    warm_failure failure = {.no = 9};
    warm_slot slot;
    bool found = true;
    unreadable = bad;
    open_shards(&first, 4);
    OK(warm_attach(&first, &second));
    OK(warm_last_failure(&first, &found, &failure));
    MUST(!found && failure.no == 9);
    MUST(warm_pin(&first, (warm_page){.no = bad + 3}, &slot) == WARM_READ_FAULT);
    MUST(warm_pin(&second, (warm_page){.no = bad + 3, .dev = 1}, &slot) == WARM_READ_FAULT);
    must_have_failed(&first, bad + 3, 0, WARM_FAILED_READ, ENXIO);
    must_have_failed(&second, bad + 3, 1, WARM_FAILED_READ, ENXIO);
    MUST(warm_pin(&second, (warm_page){.no = bad + 1}, &slot) == WARM_READ_FAULT &&
         warm_pin(&second, (warm_page){.no = FAKE_PAGES}, &slot) == WARM_NO_PAGE);
    must_have_failed(&first, bad + 3, 0, WARM_FAILED_READ, ENXIO);
    must_have_failed(&second, bad + 1, 0, WARM_FAILED_READ, ENXIO);
    OK(warm_close(&second));
    OK(warm_attach(&first, &second));
    OK(warm_last_failure(&second, &found, &failure));
    MUST(!found);
    OK(warm_close(&second));
    MUST(warm_pin(&first, (warm_page){.no = bad + 2}, &slot) == WARM_READ_FAULT); /* the node's */
    must_have_failed(&first, bad + 2, 0, WARM_FAILED_READ, EIO);
    OK(warm_abandon(&first));
    unreadable = INT64_MAX;
}

/* One shard has a later horizon than the others: what is offered has it, and what is forgotten in
 * all is older. */
static void test_horizons(void) {
    const uint8_t request[10] = {FAKE_REQUEST, 8};
    uint8_t frame[66];
    warm handle = {0};
    uint64_t horizon;
    size_t length;
    open_shards(&handle, 4);
    granted = 0; /* it takes no memory */
    OK(warm_raise(&handle, 7, &horizon));
    granted = SIZE_MAX;
    MUST(horizon == 7);
    OK(warm_raise(&handle, 3, &horizon));
    MUST(horizon == 7);
    ((fake *)((opened *)handle.at)->shards[1].node.at)->horizon = 9;
    OK(warm_raise(&handle, 3, &horizon));
    MUST(horizon == 7);
    ((fake *)((opened *)handle.at)->shards[3].node.at)->horizon = 9; /* the last one */
    OK(warm_raise(&handle, 3, &horizon));
    MUST(horizon == 7);
    OK(warm_offer(&handle, frame, sizeof frame, &length));
    MUST(frame[1] == 9);
    OK(warm_receive(&handle, request, sizeof request)); /* it raises the others */
    OK(warm_raise(&handle, 0, &horizon));
    MUST(horizon == 8);
    OK(warm_abandon(&handle));
}

int main(void) {
    test_batches();
    test_small_batches();
    test_great_batches();
    test_limits_of_horizons();
    test_limits_of_stamps();
    test_limits_of_pages();
    test_words();
    test_lists();
    test_sending();
    test_memory();
    test_loads_in_parts();
    test_one_shard_alone();
    test_receives_in_parts();
    test_steps_in_one_shard();
    test_answers();
    test_calls_while_answers_wait();
    test_visits_of_replicas();
    test_what_is_kept();
    test_refused_answers();
    test_no_lock_during_save_and_load_of_one_shard();
    test_counts();
    test_failures();
    test_horizons();
    puts("whole_calls_test: as expected");
    return 0;
}
