/* The log before the page: before_write of a device. One that skips pages for ever, one that syncs a log and then lets go, one for each of two
 * devices, and one over a second handle. Pages that are skipped keep back no other. And kill -9 at any moment: no page is in its file before its log
 * record is in the log, whether one thread changes pages or several do. */
#define _GNU_SOURCE /* mkstemp, fork */
#include <errno.h>
#include <fcntl.h>
#include <pthread.h>
#include <signal.h>
#include <sys/stat.h>
#include <sys/wait.h>

#define PROGRAM "logged"
#include "expect.h"

enum { PAGE_SIZE = 512, PAGES = 40, RECORDS = 64 };

/* A process is at work after so many changes of each thread. */
enum {
    KILLS = 50,
    KILLS_IN_THREADS = 12,
    MOST_THREADS = 4,
    AT_WORK = 16,
    MOST_MICROSECONDS = 8000,
    MOST_SECONDS = 600
};

/* ---- what is asked, and what it does ---- */

/* What is answered, and what was asked for last, and told. */
typedef struct gate {
    int answer, calls, told;
    uint64_t no;
    size_t length;
    uint8_t first;
} gate;

static int ask_gate(void *context, uint64_t no, const void *bytes, size_t length) {
    gate *it = context;
    *it = (gate){it->answer, it->calls + 1, it->told, no, length, *(const uint8_t *)bytes};
    errno = EBADF; /* of its own calls: it means nothing */
    return it->answer;
}

static void tell_gate(void *context, uint64_t no, int error) {
    gate *it = context;
    MUST(no == it->no && error == 0);
    it->told++;
}

static const warm_device_ops gate_calls = {.size = sizeof gate_calls, .before_write = ask_gate, .after_write = tell_gate};

static warm_device device_with(int fd, const warm_device_ops *ops, void *context) {
    return (warm_device){.pages = PAGES, .fd = fd, .ops = ops, .context = context};
}

static int status_of_write(warm *handle, warm_page page, uint8_t byte) {
    warm_slot slot;
    int status = warm_pin(handle, page, &slot);
    if (status != WARM_OK) return status;
    OK(warm_write(handle, slot, 0, &byte, 1));
    OK(warm_unpin(handle, slot));
    return WARM_OK;
}

static uint8_t read_from(warm *handle, warm_page page) {
    warm_slot slot;
    uint8_t byte;
    OK(warm_pin(handle, page, &slot));
    OK(warm_read(handle, slot, 0, &byte, 1));
    OK(warm_unpin(handle, slot));
    return byte;
}

static uint8_t byte_in(int fd, uint64_t no) {
    uint8_t byte = 0;
    MUST(pread(fd, &byte, 1, (off_t)(no * PAGE_SIZE)) >= 0);
    return byte;
}

static off_t size_of(int fd) {
    struct stat about;
    MUST(fstat(fd, &about) == 0);
    return about.st_size;
}

/* ---- pages that are skipped ---- */

/* Each eviction and each write-back is refused by name, as often as it is tried, and nothing is lost; once it gives in all is written. Each asks for
 * both pages. */
static void never_lets_go(void) {
    int fd = temporary();
    gate log = {.answer = EAGAIN};
    const warm_device device = device_with(fd, &gate_calls, &log);
    const warm_reference hot = {.time = 1, .no = 9, .replica = 1};
    warm handle = {0};
    warm_page page = {.no = 77};
    bool found = false;
    OK(open_with(&handle, 1, 1, 2, PAGE_SIZE, &device, 1));
    OK(status_of_write(&handle, (warm_page){.no = 0}, 'a'));
    OK(status_of_write(&handle, (warm_page){.no = 1}, 'b'));
    OK(warm_absorb(&handle, &hot, 1));
    for (int tries = 1; tries <= 20; tries++) {
        EXPECT(WARM_EVICT_FAULT, status_of_write(&handle, (warm_page){.no = 2}, 'c'));
        MUST(log.no <= 1 && log.length == PAGE_SIZE && log.first == (log.no == 0 ? 'a' : 'b'));
        EXPECT(WARM_EVICT_FAULT, warm_step(&handle, &found, &page));
        EXPECT(WARM_SKIPPED, warm_write_back_all(&handle));
        MUST(log.calls == 6 * tries && log.told == 0 && size_of(fd) == 0 && page.no == 77);
        MUST(read_from(&handle, (warm_page){.no = 0}) == 'a' && read_from(&handle, (warm_page){.no = 1}) == 'b');
    }
    log.answer = 0;
    OK(status_of_write(&handle, (warm_page){.no = 2}, 'c'));
    OK(warm_write_back_all(&handle));
    MUST(byte_in(fd, 0) == 'a' && byte_in(fd, 1) == 'b' && byte_in(fd, 2) == 'c' && size_of(fd) == 3 * PAGE_SIZE && log.calls == 123 && log.told == 3);
    log.answer = ENOSPC;
    OK(status_of_write(&handle, (warm_page){.no = 2}, 'd'));
    EXPECT(WARM_WRITE_FAULT, warm_write_back_all(&handle));
    EXPECT(WARM_DIRTY, warm_close(&handle));
    OK(warm_abandon(&handle)); /* what is dirty is lost, and nothing is asked */
    MUST(byte_in(fd, 2) == 'c' && log.calls == 124);
    close(fd);
}

static int hold_first_back(void *context, uint64_t no, const void *bytes, size_t length) {
    (void)bytes, (void)length;
    *(int *)context += no == 0 && *(int *)context >= 0;
    return no == 0 && *(int *)context >= 0 ? EAGAIN : 0;
}

static const warm_device_ops holding_back = {.size = sizeof holding_back, .before_write = hold_first_back};

/* One page is held back, and would leave next: it stays, other pages leave for those that come, and all others are written back. */
static void one_held_back(void) {
    for (size_t shards = 1; shards <= 4; shards *= 4) {
        int fd = temporary(), calls = 0;
        const warm_device device = device_with(fd, &holding_back, &calls);
        warm handle = {0};
        warm_counters counters;
        warm_device_counters of_device;
        warm_failure failure;
        bool found;
        size_t left;
        OK(open_with(&handle, 1, shards, 4 * shards, PAGE_SIZE, &device, 1));
        OK(status_of_write(&handle, (warm_page){.no = 0}, 'a'));
        for (uint64_t no = 1; no < PAGES; no++) OK(status_of_write(&handle, (warm_page){.no = no}, 'b'));
        MUST(calls > 0 && read_from(&handle, (warm_page){.no = 0}) == 'a' && byte_in(fd, 0) == 0);
        OK(warm_last_failure(&handle, &found, &failure));
        MUST(found && failure.no == 0 && failure.what == WARM_FAILED_WRITE && failure.error == EAGAIN);
        EXPECT(WARM_SKIPPED, warm_write_back_some(&handle, 1, &left));
        EXPECT(WARM_SKIPPED, warm_write_back_all(&handle));
        for (uint64_t no = 1; no < PAGES; no++) MUST(byte_in(fd, no) == 'b');
        MUST(byte_in(fd, 0) == 0);
        OK(warm_counts(&handle, &counters)); /* what is passed over is no hit, and was not written */
        MUST(counters.hits == 1 && counters.misses == PAGES && counters.dirty == 1 && counters.written_back == PAGES - 1);
        OK(warm_device_counts(&handle, 0, &of_device));
        MUST(of_device.writes == PAGES - 1 + (uint64_t)calls && of_device.failures == (uint64_t)calls);
        calls = -1;
        OK(warm_write_back_all(&handle));
        for (uint64_t no = 0; no < PAGES; no++) MUST(byte_in(fd, no) == (no == 0 ? 'a' : 'b'));
        OK(warm_close(&handle));
        close(fd);
    }
}

/* Of two devices one skips its pages; the other's pages leave. Then neither does. */
static void two_devices(void) {
    int fds[] = {temporary(), temporary()};
    gate logs[] = {{.answer = 0}, {.answer = EAGAIN}};
    const warm_device devices[] = {device_with(fds[0], &gate_calls, &logs[0]), device_with(fds[1], &gate_calls, &logs[1])};
    warm handle = {0};
    OK(open_with(&handle, 1, 1, 4, PAGE_SIZE, devices, 2));
    OK(status_of_write(&handle, (warm_page){.no = 3, .dev = 0}, 'e'));
    OK(status_of_write(&handle, (warm_page){.no = 5, .dev = 1}, 'f'));
    EXPECT(WARM_SKIPPED, warm_write_back_all(&handle));
    MUST(logs[1].calls == 1 && logs[1].no == 5 && size_of(fds[1]) == 0 && byte_in(fds[0], 3) == 'e');
    OK(warm_flush_device(&handle, 0));
    EXPECT(WARM_WRITE_FAULT, warm_replace(&handle, 1, &devices[1])); /* what it skips would be lost */
    logs[1].answer = 0;
    OK(warm_write_back_all(&handle));
    MUST(logs[0].calls == 1 && logs[0].no == 3 && logs[1].calls == 3 && logs[1].told == 1 && byte_in(fds[1], 5) == 'f');
    const warm_device alone = {.pages = PAGES, .fd = fds[1]};
    OK(warm_replace(&handle, 1, &alone)); /* the same file, which is asked for no more */
    OK(status_of_write(&handle, (warm_page){.no = 6, .dev = 1}, 'g'));
    OK(warm_write_back_all(&handle));
    MUST(logs[1].calls == 3 && byte_in(fds[1], 6) == 'g');
    OK(warm_close(&handle));
    close(fds[1]);
    close(fds[0]);
}

/* The pieces of a dump are asked for, where somebody has set that: a save may end before its time. */
static int end_save(void *context, uint64_t no, const void *bytes, size_t length) {
    gate *it = context;
    (void)bytes;
    MUST(it->answer != 0 || no == it->no + it->length);
    it->calls++;
    it->no = no;
    it->length = length;
    return it->answer;
}

static void asked_for_dump(void) {
    static const warm_device_ops asks = {.size = sizeof asks, .before_write = end_save};
    int fd = temporary();
    const warm_reference reference = {.time = 1, .no = 7, .replica = 1};
    gate log = {.answer = 1};
    const warm_device file = {.fd = fd, .ops = &asks, .context = &log};
    warm handle = {0};
    size_t known;
    OK(open_with(&handle, 1, 1, 1, 1, NULL, 0));
    OK(warm_absorb(&handle, &reference, 1));
    EXPECT(WARM_DUMP_NOT_WRITTEN, warm_save_to(&handle, &file));
    MUST(log.calls == 1 && log.no == 0 && size_of(fd) == 0);
    log = (gate){.answer = 0};
    OK(warm_save_to(&handle, &file));
    MUST(log.calls > 1 && (off_t)(log.no + log.length) == size_of(fd));
    OK(warm_load(&handle, fd, (uint64_t)size_of(fd)));
    OK(warm_load_from(&handle, &file, (uint64_t)size_of(fd)));
    OK(warm_history_length(&handle, &known));
    MUST(known == 1);
    OK(warm_close(&handle));
    close(fd);
}

/* ---- a log of pages, by another handle ---- */

typedef struct log_pool {
    warm handle;
    int fd, data;
    uint64_t next;
} log_pool;

/* Writes a page of the log through a pool of its own, in the midst of the other handle's call, and writes it back and syncs it. */
static int log_by_handle(void *context, uint64_t no, const void *bytes, size_t length) {
    log_pool *log = context;
    uint8_t first = *(const uint8_t *)bytes;
    MUST(length == PAGE_SIZE && byte_in(log->data, no) != first);
    OK(status_of_write(&log->handle, (warm_page){.no = log->next}, first));
    OK(warm_write_back_all(&log->handle));
    MUST(byte_in(log->fd, log->next++) == first);
    return 0;
}

static const warm_device_ops logging = {.size = sizeof logging, .before_write = log_by_handle};

static void other_handle(void) {
    log_pool log = {.fd = temporary(), .data = temporary()};
    const warm_device log_device = {.pages = PAGES, .fd = log.fd}, device = device_with(log.data, &logging, &log);
    warm handle = {0};
    OK(open_with(&log.handle, 1, 1, 2, PAGE_SIZE, &log_device, 1));
    OK(open_with(&handle, 1, 1, 2, PAGE_SIZE, &device, 1));
    for (uint64_t no = 0; no < 10; no++) OK(status_of_write(&handle, (warm_page){.no = no}, (uint8_t)('a' + no)));
    MUST(log.next == 8); /* two are still in frames */
    OK(warm_write_back_all(&handle));
    for (uint64_t no = 0; no < 10; no++) MUST(byte_in(log.data, no) == 'a' + no);
    MUST(log.next == 10);
    OK(warm_close(&handle));
    OK(warm_close(&log.handle));
    close(log.data);
    close(log.fd);
}

/* ---- kill -9 ---- */

/* What a page begins with, and what its log record is: the number of its last change, where all changes of all pages are counted. */
typedef struct record {
    uint64_t version, no;
} record;

/* An engine: records wait in memory until its log is synced up to a version. With its lock a thread
 * waits for the log alone: before_write takes it, which may be asked with a shard locked. */
typedef struct engine {
    pthread_mutex_t lock;
    int data, log, begun;     /* begun: of a pipe, to which it writes once it is at work */
    uint64_t version, synced; /* of the last change, and of the last one that the log has */
    uint64_t at_work;         /* the version with which it is */
    size_t waiting;
    record records[RECORDS];
    bool is_eager; /* its callback syncs the log, and else skips the page */
    bool is_alone; /* one thread alone changes pages */
} engine;

/* With the engine's lock. */
static void sync_log(engine *it) {
    size_t length = it->waiting * sizeof(record);
    if (length == 0) return;
    MUST(write(it->log, it->records, length) == (ssize_t)length && fdatasync(it->log) == 0);
    it->synced = it->records[it->waiting - 1].version;
    it->waiting = 0;
}

static void lock_and_sync_log(engine *it) {
    pthread_mutex_lock(&it->lock);
    sync_log(it);
    pthread_mutex_unlock(&it->lock);
}

/* Whether the log has the last change of a page; where it may be synced for that, it has. */
static bool is_logged(engine *it, uint64_t no, const void *bytes, bool may_sync) {
    record page;
    memcpy(&page, bytes, sizeof page);
    MUST(page.no == no);
    pthread_mutex_lock(&it->lock);
    if (page.version > it->synced && may_sync) sync_log(it);
    bool is_so = page.version <= it->synced;
    pthread_mutex_unlock(&it->lock);
    return is_so;
}

/* Now and then other threads have the time to change the page, if they do not wait until it is
 * copied. */
static int after_log(void *context, uint64_t no, const void *bytes, size_t length) {
    static _Thread_local unsigned asked;
    engine *it = context;
    MUST(length == PAGE_SIZE);
    bool is_so = is_logged(it, no, bytes, it->is_eager);
    if (!it->is_alone && ++asked % 2 == 0) usleep(100);
    return is_so ? 0 : EAGAIN;
}

static const warm_device_ops after_the_log = {
    .size = sizeof after_the_log, .before_write = after_log};

/* The same for several threads. A write takes a moment, in which they change pages, or are killed:
 * the log has what is written, as it was asked about that. */
static int read_data(void *context, uint64_t no, void *into, size_t length) {
    const engine *it = context;
    memset(into, 0, length); /* behind the end of the file are zeros */
    return pread(it->data, into, length, (off_t)(no * PAGE_SIZE)) < 0 ? errno : 0;
}

static int write_data(void *context, uint64_t no, const void *bytes, size_t length) {
    engine *it = context;
    usleep(50);
    MUST(is_logged(it, no, bytes, false));
    return pwrite(it->data, bytes, length, (off_t)(no * PAGE_SIZE)) == (ssize_t)length ? 0 : EIO;
}

static int sync_data(void *context) {
    const engine *it = context;
    return fdatasync(it->data) == 0 ? 0 : errno;
}

static const warm_device_ops slow_after_the_log = {.size = sizeof slow_after_the_log,
    .read = read_data,
    .write = write_data,
    .sync = sync_data,
    .before_write = after_log};

/* The next change, of this page. Its record waits then. */
static record log_change(engine *it, uint64_t no) {
    pthread_mutex_lock(&it->lock);
    if (it->waiting == RECORDS) sync_log(it);
    record change = {.version = ++it->version, .no = no};
    it->records[it->waiting++] = change;
    pthread_mutex_unlock(&it->lock);
    if (change.version == it->at_work) MUST(write(it->begun, "", 1) == 1);
    return change;
}

/* Refused calls are made again once the log is synced: by one thread once; by several until other
 * ones have not changed all pages since. */
static void change_page(engine *it, warm *handle, uint64_t no) {
    const record change = log_change(it, no);
    warm_slot slot;
    int status = warm_pin(handle, (warm_page){.no = no}, &slot);
    for (int tries = 0; status == WARM_EVICT_FAULT && (tries == 0 || !it->is_alone); tries++) {
        MUST(!it->is_eager);
        lock_and_sync_log(it);
        status = warm_pin(handle, (warm_page){.no = no}, &slot);
    }
    MUST(status == WARM_OK);
    MUST(warm_write(handle, slot, 0, (const uint8_t *)&change, sizeof change) == WARM_OK);
    MUST(warm_unpin(handle, slot) == WARM_OK);
}

/* Until the process is killed. */
_Noreturn static void change_pages(engine *it, warm *handle, unsigned seed) {
    for (;;) {
        change_page(it, handle, (uint64_t)rand_r(&seed) % PAGES);
        if (rand_r(&seed) % 50 > 0) continue;
        lock_and_sync_log(it);
        int status = warm_write_back_all(handle);
        MUST(status == WARM_OK || (status == WARM_SKIPPED && !it->is_alone && !it->is_eager));
    }
}

/* A thread with a handle of its own. */
typedef struct changer {
    pthread_t thread;
    warm handle;
    engine *of;
    unsigned seed;
} changer;

static void *work(void *of) {
    changer *its = of;
    change_pages(its->of, &its->handle, its->seed);
}

/* Changes pages until it is killed; by itself, where the parent was killed first. One thread is
 * alone with the replica, so that its node writes; each of several has attached a handle, and then
 * pages are written with no shard locked. */
_Noreturn static void live(engine *it, unsigned at, size_t threads) {
    static changer changers[MOST_THREADS];
    size_t shards = threads > 1 && at % 12 >= 6 ? 4 : 1;
    const warm_device_ops *ops = threads > 1 ? &slow_after_the_log : &after_the_log;
    const warm_device device = device_with(it->data, ops, it);
    warm first = {0};
    alarm(MOST_SECONDS);
    it->is_eager = at % 2 == 0;
    it->is_alone = threads == 1;
    OK(open_with(&first, 1, shards, 4 * shards, PAGE_SIZE, &device, 1));
    if (it->is_alone) change_pages(it, &first, at);
    for (size_t i = 0; i < threads; i++) {
        changers[i].of = it;
        changers[i].seed = at * MOST_THREADS + (unsigned)i;
        OK(warm_attach(&first, &changers[i].handle));
    }
    for (size_t i = 0; i < threads; i++)
        MUST(pthread_create(&changers[i].thread, NULL, work, &changers[i]) == 0);
    for (;;) pause();
}

/* Whether the log has the record of each page in the file; and its latest version. */
static uint64_t check_order(int fd, int log) {
    uint64_t latest = 0;
    record found, pages[PAGES] = {{0}};
    size_t missing = 0;
    for (uint64_t no = 0; no < PAGES; no++) {
        MUST(pread(fd, &pages[no], sizeof(record), (off_t)(no * PAGE_SIZE)) >= 0);
        missing += pages[no].version != 0;
    }
    for (off_t at = 0; pread(log, &found, sizeof found, at) == sizeof found; at += (off_t)sizeof found) {
        MUST(found.version > latest && found.no < PAGES);
        latest = found.version;
        missing -= pages[found.no].version == found.version && pages[found.no].no == found.no;
    }
    MUST(missing == 0);
    return latest;
}

/* Kills a process at any moment once it is at work. None ended before, by a fault of its own. */
static void kill_one(int fd, int log, uint64_t latest, unsigned at, size_t threads) {
    int begun[2], status;
    uint8_t byte;
    MUST(pipe(begun) == 0);
    engine its = {.lock = PTHREAD_MUTEX_INITIALIZER,
        .data = fd,
        .log = log,
        .begun = begun[1],
        .version = latest,
        .synced = latest,
        .at_work = latest + AT_WORK * threads};
    pid_t child = fork();
    MUST(child >= 0);
    if (child == 0) live(&its, at, threads);
    close(begun[1]);
    MUST(read(begun[0], &byte, 1) == 1);
    usleep((unsigned)rand() % MOST_MICROSECONDS);
    bool is_killed = kill(child, SIGKILL) == 0 && waitpid(child, &status, 0) == child &&
                     WIFSIGNALED(status) && WTERMSIG(status) == SIGKILL;
    MUST(is_killed);
    close(begun[0]);
}

/* By one thread over one shard; or by 2 to 4 of them, over 1 shard and then over 4. */
static void killed(unsigned kills, bool in_threads) {
    int fd = temporary(), log = temporary();
    uint64_t latest = 0;
    MUST(fcntl(log, F_SETFL, O_APPEND) == 0);
    for (unsigned at = 0; at < kills; at++) {
        kill_one(fd, log, latest, at, in_threads ? 2 + at / 2 % 3 : 1);
        MUST(ftruncate(log, size_of(log) / (off_t)sizeof(record) * (off_t)sizeof(record)) == 0);
        latest = check_order(fd, log);
    }
    MUST(latest >= kills);
    printf("logged: %u kills of %s, after %llu changes in the log\n", kills,
        in_threads ? "2 to 4 threads" : "one thread", (unsigned long long)latest);
    close(log);
    close(fd);
}

int main(void) {
    never_lets_go();
    one_held_back();
    two_devices();
    asked_for_dump();
    other_handle();
    killed(KILLS, false);
    killed(KILLS_IN_THREADS, true);
    return end_as_expected();
}
