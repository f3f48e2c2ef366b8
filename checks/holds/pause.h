/* pause.h: what checks/holds has between the steps of a pin that takes no lock, and of who is in a shard (HOLDS_PAUSE, c/holds.h): now and then
 * a sleep, in which other threads let the page leave, or hold it. */
#include <time.h>

static inline void holds_pause(void) {
    static _Thread_local unsigned count;
    if (++count % 8 == 0) nanosleep(&(struct timespec){.tv_nsec = 20000}, NULL);
}
#define HOLDS_PAUSE() holds_pause()
#define HOLDS_PAUSE_IN_SHARD() holds_pause()
