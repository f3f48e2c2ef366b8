"""All interleavings of readers that pin a page by a hold and of one who gives its frame to other pages, over one record and one frame
(c/holds.h). Where the page is held it waits until a hold is given up (c/waits.h). A store may be late: each thread has a buffer of
stores, as x86 has, and an exchange or a seq_cst store waits until it is empty. Prints how many states there are, and of each wrong
variant who read a page that was not in the frame, or that it waits for ever; fails where one of these is not found, or where c/ as
it is has one."""
import sys

FIRST = 10  # the page that is in the frame at first; those after it have the numbers after it
STATE, PAGE, FRAME, WANTING, HOLDS = range(5)  # memory: the record's state and page, the page in the frame, whether it is wanted, a hold of each reader
LOOK, NAME, HOLD, AGAIN, READ, READ_ON, LET_GO, ORDER, ASK, ENTER = range(10)  # the steps of a reader
AS_IT_IS, ORDERS_ITSELF = "as it is", "as it is, where who gives up a hold orders its store and its look"
PLAIN_STORE, NO_SECOND_LOOK, SAME_STATE = "a plain store of the hold", "no second look", "the next page in the same state"
EARLY_LOOK, EARLY_QUESTION = "a look at the holds before the close", "a look who wants a frame before the hold is given up"
LATE_WANT, NO_ORDER, NO_WAKE = "a wait that is said behind the look at the holds", "a wait that orders nothing", "a hold that is given up in silence"
WRONG = [PLAIN_STORE, NO_SECOND_LOOK, EARLY_LOOK, SAME_STATE, EARLY_QUESTION, LATE_WANT, NO_ORDER, NO_WAKE]

# The steps of the one who evicts: to look whether the page is held, and to give the frame to the next one; or else to look once more, and to wait.
GIVES = ["close", "scan", "decide", "give", "name", "open"]
WAITS = ["want", "order", "close", "scan", "decide again", "sleep", "want no more"]


class Fault(Exception):
    pass


def put(values, at, value):
    return values[:at] + (value,) + values[at + 1:]


def load(memory, buffer, at):
    """What a thread reads: its own latest store, where that is still late."""
    return next((value for place, value in reversed(buffer) if place == at), memory[at])


class Model:
    """A state of the whole is memory, the late stores of each thread, the readers, and the one who evicts. A record's state is odd while it is
    open, and a hold is the state of the record that it names. Who evicts has the lock, but before it closes the record and while it sleeps."""

    def __init__(self, variant, readers, pins, evictions):
        self.variant, self.readers = variant, readers
        gives, waits = list(GIVES), list(WAITS)
        if variant == EARLY_LOOK:
            gives[:2] = ["scan", "close"]
        if variant in (NO_ORDER, ORDERS_ITSELF):
            waits.remove("order")
        if variant == LATE_WANT:
            waits = waits[2:5] + waits[:2] + waits[5:]
        self.program, self.waits_at = gives + waits, len(gives)
        memory = (1, FIRST, FIRST, 0) + (0,) * readers
        reader = (LOOK, 0, 0, pins)  # its step, the state that it saw, the page, the pins that are left
        evicting = (0, 0, False, FIRST + 1, evictions)  # its step, the hold or thread it looks at, whether one is held, the next page
        self.start = memory, ((),) * (readers + 1), (reader,) * readers, evicting

    def steps(self, whole):
        memory, buffers, readers, evicting = whole
        for thread, buffer in enumerate(buffers):
            if buffer:
                yield put(memory, *buffer[0]), put(buffers, thread, buffer[1:]), readers, evicting
        for thread in range(self.readers):
            for memory_now, buffer, reader in self.read(memory, buffers[thread], HOLDS + thread, *readers[thread]):
                yield memory_now, put(buffers, thread, buffer), put(readers, thread, reader), evicting
            if readers[thread][0] == ENTER and not buffers[thread] and self.is_unlocked(evicting):
                yield memory, buffers, put(readers, thread, (LOOK, 0, 0, readers[thread][-1] - 1)), self.woken(evicting)
        if evicting[-1] > 0:
            for memory_now, buffer, evicting_now in self.evict(memory, buffers, *evicting):
                yield memory_now, put(buffers, self.readers, buffer), readers, evicting_now

    def is_asleep(self, evicting):
        return self.program[evicting[0]] == "sleep"

    def is_unlocked(self, evicting):
        return evicting[0] == 0 or self.is_asleep(evicting)

    def woken(self, evicting):
        return (evicting[0] + 1, *evicting[1:]) if self.is_asleep(evicting) else evicting

    def read(self, memory, buffer, hold, step, seen, page, left):
        if step == LOOK and left > 0:
            seen = load(memory, buffer, STATE)
            yield memory, buffer, (NAME, seen, 0, left) if seen % 2 == 1 else (LOOK, 0, 0, left - 1)
        elif step == NAME:
            yield memory, buffer, (HOLD, seen, load(memory, buffer, PAGE), left)
        elif step == HOLD and self.variant == PLAIN_STORE:
            yield memory, buffer + ((hold, seen),), (AGAIN, seen, page, left)
        elif step == HOLD and not buffer:
            yield put(memory, hold, seen), buffer, (AGAIN, seen, page, left)
        elif step == AGAIN and (self.variant == NO_SECOND_LOOK or load(memory, buffer, STATE) == seen):
            yield memory, buffer, (READ, seen, page, left)
        elif step == AGAIN:  # it pins the page with the lock, and wakes who sleeps when it unpins that
            yield memory, buffer + ((hold, 0),), (ENTER, 0, 0, left)
        elif step in (READ, READ_ON):
            if load(memory, buffer, FRAME) != page:
                raise Fault(f"a reader that pins page {page} reads page {memory[FRAME]}")
            yield memory, buffer, (step + 1, seen, page, left)
        else:
            yield from self.let_go(memory, buffer, hold, step, seen, left)

    def let_go(self, memory, buffer, hold, step, seen, left):
        is_wanted, is_early = load(memory, buffer, WANTING) == 1, self.variant == EARLY_QUESTION
        given_up, after = buffer + ((hold, 0),), (LOOK, 0, 0, left - 1)
        if is_early and step == LET_GO:
            yield memory, buffer, (ASK, is_wanted, 0, left)
        elif is_early and step == ASK:
            yield memory, given_up, (ENTER, 0, 0, left) if seen else after
        elif step == LET_GO and self.variant == NO_WAKE:
            yield memory, given_up, after
        elif step == LET_GO:
            yield memory, given_up, (ORDER if self.variant == ORDERS_ITSELF else ASK, 0, 0, left)
        elif step == ORDER and not buffer:
            yield memory, buffer, (ASK, 0, 0, left)
        elif step == ASK:
            yield memory, buffer, (ENTER, 0, 0, left) if is_wanted else after

    def evict(self, memory, buffers, step, at, is_held, page, left):
        buffer = buffers[-1]
        what, state = self.program[step], load(memory, buffer, STATE)
        is_last = at + 1 == self.readers
        goes_on = (step + 1, 0, is_held, page, left)
        if what == "close" and not buffer:
            yield put(memory, STATE, state - 1), buffer, goes_on
        elif what == "scan":
            is_held = is_held or load(memory, buffer, HOLDS + at) == (state | 1)
            yield memory, buffer, (step + is_last, 0 if is_last else at + 1, is_held, page, left)
        elif what == "decide" and is_held:
            yield memory, buffer + ((STATE, state + 1),), (self.waits_at, 0, False, page, left)
        elif what in ("decide", "give", "name"):
            stored = {"decide": (), "give": ((FRAME, page),), "name": ((PAGE, page),)}[what]
            yield memory, buffer + stored, goes_on
        elif what == "open":
            state += 1 if self.variant == SAME_STATE else 3
            yield memory, buffer + ((STATE, state),), (0, 0, False, page + 1, left - 1)
        elif what == "want" and not buffer:
            yield put(memory, WANTING, 1), buffer, goes_on
        elif what == "order" and not buffers[at]:
            yield memory, buffer, (step + is_last, 0 if is_last else at + 1, is_held, page, left)
        elif what == "decide again":
            after = step + 1 if is_held else len(self.program) - 1
            yield memory, buffer + ((STATE, state + 1),), (after, 0, False, page, left)
        elif what == "want no more" and not buffer:
            yield put(memory, WANTING, 0), buffer, (0, 0, False, page, left)

    def explore(self):
        """How many states can be reached."""
        seen, todo = {self.start}, [self.start]
        while todo:
            whole, is_last = todo.pop(), True
            for after in self.steps(whole):
                is_last = False
                if after not in seen:
                    seen.add(after)
                    todo.append(after)
            if is_last and whole[-1][-1] > 0:
                raise Fault("who wants the frame waits for ever, and nobody holds its page")
        return len(seen)


def main():
    for right in (AS_IT_IS, ORDERS_ITSELF):
        print(f"model: {right}: {Model(right, readers=2, pins=2, evictions=3).explore()} states, no fault", flush=True)
        print(f"model: {right}: {Model(right, readers=1, pins=3, evictions=4).explore()} states, no fault", flush=True)
    for variant in WRONG:
        try:
            Model(variant, readers=2, pins=1, evictions=2).explore()
        except Fault as fault:
            print(f"model: {variant}: {fault}", flush=True)
        else:
            sys.exit(f"model: {variant}: no fault was found")


main()
