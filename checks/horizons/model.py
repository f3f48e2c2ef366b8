"""Worlds by their definitions (scripts/definitions prints them): which answer each line of a schedule has to get.

The model keeps every reference for good. What a replica holds is computed from all of them: those that are not before its horizon. It ranks
pages by counting later references, and compares buckets by what they hold, and not by digests. It knows nothing of bytes: lines `put`
and `get` are left out, and a device is how many pages it has.
"""

from bisect import bisect_right
from collections.abc import Callable
from dataclasses import dataclass

BUCKETS = 64
ENTRIES_OF_A_FRAME = 1000

Page = tuple[int, int]  # a device, and a number there
Stamp = tuple[int, int]  # a time, and the number of a replica
Reference = tuple[Page, Stamp]
Entry = tuple[Page, list[Stamp]]  # a page with its latest stamp, and the one before it where there is one

NAMES = {
    4: "NoDevice",
    5: "NoPage",
    6: "AllFixed",
    11: "Fixed",
    13: "StaleSlot",
    14: "NoSuchReplica",
    15: "NoSuchWorker",
    16: "NoSuchFrame",
}


class Refused(Exception):
    """An event is refused, by this number."""


def page_text(page: Page) -> str:
    return f"{page[0]}:{page[1]}"


def bucket_of(page: Page) -> int:
    return sum(page) % BUCKETS


@dataclass
class References:
    """A set of references: all that were given, and the time before which they are forgotten."""

    horizon: int = 0
    given: frozenset[Reference] = frozenset()

    def united(self, other: "References") -> "References":
        return References(max(self.horizon, other.horizon), self.given | other.given)

    def kept(self) -> set[Reference]:
        return {(page, stamp) for page, stamp in self.given if stamp[0] >= self.horizon}

    def stamps(self) -> dict[Page, list[Stamp]]:
        """The stamps of each page, the latest first."""
        found: dict[Page, list[Stamp]] = {}
        for page, stamp in sorted(self.kept(), reverse=True):
            found.setdefault(page, []).append(stamp)
        return found

    def entries(self) -> list[Entry]:
        return [(page, stamps[:2]) for page, stamps in sorted(self.stamps().items())]

    def bucket(self, bucket: int) -> list[Entry]:
        return [entry for entry in self.entries() if bucket_of(entry[0]) == bucket]

    def carried(self, bucket: int, after: Page | None) -> "References":
        """Those on the first pages of a bucket that come after this one, as many as a message has."""
        pages = [page for page, _ in self.bucket(bucket) if after is None or page > after][:ENTRIES_OF_A_FRAME]
        return References(self.horizon, frozenset((page, stamp) for page, stamp in self.given if page in pages))

    def leaving(self) -> Callable[[Page], tuple]:
        """Of two pages the lesser leaves first: the one of greater backward 2-distance, then of older latest stamp, then the lesser."""
        stamps = self.stamps()
        in_order = sorted(stamp for _, stamp in self.kept())

        def place(page: Page) -> tuple:
            known = stamps.get(page, [])
            later = len(in_order) - bisect_right(in_order, known[1]) if len(known) > 1 else float("inf")
            return -later, known[:1], page

        return place

    def hottest(self, count: int) -> list[Page]:
        return sorted(self.stamps(), key=self.leaving(), reverse=True)[:count]


@dataclass
class Frame:
    """A frame of a pool."""

    page: Page | None = None
    generation: int = 0
    fixes: int = 0


@dataclass
class Sums:
    """A message that offers a history: its horizon, and what each bucket holds."""

    horizon: int
    buckets: list[list[Entry]]


@dataclass
class Request:
    """A message that requests buckets."""

    horizon: int
    buckets: list[int]


Sent = References | Sums | Request


class Replica:
    def __init__(self, workers: int, frames: int) -> None:
        self.reach = References()
        self.pending: list[list[Reference]] = [[] for _ in range(workers)]
        self.frames = [Frame() for _ in range(frames)]

    def flush(self, worker: int) -> None:
        self.reach = self.reach.united(References(0, frozenset(self.pending[worker])))
        self.pending[worker] = []

    def victim(self) -> Page | None:
        pages = [frame.page for frame in self.frames if frame.page is not None and frame.fixes == 0]
        return min(pages, key=self.reach.leaving(), default=None)

    def frame_of(self, page: Page | None) -> Frame | None:
        return next((frame for frame in self.frames if frame.page == page), None)

    def bring(self, page: Page) -> Frame:
        """Puts a page into the first free frame, or into that of the victim."""
        frame = self.frame_of(None)
        if frame is None:
            leaving = self.victim()
            if leaving is None:
                raise Refused(6)
            frame = self.frame_of(leaving)
        frame.page = page
        frame.generation += 1
        return frame

    def buckets(self, wanted: list[int]) -> list[Sent]:
        """What is sent of these buckets, in messages that are as full as can be."""
        sent: list[Sent] = []
        for bucket in wanted:
            part = self.reach.carried(bucket, None)
            while part.entries():
                sent.append(part)
                part = self.reach.carried(bucket, part.entries()[-1][0])
        return sent

    def answers(self, frame: Sent) -> list[Sent]:
        """What is answered to a message, once its references and its horizon were taken in."""
        if isinstance(frame, Request):
            return self.buckets(frame.buckets)
        if isinstance(frame, References):
            return []
        differing = [bucket for bucket in range(BUCKETS) if self.reach.bucket(bucket) != frame.buckets[bucket]]
        if not differing:
            return []
        return [*self.buckets(differing), Request(self.reach.horizon, differing)]


class World:
    """Replicas, and every message that was sent."""

    def __init__(self, replicas: int, workers: int, buffer: int, frames: int, devices: list[int]) -> None:
        self.replicas = [Replica(workers, frames) for _ in range(replicas)]
        self.buffer = buffer
        self.devices = devices  # how many pages each has
        self.sent: list[Sent] = []

    def ask(self, word: str, numbers: list) -> list[str]:
        """The lines that answer an event."""
        try:
            return getattr(self, word)(*numbers)
        except Refused as refused:
            number = refused.args[0]
            return [f"refused {number} {NAMES[number]}"]

    def replica(self, i: int) -> Replica:
        if not 1 <= i <= len(self.replicas):
            raise Refused(14)
        return self.replicas[i - 1]

    def worker(self, replica: Replica, w: int) -> int:
        if not 1 <= w <= len(replica.pending):
            raise Refused(15)
        return w - 1

    # the events, by their words

    def ref(self, i: int, w: int, page: Page, time: int) -> list[str]:
        replica = self.replica(i)
        worker = self.worker(replica, w)
        if len(replica.pending[worker]) == self.buffer:
            replica.flush(worker)
        replica.pending[worker].append((page, (time, i)))
        return ["ok"]

    def flush(self, i: int, w: int) -> list[str]:
        replica = self.replica(i)
        replica.flush(self.worker(replica, w))
        return ["ok"]

    def horizon(self, i: int, time: int) -> list[str]:
        replica = self.replica(i)
        replica.reach = replica.reach.united(References(time))
        return [f"horizon {replica.reach.horizon}"]

    def send(self, i: int, bucket: int, after: Page | None = None) -> list[str]:
        self.sent.append(self.replica(i).reach.carried(bucket, after))
        return [f"frame {len(self.sent)}"]

    def offer(self, i: int) -> list[str]:
        reach = self.replica(i).reach
        self.sent.append(Sums(reach.horizon, [reach.bucket(bucket) for bucket in range(BUCKETS)]))
        return [f"frame {len(self.sent)}"]

    def deliver(self, j: int, k: int) -> list[str]:
        replica = self.replica(j)
        if not 1 <= k <= len(self.sent):
            raise Refused(16)
        frame = self.sent[k - 1]
        brought = frame if isinstance(frame, References) else References(frame.horizon)
        replica.reach = replica.reach.united(brought)
        answers = replica.answers(frame)
        self.sent += answers
        return [f"took {len(answers)} from {len(self.sent) - len(answers) + 1}" if answers else "took 0"]

    def pin(self, i: int, page: Page) -> list[str]:
        replica = self.replica(i)
        device, number = page
        if device >= len(self.devices):
            raise Refused(4)
        if number >= self.devices[device]:
            raise Refused(5)
        frame = replica.frame_of(page) or replica.bring(page)
        frame.fixes += 1
        index = next(at for at, other in enumerate(replica.frames) if other is frame)
        return [f"slot {index}.{frame.generation}"]

    def unpin(self, i: int, index: int, generation: int) -> list[str]:
        replica = self.replica(i)
        frame = replica.frames[index] if index < len(replica.frames) else Frame()
        if frame.generation != generation or frame.fixes == 0:
            raise Refused(13)
        frame.fixes -= 1
        return ["ok"]

    def victim(self, i: int) -> list[str]:
        page = self.replica(i).victim()
        return ["none" if page is None else f"page {page_text(page)}"]

    def warm(self, i: int, count: int) -> list[str]:
        return [" ".join(["pages", *map(page_text, self.replica(i).reach.hottest(count))])]

    def warmstep(self, i: int) -> list[str]:
        replica = self.replica(i)
        for page in replica.reach.hottest(len(replica.frames)):
            is_there = page[0] < len(self.devices) and page[1] < self.devices[page[0]]
            if is_there and replica.frame_of(page) is None:
                replica.bring(page)
                return [f"loaded {page_text(page)}"]
        return ["none"]

    def restart(self, i: int) -> list[str]:
        replica = self.replica(i)
        if any(frame.fixes for frame in replica.frames):
            raise Refused(11)
        for frame in replica.frames:
            frame.page = None
        replica.reach = References()
        replica.pending = [[] for _ in replica.pending]
        return ["ok"]

    def show(self, i: int) -> list[str]:
        entries = self.replica(i).reach.entries()
        lines = []
        for page, stamps in entries:
            words = [f"{name} {time}@{replica}" for name, (time, replica) in zip(["last", "prev"], stamps)]
            lines.append(" ".join([page_text(page), *words]))
        return [*lines, f"end {len(entries)}"]
