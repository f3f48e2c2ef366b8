"""The replicas of one case: what a schedule has them do, and what their answers say."""

import random
import time
from bisect import insort
from collections import defaultdict, deque
from dataclasses import dataclass, field
from itertools import islice

from player import Player
from page_trace import Access

BUCKETS = 64
ENTRIES_OF_A_FRAME = 1000
HEADER_BYTES = 20 + 4  # a frame's header, and the count of its entries
ENTRY_BYTES = (21, 31)  # an entry with one stamp, and one with two
SEED = 1  # of the draws that say which frames arrive


@dataclass(frozen=True, order=True)
class Habit:
    """What an embedder makes of accesses to one page that come close together.

    Of those within `once_in` accesses the first is handed in as a reference, and the others are not. A page stays
    pinned for `hold` accesses, the one that pinned it included.
    """

    once_in: int = 1
    hold: int = 1


class Replica:
    """A replica with one worker, whose pins are hits or misses: a slot and generation answered before is a hit."""

    def __init__(self, player: Player, number: int, habit: Habit) -> None:
        self.player = player
        self.number = number
        self.habit = habit
        self.references = 0  # that accesses handed in
        self._seen: set[str] = set()
        self._handed_in: dict[int, int] = {}  # when each page's latest reference was handed in
        self._held: deque[list[str]] = deque()  # what ends each access whose page is still pinned

    def access_lines(self, access: Access) -> list[str]:
        """The oldest access ends where its page was held long enough; then the page is referenced and pinned."""
        ending = self._held.popleft() if len(self._held) == self.habit.hold else []
        references = self._reference_lines(access) if self._hands_in(access) else []
        return [*ending, *references, f"pin {self.number} 0:{access.page}"]

    def has_handed_in(self, access: Access) -> bool:
        """Whether this access, which was made, was handed in as a reference."""
        return self._handed_in[access.page] == access.time

    def is_hit(self, access: Access, answer: str) -> bool:
        """Whether the access found its page in a frame, by the answer to its pin."""
        slot = answer.removeprefix("slot ")
        written = [f"put {self.number} {slot} 0 01"] if access.writes else []
        self._held.append([*written, f"unpin {self.number} {slot}"])
        hit = slot in self._seen
        self._seen.add(slot)
        return hit

    def end_accesses(self) -> None:
        """Lets go of all pages that are still pinned."""
        self.player.ask([line for ending in self._held for line in ending])
        self._held.clear()

    def hear(self, frames: list[int]) -> None:
        """Frames of gossip come to the replica."""
        self.player.ask([f"deliver {self.number} {frame}" for frame in frames])

    def warm_up(self, steps: int) -> tuple[int, float]:
        """This many WarmSteps: how many loaded a page, and how many seconds they took.

        Their answers name no slot, so each page that was loaded is then pinned once, and its slot has been seen.
        """
        begin = time.perf_counter()
        answers = self.player.ask([f"warmstep {self.number}"] * steps)
        seconds = time.perf_counter() - begin
        loaded = [answer.removeprefix("loaded ") for answer in answers if answer != "none"]
        self._visit(loaded)
        return len(loaded), seconds

    def load_dump(self, dump: list[Access]) -> tuple[int, float]:
        """Loads the pages of a dump in its order: how many, and how many seconds it took.

        Each is referenced once, with the time of its last use: that is what the order of the dump says.
        """
        begin = time.perf_counter()
        self.player.ask([line for access in dump for line in self._reference_lines(access)])
        self._visit([f"0:{access.page}" for access in dump])
        return len(dump), time.perf_counter() - begin

    def restart(self) -> None:
        """History and pool are empty again, and the worker remembers nothing."""
        self.end_accesses()
        self.player.ask([f"restart {self.number}"])
        self._seen.clear()
        self._handed_in.clear()

    def _hands_in(self, access: Access) -> bool:
        """Whether the worker hands this access in: it does unless it did so with the page too few accesses ago."""
        earlier = self._handed_in.get(access.page)
        if earlier is not None and access.time - earlier < self.habit.once_in:
            return False
        self._handed_in[access.page] = access.time
        self.references += 1
        return True

    def _reference_lines(self, access: Access) -> list[str]:
        """The reference of an access reaches the history at once."""
        return [f"ref {self.number} 1 0:{access.page} {access.time}", f"flush {self.number} 1"]

    def _visit(self, pages: list[str]) -> None:
        """Pins these pages, no more than there are frames, and lets go of them: their slots have been seen."""
        slots = [answer.removeprefix("slot ") for answer in self.player.ask([f"pin {self.number} {p}" for p in pages])]
        self._seen.update(slots)
        self.player.ask([f"unpin {self.number} {slot}" for slot in slots])


def make_access(player: Player, replicas: list[Replica], access: Access) -> list[bool]:
    """All these replicas make one access: which of them found its page in a frame."""
    parts = [replica.access_lines(access) for replica in replicas]
    answers = iter(player.ask([line for part in parts for line in part]))
    # the pin is the last line of each part
    return [replica.is_hit(access, list(islice(answers, len(part)))[-1]) for replica, part in zip(replicas, parts)]


@dataclass(frozen=True)
class SentFrame:
    """A frame of gossip: its number, and its bytes by the table of docs/FORMATS.md."""

    number: int
    size: int


@dataclass
class Sender:
    """The primary's gossip: in each round all it knows, bucket by bucket, in frames of up to 1000 entries."""

    player: Player
    referenced: dict[int, int] = field(default_factory=lambda: defaultdict(int))
    buckets: dict[int, list[int]] = field(default_factory=lambda: defaultdict(list))

    def note(self, access: Access) -> None:
        """The primary has referenced a page, so its frames have an entry of it, or a longer one."""
        if not self.referenced[access.page]:
            insort(self.buckets[access.page % BUCKETS], access.page)
        self.referenced[access.page] += 1

    def send_round(self) -> list[SentFrame]:
        """The frames of one round, in the order of sending."""
        lines, sizes = [], []
        for bucket, pages in sorted(self.buckets.items()):
            for start in range(0, len(pages), ENTRIES_OF_A_FRAME):
                after = f" 0:{pages[start - 1]}" if start else ""
                lines.append(f"send 1 {bucket}{after}")
                sizes.append(HEADER_BYTES + sum(map(self._entry_bytes, pages[start : start + ENTRIES_OF_A_FRAME])))
        answers = self.player.ask(lines)
        return [SentFrame(int(answer.removeprefix("frame ")), size) for answer, size in zip(answers, sizes)]

    def _entry_bytes(self, page: int) -> int:
        """The bytes of a page's entry: one stamp is known of it, or two."""
        return ENTRY_BYTES[self.referenced[page] > 1]


class Channel:
    """The way of frames to a standby: of each `one_of` frames one arrives, drawn by lot, after each of these rounds."""

    def __init__(self, replica: Replica, one_of: int = 1, delays: tuple[int, ...] = (0,)) -> None:
        self.came = 0  # bytes that arrived
        self._replica = replica
        self._one_of = one_of
        self._delays = delays
        self._draw = random.Random(SEED).random
        self._sent = 0
        self._lucky = 0
        self._rounds: list[list[SentFrame]] = []

    def carry(self, frames: list[SentFrame]) -> None:
        """Takes the frames of a round, and delivers what arrives now."""
        self._rounds.append([frame for frame in frames if self._arrives()])
        for delay in self._delays:
            if delay < len(self._rounds):
                arriving = self._rounds[-1 - delay]
                self._replica.hear([frame.number for frame in arriving])
                self.came += sum(frame.size for frame in arriving)

    def _arrives(self) -> bool:
        """Whether the next frame is the one that was drawn of its few."""
        place = self._sent % self._one_of
        self._sent += 1
        if place == 0:
            self._lucky = int(self._draw() * self._one_of)
        return place == self._lucky
