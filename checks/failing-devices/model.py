"""A buffer pool as its promises say, over two devices of whose calls one each fails: which answer each call has to give.

The model keeps plain lists, and finds a victim by counting references. Of a device it knows its bytes, whether something waits for
a flush, and how many calls there are up to the one that fails.
"""

from dataclasses import dataclass, field
from functools import cache

SIZE = 16  # bytes of a page
SHOWN = [(device, no) for device in range(2) for no in range(8)]

# device, page and time of each reference that is known
KNOWN = [(0, 3, 1), (0, 3, 9), (1, 2, 2), (1, 2, 4), (0, 1, 6), (1, 5, 3), (0, 4, 5), (0, 4, 7), (0, 4, 8)]

Page = tuple[int, int]

NAMES = {4: "NoDevice", 5: "NoPage", 6: "AllFixed", 7: "ReadFault", 8: "WriteBack", 10: "OutOfPage", 11: "Fixed", 12: "Fault"}

# the refusals that come from a device
FAULTS = {f"refused {number} {NAMES[number]}" for number in (7, 8, 12)}


class Refused(Exception):
    """A call is refused, by this number."""


@cache
def leaves_before(page: Page) -> tuple:
    """The greater, the earlier a page leaves: by its backward 2-distance, then by its latest reference, then by its number."""
    times = sorted({time for device, no, time in KNOWN if (device, no) == page}, reverse=True)
    distance = sum(time > times[1] for _, _, time in KNOWN) if len(times) > 1 else float("inf")
    latest = times[0] if times else -1
    return distance, -latest, (-page[0], -page[1])


@dataclass
class Device:
    """`left` calls are made up to the one that fails; with 0 none does."""

    pages: int
    left: int
    waiting: bool = False
    held: list[bytes] = field(default_factory=list)

    def __post_init__(self) -> None:
        self.held = [bytes(SIZE)] * self.pages

    def fails(self) -> bool:
        due = self.left == 1
        self.left = max(self.left - 1, 0)
        return due

    def read(self, no: int) -> bytes:
        if self.fails():
            raise Refused(7)
        return self.held[no]

    def write(self, no: int, text: bytes, fault: int) -> None:
        torn = self.fails()
        self.held[no] = b"\xee" * SIZE if torn else text
        self.waiting = True
        if torn:
            raise Refused(fault)

    def flush(self) -> None:
        if not self.waiting:
            return
        if self.fails():
            raise Refused(12)
        self.waiting = False


@dataclass(eq=False)
class Frame:
    page: Page | None = None
    generation: int = 0
    fixes: int = 0
    dirty: bool = False
    text: bytes = bytes(SIZE)

    def vacate(self) -> None:
        self.page, self.dirty = None, False


class Pool:
    """Frames over two devices, and spare ones."""

    def __init__(self, frames: int, devices: list[tuple[int, int]]) -> None:
        made = [Device(pages, left) for pages, left in devices]
        self.frames = [Frame() for _ in range(frames)]
        self.devices, self.spare = made[:2], made[2:]
        self.hits = self.misses = self.evictions = self.written_back = 0
        self.failed = "none"  # the call of a device that failed last: what was done, of which device, to which page

    def ask(self, line: str) -> str:
        """The answer to a line."""
        word, *numbers = line.split()
        try:
            return getattr(self, word)(*map(int, numbers))
        except Refused as refused:
            number = refused.args[0]
            return f"refused {number} {NAMES[number]}"

    def read_from(self, device: int, no: int) -> bytes:
        try:
            return self.devices[device].read(no)
        except Refused:
            self.failed = f"Read {device} {no}"
            raise

    def write_to(self, page: Page, text: bytes, fault: int) -> None:
        device, no = page
        try:
            self.devices[device].write(no, text, fault)
        except Refused:
            self.failed = f"Write {device} {no}"
            raise
        self.written_back += 1

    def flush(self, device: int) -> None:
        try:
            self.devices[device].flush()
        except Refused:
            self.failed = f"Flush {device}"
            raise

    def is_resident(self, page: Page) -> bool:
        return any(frame.page == page for frame in self.frames)

    def victim(self) -> Frame | None:
        free = [frame for frame in self.frames if frame.page is not None and frame.fixes == 0]
        return max(free, key=lambda frame: leaves_before(frame.page), default=None)

    def bring(self, device: int, no: int) -> Frame:
        """The frame of a page, which comes in where it is in none."""
        if device >= len(self.devices):
            raise Refused(4)
        if no >= self.devices[device].pages:
            raise Refused(5)
        for frame in self.frames:
            if frame.page == (device, no):
                return frame
        frame = next((frame for frame in self.frames if frame.page is None), None) or self.victim()
        if frame is None:
            raise Refused(6)
        text = self.read_from(device, no)
        if frame.dirty:
            self.write_to(frame.page, frame.text, 8)
        if frame.page is not None:
            self.evictions += 1
        frame.page, frame.text, frame.dirty = (device, no), text, False
        frame.generation += 1
        return frame

    def slot_of(self, frame: Frame) -> str:
        return f"slot {self.frames.index(frame)} {frame.generation}"

    def held(self, index: int, generation: int) -> Frame | None:
        """The frame of a slot that holds its page."""
        if index < len(self.frames) and self.frames[index].generation == generation and self.frames[index].fixes > 0:
            return self.frames[index]
        return None

    def clean(self, device: int | None) -> None:
        """Writes the pages of one device back, or of all."""
        for frame in self.frames:
            if frame.dirty and device in (None, frame.page[0]):
                self.write_to(frame.page, frame.text, 12)
                frame.dirty = False

    def unfixed(self, device: int | None) -> None:
        if any(frame.fixes and device in (None, frame.page[0]) for frame in self.frames):
            raise Refused(11)

    # the calls, by their words

    def pin(self, device: int, no: int) -> str:
        found = self.is_resident((device, no))
        frame = self.bring(device, no)
        frame.fixes += 1
        self.hits += found
        self.misses += not found
        return self.slot_of(frame)

    def load(self, device: int, no: int) -> str:
        return self.slot_of(self.bring(device, no))

    def unpin(self, index: int, generation: int) -> str:
        frame = self.held(index, generation)
        if frame is None:
            return "stale"
        frame.fixes -= 1
        return "ok"

    def write(self, index: int, generation: int, at: int, count: int, byte: int) -> str:
        frame = self.held(index, generation)
        if frame is None:
            return "stale"
        if at + count > SIZE:
            raise Refused(10)
        frame.text = frame.text[:at] + bytes([byte]) * count + frame.text[at + count :]
        frame.dirty = True
        return "ok"

    def read(self, index: int, generation: int) -> str:
        frame = self.held(index, generation)
        if frame is None:
            return "stale"
        return " ".join(["bytes", *map(str, frame.text)])

    def show(self) -> str:
        resident = {frame.page for frame in self.frames}
        shown = "".join(f" {device}:{no}" for device, no in SHOWN if (device, no) in resident)
        victim = self.victim()
        return f"resident{shown} victim " + (f"{victim.page[0]}:{victim.page[1]}" if victim else "none")

    def counts(self) -> str:
        resident = sum(frame.page is not None for frame in self.frames)
        dirty = sum(frame.dirty for frame in self.frames)
        return f"counts {self.hits} {self.misses} {self.evictions} {self.written_back} resident {resident} dirty {dirty} failed {self.failed}"

    def writeback(self) -> str:
        self.clean(None)
        for device in range(len(self.devices)):
            self.flush(device)
        return "ok"

    def empty(self) -> str:
        self.unfixed(None)
        self.writeback()
        for frame in self.frames:
            frame.vacate()
        return "ok"

    def retire(self, device: int) -> str:
        if not self.spare:
            return "none spare"
        if device >= len(self.devices):
            raise Refused(4)
        self.unfixed(device)
        self.clean(device)
        self.flush(device)
        for frame in self.frames:
            if frame.page is not None and frame.page[0] == device:
                frame.vacate()
        self.devices[device] = self.spare.pop()
        return "ok"

    def close(self) -> str:
        self.unfixed(None)
        return self.writeback()
