"""A page trace: lines `r PAGE` and `w PAGE`, one for each access, in order."""

from dataclasses import dataclass
from typing import Iterable, Iterator

from fault import Fault

MAX_PAGES = 1_048_576  # pages that one device of a setup can have
SCAN_SHARE = 4  # a scan goes over at least a quarter of the trace's pages


@dataclass(frozen=True)
class Access:
    """One access: its time, counted from 1, whether it writes, and its page."""

    time: int
    writes: bool
    page: int


@dataclass(frozen=True)
class Trace:
    """All accesses of a trace. Its pages are numbered again from 0, in their order, so that a device has no others."""

    name: str
    accesses: list[Access]
    pages: int


def numbered_lines(name: str, lines: Iterable[str]) -> Iterator[tuple[bool, int]]:
    """Whether each line writes, and its page as the trace names it."""
    for number, line in enumerate(lines, start=1):
        match line.split():
            case ["r" | "w" as kind, page] if page.isascii() and page.isdigit():
                yield kind == "w", int(page)
            case _:
                raise Fault(f"{name}: line {number} is neither 'r PAGE' nor 'w PAGE': {line.rstrip()[:60]!r}")


def read_trace(name: str) -> Trace:
    """The trace in a file; a Fault names the first line that is none of a trace."""
    try:
        with open(name, encoding="ascii", errors="replace") as lines:
            read = list(numbered_lines(name, lines))
    except OSError as error:
        raise Fault(f"cannot read {name}: {error.strerror}") from error
    if not read:
        raise Fault(f"{name}: the trace is empty")
    places = {page: place for place, page in enumerate(sorted({page for _writes, page in read}))}
    if len(places) > MAX_PAGES:
        raise Fault(f"{name}: {len(places)} pages, and a device has at most {MAX_PAGES}")
    accesses = [Access(time, writes, places[page]) for time, (writes, page) in enumerate(read, start=1)]
    return Trace(name, accesses, len(places))


def scan_ends(trace: Trace) -> list[int]:
    """After how many accesses each full scan ends.

    A full scan is a stretch in which no page comes twice, over at least a quarter of the trace's pages. Stretches that
    overlap are one scan.
    """
    least = trace.pages / SCAN_SHARE
    ends: list[int] = []
    last: dict[int, int] = {}
    begin = 1
    for access in trace.accesses:
        repeated = last.get(access.page, 0)
        if repeated >= begin:
            if access.time - begin >= least:
                if ends and begin <= ends[-1]:
                    ends.pop()
                ends.append(access.time - 1)
            begin = repeated + 1
        last[access.page] = access.time
    return ends
