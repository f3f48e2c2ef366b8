#!/usr/bin/env python3
"""Measures warmplay against a plain Rust program for the same job.

usage: measure.py [CASE..]      the cases are: refs zipf pins steady orders longline gossip warm memory window growth frames replicas
                                (default: all)

It needs the proved program `warmplay` and `rustc`. Every case runs all programs in turn, and takes the user time of five runs or more; their
answers must be equal. For a case with a set-up only the events after it count, by the processor time of the program, including its system
time. SMALL=N divides the loads by N, for a try of this script. It prints the lines of bench/runs.py.
"""

import array
import fcntl
import os
import random
import re
import shutil
import subprocess
import sys
import tempfile
import termios
import time
from pathlib import Path
from typing import Callable, Iterable, NamedTuple

from runs import ROOT, Runs, compiled, program

HERE = Path(__file__).resolve().parent
ORDERS = ROOT / "examples/sqlite-orders"
RUNS = 5
SMALL = int(os.environ.get("SMALL", "1"))
REPLICAS = 64
WINDOW, EVERY = 100_000, 10_000
SIZES = [1_000, 10_000, 100_000, 1_000_000]
POOLS = [4_096, 8_192, 16_384, 32_768, 65_536]
RINGS = [2, 4, 8, 16, 32, 64]
OURS, PLAIN = "ours", "plain Rust"
PER_SECOND = {"s": 1, "ns": 1e9}


class Setup(NamedTuple):
    """The settings of the setup file. Frames and pages default to those of a replica without a file."""

    replicas: int = REPLICAS
    frames: int = 4
    pages: int = 256

    def toml(self) -> str:
        return f"replicas = {self.replicas}\nframes = {self.frames}\ndevice = [{{pages = {self.pages}}}]\n"


def user_seconds(program: list[str], schedule: Path, answer: Path) -> float:
    """The user time of the program, without its system time."""
    with open(schedule, "rb") as text, open(answer, "wb") as out:
        process = subprocess.Popen(program, stdin=text, stdout=out)
        _, status, used = os.wait4(process.pid, 0)
        process.returncode = os.waitstatus_to_exitcode(status)
    if process.returncode != 0:
        sys.exit(f"{program} ended with status {process.returncode}")
    return used.ru_utime


def feed(process: subprocess.Popen, schedule: Path) -> None:
    """Gives the program a schedule, and waits until it has read all of it and waits for more."""
    with open(schedule, "rb") as text:
        shutil.copyfileobj(text, process.stdin)
    process.stdin.flush()
    unread = array.array("i", [1])
    while unread[0] > 0 or "(sleeping)" not in Path(f"/proc/{process.pid}/status").read_text():
        fcntl.ioctl(process.stdin, termios.FIONREAD, unread)
        time.sleep(0.01)


def peak_kb(program: list[str], schedule: Path) -> int:
    """The peak memory of the program, read when it has read its whole input and still waits for more."""
    process = subprocess.Popen(program, stdin=subprocess.PIPE, stdout=subprocess.DEVNULL)
    feed(process, schedule)
    status = Path(f"/proc/{process.pid}/status").read_text()
    process.stdin.close()
    process.wait()
    return int(re.search(r"VmHWM:\s+(\d+) kB", status)[1])


def spent(process: subprocess.Popen) -> float:
    """The processor time that a program has used so far, including its system time: Linux has a clock for each process."""
    return time.clock_gettime((~process.pid << 3) | 2)


def later_seconds(program: list[str], setup: Path, events: Path, answer: Path) -> float:
    """The processor time of the events, from the answer to the set-up until theirs."""
    with open(answer, "wb") as out:
        process = subprocess.Popen(program, stdin=subprocess.PIPE, stdout=out)
        feed(process, setup)
        before = spent(process)
        feed(process, events)
        seconds = spent(process) - before
        process.stdin.close()
    if process.wait() != 0:
        sys.exit(f"{program} ended with status {process.returncode}")
    return seconds


class Bench:
    def __init__(self, folder: Path) -> None:
        self.folder = folder
        self.setup = Setup()
        self.plain, self.loads = (compiled(HERE / f"{name}.rs", folder) for name in ("plain", "loads"))

    @property
    def programs(self) -> dict[str, list[str]]:
        """The commands for the chosen setup."""
        setup = self.folder / "setup.toml"
        setup.write_text(self.setup.toml(), encoding="ascii")
        return {
            OURS: [str(program("warmplay")), "play", "--setup", str(setup)],
            PLAIN: [str(self.plain), *map(str, self.setup)],
        }

    def write(self, name: str, lines: Iterable[str]) -> Path:
        path = self.folder / name
        with open(path, "w", encoding="ascii") as out:
            out.writelines(f"{line}\n" for line in lines)
        return path

    def load(self, *words: object) -> Path:
        """A schedule that loads.rs prints."""
        path = self.folder / "load"
        with open(path, "wb") as out:
            subprocess.run([self.loads, *map(str, words)], stdout=out, check=True)
        return path

    def measure(self, case: str, unit: str, each: float, seconds: Callable[[list[str], Path], float], runs: int = RUNS) -> None:
        """The time of each program, which take turns, for each of so many things; their answers must be equal."""
        took = Runs()
        programs = self.programs
        for _ in range(runs):
            for name, command in programs.items():
                spent = seconds(command, self.folder / f"{name}.answer")
                took.add(case, name, unit, spent / each * PER_SECOND[unit])
        subprocess.run(["cmp", *(self.folder / f"{name}.answer" for name in programs)], check=True)
        took.print()

    def whole(self, case: str, schedule: Path) -> None:
        self.measure(case, "s", 1, lambda command, answer: user_seconds(command, schedule, answer))

    def later(self, case: str, unit: str, each: float, setup: list[str], events: list[str], runs: int = RUNS) -> None:
        """The cost of the events after the set-up."""
        before, after = self.write("setup", setup), self.write("events", events)
        self.measure(case, unit, each, lambda command, answer: later_seconds(command, before, after, answer), runs)


def reached(replica: int, pages: Iterable[int], start: int) -> list[str]:
    """References to these pages, in this order, and the flush that moves them all to the replica."""
    lines = [f"ref {replica} 1 0:{page} {start + at}" for at, page in enumerate(pages)]
    return [*lines, f"flush {replica} 1"]


def scattered(count: int, start: int = 0) -> list[int]:
    """This many pages, in a shuffled order."""
    pages = list(range(start, start + count))
    random.Random(count).shuffle(pages)
    return pages


def refs(bench: Bench) -> None:
    draw = random.Random(1)
    lines = (f"ref 1 {1 + n % 2} 0:{draw.randrange(1000)} {n}" for n in range(2_000_000 // SMALL))
    bench.whole("2,000,000 references, 1,000 pages", bench.write("refs", lines))


def zipf(bench: Bench) -> None:
    draw = random.Random(3)
    pages = scattered(1_000_000)
    # 1,000,000 to a power drawn evenly from 0 to 1: page r occurs in proportion to 1 / r
    ranks = (int(1_000_000 ** draw.random()) - 1 for _ in range(2_000_000 // SMALL))
    lines = (f"ref 1 {1 + n % 2} 0:{pages[rank]} {n}" for n, rank in enumerate(ranks))
    bench.whole("2,000,000 references, Zipf over 1,000,000 pages", bench.write("zipf", lines))


def pins(bench: Bench) -> None:
    """Three accesses of ten are misses: once all frames hold pages, each miss evicts a victim, and writes it back where it is dirty."""
    bench.setup = Setup(1, 4_096, 100_000)
    case = "1,000,000 references and pins, with 250,000 writes and reads, Zipf over 100,000 pages, 4,096 frames"
    bench.whole(case, bench.load("pins", 1_000_000 // SMALL, bench.setup.frames, bench.setup.pages))


def steady(bench: Bench) -> None:
    bench.setup = Setup(8)
    case = "500,000 references, Zipf over 100,000 pages, by 8 replicas, two of which gossip after each 4,000"
    bench.whole(case, bench.load("steady", bench.setup.replicas, max(8, 500 // SMALL), 1_000, 4, 100_000))


def orders(bench: Bench) -> None:
    script = [sys.executable, ORDERS / "orders.py", "schedule", ORDERS / "orders.trace"]
    schedule = bench.folder / "orders"
    with open(schedule, "wb") as out:
        subprocess.run(script, stdout=out, check=True)
    bench.whole("the trace of sqlite-orders", schedule)


def longline(bench: Bench) -> None:
    schedule = bench.folder / "longline"
    with open(schedule, "wb") as out:
        out.write(b"a" * (100_000_000 // SMALL) + b"\nref 1 1 0:1 10\n")
    bench.whole("one line of 100 MB", schedule)


def gossip(bench: Bench) -> None:
    pages = 20_000 // SMALL
    setup: list[str] = []
    for replica in range(1, REPLICAS + 1):
        setup += reached(replica, scattered(pages, pages * (replica - 1)), 1)
    # each replica sends its 64 buckets in turn: the first 64 of its 200 frames bring new pages to the next replica, the others known ones
    sends = [f"send {1 + n % REPLICAS} {n // REPLICAS % 64}" for n in range(200 * REPLICAS)]
    delivers = [f"deliver {1 + (n + 1) % REPLICAS} {n + 1}" for n in range(200 * REPLICAS)]
    of = "64 replicas of 20,000 pages"
    bench.later(f"{of}, 200 sends each", "s", 1, setup, sends)
    bench.later(f"{of}, 200 deliveries each, a third new", "s", 1, setup + sends, delivers)
    bench.later(f"{of}, 200 deliveries each, all known", "s", 1, setup + sends + delivers, delivers)


def warm(bench: Bench) -> None:
    draw = random.Random(2)
    pages = list(range(500_000 // SMALL))
    twice = sorted(draw.sample(pages, len(pages) // 2))
    setup = reached(1, pages, 1) + reached(1, twice, 1_000_000)
    bench.later("five lists of 65,536 of 500,000 pages", "s", 1, setup, ["warm 1 65536"] * 5)


def memory(bench: Bench) -> None:
    pages = 1_000_000 // SMALL
    nothing, schedule = bench.write("nothing", []), bench.write("pages", reached(1, scattered(pages), 1))
    took = Runs()
    for name, command in bench.programs.items():
        took.add("memory a page, of 1,000,000", name, "bytes", (peak_kb(command, schedule) - peak_kb(command, nothing)) * 1024 / pages)
    took.print()


def moving(pages: int, window: int, every: int) -> Iterable[str]:
    """A reference to each of this many pages, in a shuffled order; after each `every` of them those before the last `window` are forgotten."""
    for at in range(pages):
        yield f"ref 1 1 0:{at * 7919 % pages} {at}"
        if (at + 1) % every == 0:
            yield f"horizon 1 {max(0, at + 1 - window)}"


def window(bench: Bench) -> None:
    """The memory of a replica that references 10,000,000 pages through a window of 100,000, beside one with 100,000 pages."""
    nothing, seen = bench.write("nothing", []), bench.write("seen", moving(WINDOW, WINDOW, EVERY))
    wide = bench.write("moving", moving(100 * WINDOW // SMALL, WINDOW, EVERY))
    took = Runs()
    for name, command in bench.programs.items():
        held = {at: peak_kb(command, at) for at in (nothing, seen, wide)}
        for case, schedule in ((f"memory of {WINDOW:,} pages", seen), (f"memory of {100 * WINDOW:,} pages through a window of {WINDOW:,}", wide)):
            took.add(case, name, "MB", (held[schedule] - held[nothing]) * 1024 / 1e6)
    took.print()


def growth_loads(size: int) -> Iterable[tuple[str, list[str], list[str], int]]:
    """The case, the set-up, the events, and their pages: in as many replicas as hold a million pages, or all."""
    replicas = range(1, min(REPLICAS, 1_000_000 // size) + 1)
    rounds = max(1, 1_000_000 // SMALL // (size * len(replicas)))
    new = [line for i in replicas for line in reached(i, scattered(size), 1)]
    known = [line for n in range(rounds) for i in replicas for line in reached(i, scattered(size), 2 + n)]
    listed = [f"warm {i} {size // 8}" for _ in range(rounds) for i in replicas]
    shown = [f"show {i}" for _ in range(rounds) for i in replicas]
    pages = size * len(replicas)
    yield "a reference to a new page", [], new, pages
    yield "a reference to a known page", new, known, pages * rounds
    yield "a list of an eighth, a page", new, listed, pages * rounds
    yield "a shown history, a page", new, shown, pages * rounds


def growth(bench: Bench) -> None:
    for size in SIZES:
        for what, setup, events, count in growth_loads(size):
            bench.later(f"{what}, of {size:,}", "ns", count, setup, events)


def frames(bench: Bench) -> None:
    """A complete warm-up. That of 65,536 frames may take 20 times the time of that of 4,096."""
    setup = reached(1, scattered(1_000_000 // SMALL), 1)
    for count in POOLS:
        bench.setup = Setup(1, count, 1_048_576)
        bench.later(f"a warm-up of {count:,} frames, of 1,000,000 pages, a step", "ns", count, setup, ["warmstep 1"] * count)


def replicas(bench: Bench) -> None:
    """Digests and requests included. In a ring of 2 each entry is delivered twice, the second time known."""
    for count in RINGS:
        bench.setup = Setup(count)
        lines = bench.load("ring", count, 10_000 // SMALL).read_text(encoding="ascii").splitlines()
        at = next(n for n, line in enumerate(lines) if line.startswith("#"))
        entries = int(lines[at].removeprefix("# "))
        # a short schedule needs more runs, to separate its time from the noise of the machine
        runs = max(RUNS, RINGS[-1] // count)
        bench.later(f"an entry delivered, {count} replicas of 10,000 pages in a ring", "ns", entries, lines[:at], lines[at + 1 :], runs)


CASES: dict[str, Callable[[Bench], None]] = {
    "refs": refs,
    "zipf": zipf,
    "pins": pins,
    "steady": steady,
    "orders": orders,
    "longline": longline,
    "gossip": gossip,
    "warm": warm,
    "memory": memory,
    "window": window,
    "growth": growth,
    "frames": frames,
    "replicas": replicas,
}


def main() -> None:
    with tempfile.TemporaryDirectory() as folder:
        bench = Bench(Path(folder))
        for name in sys.argv[1:] or list(CASES):
            bench.setup = Setup()
            CASES[name](bench)


main()
