#!/usr/bin/env python3
"""Schedules of references and flushes, played by threads and line by line.

    compare.py WARMPLAY COUNT

Each of COUNT schedules, drawn from its own number, is played by `warmplay threads`. The model keeps the two latest stamps of every page
over all references, from whichever replica; each replica must show just that. The same schedule, with a flush of every worker and
every bucket of every replica sent to every other, is then played by `warmplay play`, which must show the same. Bad schedules must
end with status 1 and the number of their first bad line. It shares no code with warmplay.
"""
import random
import subprocess
import sys
import tempfile
from pathlib import Path

BUCKETS = 64

# How many seconds a play may take: what hangs ends by it, and a busy machine needs minutes.
LIMIT = 1800

Reference = tuple[int, int, int, int, int]      # replica, worker, device, page, time


class Setup:
    """A setup drawn at random, or the defaults."""

    def __init__(self, draw: random.Random) -> None:
        self.text = ""
        self.replicas, self.workers = 3, 2
        if draw.random() < 0.5:
            self.replicas = draw.choice([1, 2, 3, 5])
            self.workers = draw.choice([1, 2, 4])
            buffer = draw.choice([1, 2, 3, 7, 64])
            self.text = f"replicas = {self.replicas}\nworkers = {self.workers}\nbuffer = {buffer}\n"


def schedule(draw: random.Random, setup: Setup) -> tuple[list[str], list[Reference]]:
    lines, references = [], []
    pages = draw.choice([1, 4, 40, 400])
    # the least pages, those round the greatest number of 32 bits, or the greatest ones
    first = draw.choice([0, 0, 2**32 - 2, 2**64 - pages])
    for _ in range(draw.choice([0, 1, 10, 100])):
        kind = draw.random()
        replica, worker = 1 + draw.randrange(setup.replicas), 1 + draw.randrange(setup.workers)
        if kind < 0.85:
            device, page, time = draw.randrange(3), first + draw.randrange(pages), draw.randrange(60)
            references.append((replica, worker, device, page, time))
            lines.append(f"ref {replica} {worker} {device}:{page} {time}")
        elif kind < 0.95:
            lines.append(f"flush {replica} {worker}")
        else:
            lines.append(draw.choice(["", "   ", "# a remark", "  # ref 1 1 0:1 1"]))
    return lines, references


def shown(references: list[Reference]) -> str:
    """What `show` prints of these references, by whomever they were made."""
    stamps: dict[tuple[int, int], set[tuple[int, int]]] = {}
    for replica, _, device, page, time in references:
        stamps.setdefault((device, page), set()).add((time, replica))
    out = []
    for (device, page), known in sorted(stamps.items()):
        latest = sorted(known, reverse=True)[:2]
        words = [f"{name} {time}@{replica}" for name, (time, replica) in zip(["last", "prev"], latest)]
        out.append(f"{device}:{page} {' '.join(words)}\n")
    return "".join(out) + f"end {len(stamps)}\n"


def exchange(setup: Setup) -> list[str]:
    """Lines that flush every worker, send every bucket of every replica to every other, and show all."""
    replicas = range(1, setup.replicas + 1)
    lines = [f"flush {i} {w}" for i in replicas for w in range(1, setup.workers + 1)]
    lines += [f"send {i} {b}" for i in replicas for b in range(BUCKETS)]
    frame = 0
    for i in replicas:
        for _ in range(BUCKETS):
            frame += 1
            lines += [f"deliver {j} {frame}" for j in replicas if j != i]
    return lines + [f"show {i}" for i in replicas]


def shows_of(answers: str, count: int) -> list[str]:
    """The answers of the last lines, which show replicas."""
    parts, part = [], []
    for line in answers.splitlines(keepends=True):
        if " last " in line or line.startswith("end "):
            part.append(line)
        if line.startswith("end "):
            parts.append("".join(part))
            part = []
    return parts[-count:]


class Program:
    def __init__(self, path: str, folder: Path) -> None:
        self.path, self.folder = path, folder

    def run(self, command: str, lines: list[str], setup: Setup) -> tuple[int, str, str]:
        file, options = self.folder / "schedule", []
        file.write_text("\n".join(lines), encoding="ascii")
        if setup.text:
            (self.folder / "setup.toml").write_text(setup.text, encoding="ascii")
            options = ["--setup", str(self.folder / "setup.toml")]
        done = subprocess.run([self.path, command, str(file), *options], capture_output=True, text=True, timeout=LIMIT)
        return done.returncode, done.stdout, done.stderr


def bad_line(draw: random.Random, setup: Setup) -> str:
    return draw.choice([
        "send 1 0", "offer 1", "deliver 1 1", "pin 1 0:1", "unpin 1 0.1", "put 1 0.1 0 AA", "get 1 0.1 0 1", "victim 1", "warm 1 2",
        "warmstep 1", "restart 1", "show 1", "horizon 1 0", "horizon 1 5", f"ref 1 1 0:{2**64} 1", "ref 1 1 0:1", "ref 0 1 0:1 1", "flush 1 0", "nothing of the kind", "ref 1 1 0:1 1 1",
        f"ref {setup.replicas + 1} 1 0:1 1", f"ref 1 {setup.workers + 1} 0:1 1", f"flush {setup.replicas + 1} 1",
        f"flush 1 {setup.workers + 1}", "#" + "x" * 262144, "flush 1 1" + " " * 262144,
    ])


def fail(number: int, what: str) -> None:
    sys.exit(f"threads: schedule {number}: {what}")


def check(number: int, program: Program) -> None:
    draw = random.Random(number)
    setup = Setup(draw)
    lines, references = schedule(draw, setup)
    status, out, err = program.run("threads", lines, setup)
    if (status, err) != (0, ""):
        fail(number, f"status {status}: {err}")
    want = shown(references)
    if out != "".join(f"replica {i}\n{want}" for i in range(1, setup.replicas + 1)):
        fail(number, "a replica shows something else")
    _, answers, _ = program.run("play", lines + exchange(setup), setup)
    if shows_of(answers, setup.replicas) != [want] * setup.replicas:
        fail(number, "played line by line, a replica shows something else")
    place = draw.randrange(len(lines) + 1)
    bad = lines[:place] + [bad_line(draw, setup)] + lines[place:] + [bad_line(draw, setup)]
    if program.run("threads", bad, setup) != (1, "", f"warmplay: BadLine {place + 1}\n"):
        fail(number, "a bad line is not named")


def main() -> None:
    path, count = sys.argv[1], int(sys.argv[2])
    with tempfile.TemporaryDirectory() as folder:
        program = Program(path, Path(folder))
        for number in range(count):
            check(number, program)
    print(f"threads: {count} schedules as expected")


if __name__ == "__main__":
    main()
