#!/usr/bin/env python3
"""Measures `warmplay threads` against the same job in plain Rust, with a Mutex around each replica.

usage: measure.py [REFERENCES]      the number of references (default: 1,000,000)

It needs the proved program `warmplay` and `rustc`. Three replicas of 16 workers each; buffers of 64 and of 1024 references; 1,000 and
100,000 pages, drawn evenly. Both programs run in turn, five times, and are measured by the clock and by the processor time of the program
itself. Their answers must be equal. It prints the lines of bench/runs.py.
"""

import os
import random
import subprocess
import sys
import tempfile
import time
from pathlib import Path

HERE = Path(__file__).resolve().parent
sys.path.insert(0, str(HERE.parent))
from runs import Runs, compiled, program  # noqa: E402

RUNS = 5
REPLICAS, WORKERS = 3, 16


def spent(program: list[str], answer: Path) -> tuple[float, float]:
    """The seconds of a run, by the clock and in processor time."""
    with open(answer, "wb") as out:
        begin = time.perf_counter()
        process = subprocess.Popen(program, stdout=out)
        _, status, used = os.wait4(process.pid, 0)
        seconds = time.perf_counter() - begin
        process.returncode = os.waitstatus_to_exitcode(status)
    if process.returncode != 0:
        sys.exit(f"{program} ended with status {process.returncode}")
    return seconds, used.ru_utime


def write_schedule(path: Path, references: int, pages: int) -> None:
    draw = random.Random(pages)
    with open(path, "w", encoding="ascii") as out:
        for time_of in range(references):
            out.write(f"ref {1 + draw.randrange(REPLICAS)} {1 + draw.randrange(WORKERS)} 0:{draw.randrange(pages)} {time_of}\n")


def measure(case: str, programs: dict[str, list[str]], folder: Path) -> None:
    took = Runs()
    for _ in range(RUNS):
        for name, words in programs.items():
            clock, used = spent(words, folder / f"{name}.out")
            took.add(case, name, "s", clock)
            took.add(f"processor time, {case}", name, "s", used)
    first, *others = [(folder / f"{name}.out").read_bytes() for name in programs]
    if any(first != it for it in others):
        sys.exit("the answers differ")
    took.print()


def main() -> None:
    references = int(sys.argv[1]) if len(sys.argv) > 1 else 1_000_000
    with tempfile.TemporaryDirectory() as name:
        folder = Path(name)
        plain, schedule, setup = compiled(HERE / "plain.rs", folder), folder / "schedule", folder / "setup.toml"
        for pages in [1_000, 100_000]:
            write_schedule(schedule, references, pages)
            for buffer in [64, 1024]:
                setup.write_text(f"replicas = {REPLICAS}\nworkers = {WORKERS}\nbuffer = {buffer}\n", encoding="ascii")
                programs = {
                    "ours": [str(program("warmplay")), "threads", str(schedule), "--setup", str(setup)],
                    "plain Rust": [str(plain), str(schedule), str(REPLICAS), str(WORKERS), str(buffer)],
                }
                measure(f"{references:,} references, {pages:,} pages, buffers of {buffer}", programs, folder)


if __name__ == "__main__":
    main()
