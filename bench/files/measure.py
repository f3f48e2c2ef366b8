#!/usr/bin/env python3
"""Measures dumps of histories against the same in plain Rust.

usage: measure.py [PAGES..]     the numbers of pages of the histories (default: 1000000 10000000)

It needs the proved program `benches` and `rustc`. Both programs run in turn, five times. Both must print the same. The memory is the most
that a program held: two histories and the dump. It prints the lines of bench/runs.py.
"""

import os
import subprocess
import sys
import tempfile
from pathlib import Path

HERE = Path(__file__).resolve().parent
sys.path.insert(0, str(HERE.parent))
from runs import Runs, compiled, program  # noqa: E402

RUNS = 5
SIZES = [1_000_000, 10_000_000]


def one_run(command: list, pages: int) -> tuple[list[str], list[int], int]:
    """What the program made, the nanoseconds of writing and of reading, and the most memory that it held, in KB."""
    process = subprocess.Popen([*command, str(pages)], stdout=subprocess.PIPE, text=True)
    said = process.stdout.read().splitlines()
    _, status, used = os.wait4(process.pid, 0)
    process.returncode = os.waitstatus_to_exitcode(status)
    assert process.returncode == 0, command
    return said[:-1], [int(word) for word in said[-1].split()[:-1]], used.ru_maxrss


def measure(commands: dict[str, list], pages: int) -> None:
    took = Runs()
    for _ in range(RUNS):
        made = {}
        for name, command in commands.items():
            made[name], (written, read), most = one_run(command, pages)
            took.add(f"write a dump of {pages:,} pages", name, "ms", written / 1e6)
            took.add(f"read a dump of {pages:,} pages", name, "ms", read / 1e6)
            took.add(f"peak memory of both, {pages:,} pages", name, "MB", most / 1024)
        assert made["ours"] == made["plain Rust"], made
    took.print()


def main() -> None:
    sizes = [int(word) for word in sys.argv[1:]] or SIZES
    with tempfile.TemporaryDirectory() as folder:
        commands = {"ours": [program("benches"), "files"], "plain Rust": [compiled(HERE / "plain.rs", Path(folder))]}
        for pages in sizes:
            measure(commands, pages)


if __name__ == "__main__":
    main()
