#!/usr/bin/env python3
"""Measures a hit (pin, read eight bytes, unpin) from C, by warm_read and of bytes that warm_pin_bytes lends, against the same from Rattle, and the
memory of histories from C.

usage: measure.py LIBRARY [HITS]      LIBRARY is the folder that scripts/c-library made; HITS of a run, 5,000,000 by default

It needs the proved program `bench_threads` and a C compiler (cc, or what CC names). Each of 15 rounds is in a drawn order. All programs must
print the same checksum. The runs of a history's memory have different numbers of pages. It prints the lines of bench/runs.py.
"""

import os
import random
import subprocess
import sys
import tempfile
from pathlib import Path

HERE = Path(__file__).resolve().parent
sys.path.insert(0, str(HERE.parent))
from runs import Runs, program  # noqa: E402

ROUNDS = 15
HITS = 5_000_000
POOLS = [1_024, 65_536]
# the sizes of histories: a map's nodes are full to another part at each
HISTORIES = [round(100_000 * 1.1**at) for at in range(25)]


def built(name: str, library: Path, folder: Path) -> Path:
    program = folder / name
    subprocess.run(
        [os.environ.get("CC", "cc"), "-std=c11", "-O2", f"-I{library}/include", HERE / f"{name}.c", f"-L{library}/lib", "-lwarm_c", "-o", program],
        check=True,
    )
    return program


def one_run(command: list[str | Path]) -> tuple[str, int]:
    """The checksum, and the nanoseconds."""
    checksum, spent = subprocess.run(command, stdout=subprocess.PIPE, check=True, text=True).stdout.splitlines()
    return checksum, int(spent.split()[0])


def measure(hit: Path, frames: int, hits: int) -> None:
    words = [str(frames), str(hits)]
    commands = {"ours": [hit, *words], "ours, bytes lent": [hit, *words, "lent"], "Rattle": [program("bench_threads"), "hits", *words]}
    took = Runs()
    checksums = set()
    for _ in range(ROUNDS):
        for name in random.sample(list(commands), len(commands)):
            checksum, nanoseconds = one_run(commands[name])
            checksums.add(checksum)
            took.add(f"a hit, {frames:,} frames", name, "ns", nanoseconds / hits)
    assert len(checksums) == 1, checksums
    took.print()


def measure_memory(program: Path) -> None:
    took = Runs()
    for order in ("ascending", "scattered"):
        for pages in HISTORIES:
            said = subprocess.run([program, str(pages), order], stdout=subprocess.PIPE, check=True, text=True).stdout
            took.add(f"memory of a history a page, {order}", "ours", "bytes", float(said))
    took.print()


def main() -> None:
    if len(sys.argv) not in (2, 3):
        sys.exit(__doc__)
    hits = int(sys.argv[2]) if len(sys.argv) > 2 else HITS
    library = Path(sys.argv[1]).resolve()
    with tempfile.TemporaryDirectory() as name:
        folder = Path(name)
        hit = built("hits", library, folder)
        for frames in POOLS:
            measure(hit, frames, hits)
        measure_memory(built("memory", library, folder))


if __name__ == "__main__":
    main()
