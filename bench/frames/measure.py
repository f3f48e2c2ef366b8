#!/usr/bin/env python3
"""Measures frames and bucket digests against the same in plain Rust.

usage: measure.py [ROUNDS]      how often each is done in a run (default: 30)

It needs the proved program `benches` and `rustc`. Both programs run in turn, five times. Both must print the same. It prints the lines of
bench/runs.py.
"""

import subprocess
import sys
import tempfile
from pathlib import Path

HERE = Path(__file__).resolve().parent
sys.path.insert(0, str(HERE.parent))
from runs import Runs, compiled, program  # noqa: E402

RUNS = 5
FRAME = 31_023
SUMMED = 3_100_000
# the frames of a stream, and the bytes of its pieces
STREAM = 1000
PIECES = [1, 64, 4_096, 65_536]


def one_run(command: list, rounds: int) -> tuple[list[str], list[int]]:
    """The program's results, and the nanoseconds of encoding, decoding and digesting, and of each size of pieces."""
    said = subprocess.run([*command, str(rounds)], stdout=subprocess.PIPE, check=True, text=True).stdout.splitlines()
    made = [line for line in said if not line.endswith(" ns")]
    return made, [int(word) for line in said if line.endswith(" ns") for word in line.split()[:-1]]


def cases(rounds: int) -> list[tuple[str, int]]:
    """What is done, and its bytes, in the order of the programs."""
    found = [("encode a full frame", FRAME * rounds), ("decode a full frame", FRAME * rounds), ("digests of 100,000 pages", SUMMED * rounds)]
    return found + [(f"decode {STREAM:,} frames in pieces of {size:,} bytes", FRAME * STREAM) for size in PIECES]


def main() -> None:
    rounds = int(sys.argv[1]) if len(sys.argv) > 1 else 30
    took = Runs()
    with tempfile.TemporaryDirectory() as folder:
        commands = {"ours": [program("benches"), "frames"], "plain Rust": [compiled(HERE / "plain.rs", Path(folder))]}
        for _ in range(RUNS):
            made = {}
            for name, command in commands.items():
                made[name], spent = one_run(command, rounds)
                for (what, size), nanos in zip(cases(rounds), spent, strict=True):
                    took.add(what, name, "MB/s", size / nanos * 1e3)
            assert made["ours"] == made["plain Rust"], made
    took.print()


if __name__ == "__main__":
    main()
