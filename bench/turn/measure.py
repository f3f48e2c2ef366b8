#!/usr/bin/env python3
"""Measures turns per second against a std::sync::Mutex around the same counter, with 1, 2, 4 and 8 threads, the processor
time of a turn and the longest wait of a call.

usage: measure.py [idle|busy|both] [TURNS]      default: both, and 2,000,000 turns in all threads together

First calls of a counter, then visits, which add where it lies, then calls of one that sleeps for a millisecond in each, as a machine over a
slow device does, with a thousandth of the turns. For `busy` as many other processes as there are processors keep them busy meanwhile. It needs
the proved program `bench_threads`, `rustc` and valgrind. Both programs run in turn, nine times; the median counts, since the fastest run would
be one in which the threads hardly contended. The longest wait is that of nine further runs, in which each call is timed; of a counter that
sleeps each call is timed in all runs. No visit is timed by itself. Every total must be the requested one.

The first lines are the instructions of a call, and of a visit, by one thread, counted by callgrind: what a run of twice as many turns takes
more. It prints the lines of bench/runs.py.
"""

import os
import re
import subprocess
import sys
import tempfile
from pathlib import Path
from typing import NamedTuple

HERE = Path(__file__).resolve().parent
sys.path.insert(0, str(HERE.parent))
from busy import all_processors_busy  # noqa: E402
from runs import Runs, compiled, program  # noqa: E402

TURN = [program("bench_threads"), "turn"]
RUNS = 9
CROWDS = [1, 2, 4, 8]
COUNTED_TURNS = 20_000
LINE = re.compile(r"(\d) threads?: (\d+) in (\d+) ns(?:, (\d+) ns)?")


class Ran(NamedTuple):
    speed: float  # turns a second
    used: float  # nanoseconds of processor time a turn, the user's and the system's
    longest: float  # nanoseconds of the longest call, where each was timed


def counted(command: list, turns: int, kind: list[str]) -> int:
    words = ["valgrind", "--tool=callgrind", "--callgrind-out-file=/dev/null", *command, "1", str(turns), *kind]
    said = subprocess.run(words, stdout=subprocess.DEVNULL, stderr=subprocess.PIPE, check=True, text=True).stderr
    collected = re.search(r"Collected : (\d+)", said)
    assert collected, said
    return int(collected[1])


def instructions(command: list, kind: list[str]) -> float:
    return (counted(command, 2 * COUNTED_TURNS, kind) - counted(command, COUNTED_TURNS, kind)) / COUNTED_TURNS


def one_run(command: list, threads: int, turns: int, kind: list[str]) -> Ran:
    words = [*command, str(threads), str(turns // threads), *kind]
    with subprocess.Popen(words, stdout=subprocess.PIPE, text=True) as running:
        said = running.stdout.read()
        _, status, used = os.wait4(running.pid, 0)
        running.returncode = os.waitstatus_to_exitcode(status)
    assert running.returncode == 0, f"{command} ended with {running.returncode}"
    counted, total, spent, longest = (int(it or 0) for it in LINE.fullmatch(said.strip()).groups())
    assert counted == threads and total == turns // threads * threads, f"{command}: {said}"
    return Ran(total / spent * 1e9, (used.ru_utime + used.ru_stime) / total * 1e9, longest)


def measure(load: str, unit: str, per: float, commands: dict[str, list], turns: int, kinds: list[list[str]]) -> None:
    """Speed and processor time are of the first kind of run, the longest wait is of all kinds that time each call."""
    for threads in CROWDS:
        took, case = Runs(), f"{load}, threads: {threads}"
        for _ in range(RUNS):
            for name, command in commands.items():
                rounds = [one_run(command, threads, turns, kind) for kind in kinds]
                took.add(f"turns, {case}", name, unit, rounds[0].speed / per)
                took.add(f"processor time, {case}", name, "ns", rounds[0].used)
                if longest := max(it.longest for it in rounds):
                    took.add(f"longest wait, {case}", name, "ms", longest / 1e6)
        took.print()


def main() -> None:
    when = sys.argv[1] if len(sys.argv) > 1 else "both"
    assert when in ["idle", "busy", "both"], __doc__
    turns = int(sys.argv[2]) if len(sys.argv) > 2 else 2_000_000
    with tempfile.TemporaryDirectory() as folder:
        commands = {"ours": TURN, "Mutex": [compiled(HERE / "mutex.rs", Path(folder))]}
        took = Runs()
        for name, command in commands.items():
            took.add("a call", name, "instructions", instructions(command, []))
            took.add("a visit", name, "instructions", instructions(command, ["visits"]))
        took.print()
        for is_busy in {"idle": [False], "busy": [True], "both": [False, True]}[when]:
            load = "busy" if is_busy else "idle"
            with all_processors_busy(is_busy):
                measure(load, "M/s", 1e6, commands, turns, [[], ["waits"]])
                measure(f"{load}, visits", "M/s", 1e6, commands, turns, [["visits"]])
                measure(f"{load}, calls of 1 ms", "1/s", 1, commands, max(turns // 1000, 8), [["slow"]])


if __name__ == "__main__":
    main()
