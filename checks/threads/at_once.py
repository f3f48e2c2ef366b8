#!/usr/bin/env python3
"""Counts the threads of a play, as the system lists them while it runs.

    at_once.py WARMPLAY

Two replicas have eight workers each, and each worker has 20,000 references to flush one by one. So there is a moment at which all sixteen
workers have begun and none has ended: then the process has sixteen threads, beside those that started them. Where the workers of a
replica worked one after another, or the replicas did, it would never have more than ten, however much they have to do.
"""
import os
import subprocess
import sys
import tempfile
from pathlib import Path

REPLICAS, WORKERS, REFERENCES = 2, 8, 20000

# The moment is missed where this program does not run at it, and there is none where a worker ends
# before the last one is started, as on a busy machine. Then the workers have more to do, up to so
# many times as much. A play that never has so many threads fails each time.
TRIES, MOST_TIMES = 12, 16


def write_files(folder: Path, references: int) -> list[str]:
    """A setup, and a schedule of so many references of each worker, and the words that play it."""
    setup, schedule = folder / "setup.toml", folder / "schedule"
    setup.write_text(f"replicas = {REPLICAS}\nworkers = {WORKERS}\nbuffer = 1\n", encoding="ascii")
    with schedule.open("w", encoding="ascii") as out:
        for time in range(references):
            for i in range(1, REPLICAS + 1):
                out.writelines(f"ref {i} {w} 0:{w} {time}\n" for w in range(1, WORKERS + 1))
    return ["threads", str(schedule), "--setup", str(setup)]


def threads_of(process: int) -> int:
    """The threads that a process has now."""
    try:
        return len(os.listdir(f"/proc/{process}/task"))
    except OSError:
        return 0


def most_threads(path: str, words: list[str]) -> int:
    """The most threads that a play was seen to have."""
    with subprocess.Popen([path, *words], stdout=subprocess.DEVNULL) as running:
        most = 0
        while running.poll() is None:
            most = max(most, threads_of(running.pid))
    if running.returncode != 0:
        sys.exit(f"threads: a play of {WORKERS} workers ends with status {running.returncode}")
    return most


def main() -> None:
    # the thread that plays, and one for each worker
    wanted, most = 1 + REPLICAS * WORKERS, 0
    with tempfile.TemporaryDirectory() as folder:
        for at in range(TRIES):
            words = write_files(Path(folder), REFERENCES * min(2 ** (at // 2), MOST_TIMES))
            most = max(most, most_threads(sys.argv[1], words))
            if most >= wanted:
                print(f"threads: {REPLICAS} replicas of {WORKERS} workers had {most} threads at once")
                return
    sys.exit(f"threads: {REPLICAS} replicas of {WORKERS} workers had {most} threads at once, and not {wanted}")


if __name__ == "__main__":
    main()
