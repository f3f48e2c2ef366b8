#!/usr/bin/env python3
"""Measures our pool from C beside Berkeley DB's Mpool and the block caches of RocksDB.

usage: measure.py LIBRARY [ROUNDS]      LIBRARY is the folder that scripts/c-library made; ROUNDS is 7 by default, and with 0
                                        instructions alone are counted

README.md says what is compared. It needs what bench/peers/install installs, C compilers (cc and c++, or what CC and CXX name), and 2 GB in
/dev/shm for the file of the pages; where something is missing it says what, and ends with status 2. Each round runs all pools on all loads
in a drawn order; the number of a run is that of its fastest slice, or `inf` where the machine never ran four threads at once.
Instructions are those of one thread, counted by callgrind. It prints the lines of bench/runs.py.
"""

import os
import random
import re
import shutil
import subprocess
import sys
import tempfile
from pathlib import Path
from typing import NamedTuple, NoReturn

HERE = Path(__file__).resolve().parent
sys.path.append(str(HERE.parent))
from runs import Runs  # noqa: E402

MEMORY = Path("/dev/shm")
ROUNDS = 7
PAGE_SIZE = 4096
SLICE = 1024
FILE_PAGES = 8 * 65_536
SLICES = {"hits": 200, "misses": 100}
COUNTED_SLICES = 64
SIZES = [1_024, 65_536]
THREADS = [1, 4]
SHARDS = 16  # of four threads; of one thread each program chooses
NAMES = {"hits": "a hit", "misses": "a miss"}


class Pool(NamedTuple):
    program: str
    kind: str
    threads: int = max(THREADS)


POOLS = {
    "ours": Pool("ours", "pins"),
    "ours, with a reference": Pool("ours", "references"),
    "Berkeley DB, for one thread": Pool("mpool", "alone", 1),
    "Berkeley DB, for all threads": Pool("mpool", "shared"),
    "RocksDB LRUCache": Pool("rocks", "lru"),
    "RocksDB HyperClockCache": Pool("rocks", "clock"),
}


class Load(NamedTuple):
    what: str
    pages: int
    threads: int

    def case(self) -> str:
        return f"{NAMES[self.what]}, {self.pages:,} pages"


LOADS = [Load(what, pages, threads) for what in SLICES for threads in THREADS for pages in SIZES]


def refuse(why: str) -> NoReturn:
    print(f"peers: {why}", file=sys.stderr)
    sys.exit(2)


def compiled(command: list[str | Path], needs: str) -> None:
    """Runs a compiler. Where it fails, what is compiled needs something that is missing."""
    made = subprocess.run(command, stdout=subprocess.PIPE, stderr=subprocess.STDOUT, text=True)
    if made.returncode != 0:
        refuse(f"{needs}\n{made.stdout}")


def build(library: Path, folder: Path) -> None:
    """The four programs, each linked with the same load.o."""
    c, cpp = os.environ.get("CC", "cc"), os.environ.get("CXX", "c++")
    for tool in (c, cpp, "valgrind"):
        if shutil.which(tool) is None:
            refuse(f"there is no {tool}: run bench/peers/install")
    c_flags: list[str | Path] = ["-std=c11", "-O2", "-Wall", "-Wextra"]
    cpp_flags: list[str | Path] = ["-std=c++17", "-O2", "-Wall", "-Wextra"]
    load = folder / "load.o"
    compiled([c, *c_flags, "-c", HERE / "load.c", "-o", load], "load.c needs the package valgrind: run bench/peers/install")
    ours = "ours.c needs include/warm.h and lib/libwarm_c.a in the folder LIBRARY, with the functions of our C API (scripts/c-library)"
    links = [f"-I{library}/include", HERE / "ours.c", load, f"-L{library}/lib", "-lwarm_c", "-lpthread"]
    compiled([c, *c_flags, *links, "-o", folder / "ours"], ours)
    mpool = "mpool.c needs the package libdb5.3-dev: run bench/peers/install"
    compiled([c, *c_flags, HERE / "mpool.c", load, "-ldb-5.3", "-lpthread", "-o", folder / "mpool"], mpool)
    compiled([c, *c_flags, HERE / "array.c", load, "-lpthread", "-o", folder / "array"], "array.c needs a C compiler")
    rocks = "rocks.cc needs the package librocksdb-dev: run bench/peers/install"
    compiled([cpp, *cpp_flags, HERE / "rocks.cc", load, "-lrocksdb", "-lpthread", "-o", folder / "rocks"], rocks)


def write_pages(path: Path) -> None:
    """The file: each page begins with its number."""
    rest = bytes(PAGE_SIZE - 8)
    with open(path, "wb") as file:
        for number in range(FILE_PAGES):
            file.write(number.to_bytes(8, "little") + rest)


class Bench:
    def __init__(self, folder: Path, pages: Path) -> None:
        self.folder, self.pages, self.took = folder, pages, Runs()

    def command(self, pool: Pool, load: Load, slices: int) -> list[str | Path]:
        words = [pool.kind, load.what, str(load.pages), str(slices), str(load.threads), str(SHARDS if load.threads > 1 else 0)]
        return [self.folder / pool.program, *words, self.pages]

    def run(self, name: str, load: Load) -> None:
        """The nanoseconds of the fastest slice. A hit reads nothing from the file, a miss reads once."""
        said = subprocess.run(self.command(POOLS[name], load, SLICES[load.what]), stdout=subprocess.PIPE, check=True, text=True).stdout
        spent, reads = (float(line.split()[0]) for line in said.splitlines())
        if abs(reads - (load.what == "misses")) > 0.01:
            sys.exit(f"peers: {name}, {load}: {reads} reads a call")
        self.took.add(f"{load.case()}, threads: {load.threads}", name, "ns", spent)

    def instructions(self, name: str, load: Load) -> float:
        """Those of a call. What the system does for it is not counted."""
        words = ["--instr-atstart=no", "--collect-atstart=no", "--toggle-collect=measured_slice*", "--callgrind-out-file=/dev/null"]
        command = ["valgrind", "--tool=callgrind", *words, *self.command(POOLS[name], load, COUNTED_SLICES)]
        said = subprocess.run(command, stdout=subprocess.DEVNULL, stderr=subprocess.PIPE, check=True, text=True).stderr
        collected = re.search(r"Collected : (\d+)", said)
        assert collected, said
        return int(collected[1]) / (COUNTED_SLICES * SLICE)

    def count(self) -> None:
        for load in (it for it in LOADS if it.threads == 1):
            for name in POOLS:
                self.took.add(load.case(), name, "instructions", self.instructions(name, load))


def main() -> None:
    library, *rest = sys.argv[1:] or [""]
    if not library or len(rest) > 1 or not all(word.isdecimal() for word in rest):
        refuse(f"the words are wrong\n\n{__doc__}")
    rounds = int(rest[0]) if rest else ROUNDS
    if not MEMORY.is_dir() or shutil.disk_usage(MEMORY).free < 1.1 * FILE_PAGES * PAGE_SIZE:
        refuse(f"{MEMORY} has no room for a file of 2 GB")
    with tempfile.TemporaryDirectory() as built, tempfile.TemporaryDirectory(dir=MEMORY) as memory:
        build(Path(library).resolve(), Path(built))
        bench = Bench(Path(built), Path(memory) / "pages")
        write_pages(bench.pages)
        runs = [(name, load) for load in LOADS for name, pool in POOLS.items() if load.threads <= pool.threads]
        for _ in range(rounds):
            for name, load in random.sample(runs, len(runs)):
                bench.run(name, load)
        bench.count()
        bench.took.print()


if __name__ == "__main__":
    main()
