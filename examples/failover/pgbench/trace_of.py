#!/usr/bin/env python3
"""usage: trace_of.py EVENTS    prints the page trace of what note_reads.py noted

Each pin of a page is one access. A change of a page that was pinned makes that access a write; one of a page that was
not, because it is new, is an access of its own. Pages are numbered in the order of file node, fork and block.
"""

import sys

Page = tuple[int, int, int]


def accesses(lines: list[str]) -> list[tuple[str, Page]]:
    found: list[tuple[str, Page]] = []
    latest: dict[Page, int] = {}
    for line in lines:
        kind, *fields = line.split()
        page = (int(fields[0]), int(fields[1]), int(fields[2]))
        if kind == "w" and page in latest:
            found[latest[page]] = ("w", page)
        else:
            latest[page] = len(found)
            found.append((kind, page))
    return found


def main() -> None:
    if len(sys.argv) != 2:
        sys.exit(__doc__)
    with open(sys.argv[1], encoding="ascii") as lines:
        found = accesses(list(lines))
    numbers = {page: number for number, page in enumerate(sorted({page for _kind, page in found}))}
    sys.stdout.writelines(f"{kind} {numbers[page]}\n" for kind, page in found)


main()
