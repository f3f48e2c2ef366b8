#!/usr/bin/env python3
"""The device reads after a takeover as a picture: SVG, written without a library.

usage: picture.py FRAMES NAME=FILE...    each file has lines `after PAGES DEVICE_READS`
"""

import sys
from pathlib import Path

WIDTH, HEIGHT = 640, 360
LEFT, TOP, RIGHT, BOTTOM = 56, 40, 90, 44
STYLES = {"warm": ("#d62728", ""), "cold": ("#1f77b4", ""), "stock": ("#222222", "6 4")}

Point = tuple[int, int]


def points_of(path: str) -> list[Point]:
    """Pages asked for and device reads, after each transaction."""
    words = (line.split() for line in Path(path).read_text().splitlines())
    return [(0, 0)] + [(int(line[1]), int(line[2])) for line in words if line[:1] == ["after"]]


def text(x: float, y: float, content: str, anchor: str = "start") -> str:
    return f'<text x="{x:g}" y="{y:g}" text-anchor="{anchor}">{content}</text>\n'


def ticks(most: int) -> list[int]:
    """Round numbers from 0 on, six at most."""
    step = next(part * 10**power for power in range(12) for part in (1, 2, 5) if most <= 5 * part * 10**power)
    return list(range(0, most + 1, step))


class Picture:
    """Pages asked for to the right, device reads upward."""

    def __init__(self, curves: dict[str, list[Point]]) -> None:
        self.curves = curves
        self.most_pages = max(points[-1][0] for points in curves.values())
        self.most_reads = max(points[-1][1] for points in curves.values())

    def x(self, pages: float) -> float:
        return round(LEFT + (WIDTH - LEFT - RIGHT) * pages / self.most_pages, 1)

    def y(self, reads: float) -> float:
        return round(HEIGHT - BOTTOM - (HEIGHT - TOP - BOTTOM) * reads / self.most_reads, 1)

    def axes(self) -> str:
        parts = []
        for reads in ticks(self.most_reads):
            y = self.y(reads)
            parts.append(f'<line x1="{LEFT}" y1="{y:g}" x2="{WIDTH - RIGHT}" y2="{y:g}" stroke="#dddddd"/>\n')
            parts.append(text(LEFT - 6, y + 4, f"{reads:,}", "end"))
        for pages in ticks(self.most_pages):
            parts.append(text(self.x(pages), HEIGHT - BOTTOM + 16, f"{pages:,}", "middle"))
        parts.append(text((LEFT + WIDTH - RIGHT) / 2, HEIGHT - 8, "pages that SQLite asked for since the takeover", "middle"))
        return "".join(parts)

    def curve(self, name: str, points: list[Point], label_y: float) -> str:
        colour, dashes = STYLES[name]
        places = " ".join(f"{self.x(pages):g},{self.y(reads):g}" for pages, reads in points)
        return (
            f'<polyline points="{places}" fill="none" stroke="{colour}" stroke-width="2" stroke-dasharray="{dashes or "none"}"/>\n'
            + text(self.x(points[-1][0]) + 6, label_y, f"{name} {points[-1][1]:,}")
        )

    def draw(self, frames: str) -> str:
        title = text(LEFT, 20, f"device reads after a takeover, {frames} frames")
        parts, taken = [], []
        for name, points in sorted(self.curves.items(), key=lambda item: item[1][-1][1]):
            # labels of curves that end at one place stand one above the other
            label_y = min([self.y(points[-1][1]) + 4] + [place - 14 for place in taken])
            taken.append(label_y)
            parts.append(self.curve(name, points, label_y))
        return (
            f'<svg xmlns="http://www.w3.org/2000/svg" viewBox="0 0 {WIDTH} {HEIGHT}" width="{WIDTH}" height="{HEIGHT}"'
            f' font-family="sans-serif" font-size="12" fill="#222222">\n<rect width="{WIDTH}" height="{HEIGHT}" fill="#ffffff"/>\n'
            f"{title}{self.axes()}{''.join(parts)}</svg>\n"
        )


def main() -> None:
    match sys.argv[1:]:
        case [frames, *named] if named:
            curves = dict(word.split("=", 1) for word in named)
            sys.stdout.write(Picture({name: points_of(path) for name, path in curves.items()}).draw(frames))
        case _:
            sys.exit(__doc__)


main()
