"""The results as a picture: SVG, written without a library."""

from html import escape

from case import BLOCK, COLD, HALF, HISTORY, LAST_USE, PRIMARY, RESTORED_10, TENTH, WARMED, Outcome, Result
from replicas import Habit

WIDTH, HEIGHT = 250, 170  # of a panel
LEFT, TOP, RIGHT, BOTTOM = 34, 26, 18, 22  # inside of a panel, around its lines
LEGEND = 50  # height above the panels

# Of each policy that is drawn the colour, the width of its line, and its dashes. Restored would hide warmed.
STYLES = {
    PRIMARY: ("#222222", 2.0, ""),
    COLD: ("#7f7f7f", 1.2, ""),
    HISTORY: ("#b07aa1", 1.2, "2 2"),
    WARMED: ("#d62728", 2.0, ""),
    RESTORED_10: ("#8c564b", 1.3, "6 2 2 2"),
    LAST_USE: ("#1f77b4", 1.4, ""),
    HALF: ("#ff7f0e", 1.2, "5 2"),
    TENTH: ("#2ca02c", 1.2, "5 2"),
}


def text(x: float, y: float, content: str, anchor: str = "start", size: int = 10) -> str:
    """Words at a place."""
    return f'<text x="{x:g}" y="{y:g}" font-size="{size}" text-anchor="{anchor}">{escape(content)}</text>\n'


def line(x1: float, y1: float, x2: float, y2: float, colour: str) -> str:
    """A thin line between two places."""
    return f'<line x1="{x1:g}" y1="{y1:g}" x2="{x2:g}" y2="{y2:g}" stroke="{colour}"/>\n'


class Panel:
    """One case: ratios upward, accesses after the takeover to the right."""

    def __init__(self, result: Result, left: int, top: int, lowest: float) -> None:
        self.result = result
        self.left, self.top, self.lowest = left + LEFT, top + TOP, lowest
        self.width, self.height = WIDTH - LEFT - RIGHT, HEIGHT - TOP - BOTTOM
        self.blocks = len(next(iter(result.outcomes.values())).hits)

    def x(self, accesses: float) -> float:
        """The place of this many accesses on the axis."""
        return round(self.left + self.width * accesses / (BLOCK * self.blocks), 1)

    def y(self, ratio: float) -> float:
        """The place of a ratio on the axis."""
        return round(self.top + self.height * (1 - ratio) / (1 - self.lowest), 1)

    def draw(self) -> str:
        """Title, axes and a curve for each policy."""
        plan = self.result.plan
        title = text(self.left, self.top - 8, f"{plan.frames} frames, takeover after {plan.takeover:,}", size=11)
        curves = "".join(self.curve(policy, self.result.outcomes[policy]) for policy in STYLES)
        return title + self.axes() + curves

    def axes(self) -> str:
        """A line at each tenth, and the numbers beside and below."""
        parts = []
        for tenth in range(round(10 * self.lowest), 11):
            height = self.y(tenth / 10)
            parts.append(line(self.left, height, self.left + self.width, height, "#dddddd"))
            parts.append(text(self.left - 4, height + 3, f"{tenth / 10:.1f}", "end", 9))
        foot = self.top + self.height + 13
        for part in range(5):
            accesses = BLOCK * self.blocks * part / 4
            parts.append(text(self.x(accesses), foot, f"{accesses:,.0f}", "middle", 9))
        return "".join(parts)

    def curve(self, policy: str, outcome: Outcome) -> str:
        """The ratio of each block, at the block's middle."""
        colour, width, dashes = STYLES[policy]
        points = " ".join(
            f"{self.x(BLOCK * (block + 0.5)):g},{self.y(hits / BLOCK):g}" for block, hits in enumerate(outcome.hits)
        )
        dashed = f' stroke-dasharray="{dashes}"' if dashes else ""
        return f'<polyline points="{points}" fill="none" stroke="{colour}" stroke-width="{width}"{dashed}/>\n'


def legend(habit: Habit) -> str:
    """What is drawn, and which line is which policy's."""
    words = f"hit ratio in each {BLOCK} accesses, by accesses after the takeover"
    if habit != Habit():
        words += f" (once in {habit.once_in}, hold {habit.hold})"
    parts = [text(LEFT, 16, words, size=12)]
    for place, (policy, (colour, width, dashes)) in enumerate(STYLES.items()):
        left = LEFT + 110 * place
        parts.append(
            f'<line x1="{left}" y1="34" x2="{left + 24}" y2="34" stroke="{colour}" stroke-width="{width}"'
            f' stroke-dasharray="{dashes or "none"}"/>\n'
        )
        parts.append(text(left + 29, 38, policy, size=11))
    return "".join(parts)


def lowest_ratio(results: list[Result]) -> float:
    """A tenth below every ratio that is drawn and below 1: the foot of all panels, so that pictures can be compared."""
    least = min(hits for result in results for policy in STYLES for hits in result.outcomes[policy].hits)
    return min(10 * least // BLOCK, 9) / 10


def picture(habit: Habit, results: list[Result], lowest: float) -> str:
    """A panel for each case of a habit: a row for each number of frames, a column for each takeover."""
    rows = sorted({result.plan.frames for result in results})
    columns = sorted({result.plan.takeover for result in results})
    panels = "".join(
        Panel(
            result,
            WIDTH * columns.index(result.plan.takeover),
            LEGEND + HEIGHT * rows.index(result.plan.frames),
            lowest,
        ).draw()
        for result in results
    )
    width, height = max(WIDTH * len(columns), LEFT + 110 * len(STYLES)), LEGEND + HEIGHT * len(rows)
    return (
        f'<svg xmlns="http://www.w3.org/2000/svg" viewBox="0 0 {width} {height}" width="{width}" height="{height}"'
        f' font-family="sans-serif" fill="#222222">\n<rect width="{width}" height="{height}" fill="#ffffff"/>\n'
        f"{legend(habit)}{panels}</svg>\n"
    )
