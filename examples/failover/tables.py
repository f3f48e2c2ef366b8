"""The results in text and in CSV."""

from case import BLOCK, COLD, HALF, HISTORY, LAST_USE, POLICIES, PRIMARY, TENTH, WARMED, Result
from replicas import Habit

FIRST = 1000  # accesses of the second ratio

Row = list[str]

PLACE = ["frames", "takeover after", "once in", "hold"]


def text_table(head: Row, rows: list[Row]) -> str:
    """A table whose columns are as wide as their widest cell; the figures stand at the right."""
    widths = [max(len(row[column]) for row in [head, *rows]) for column in range(len(head))]
    rule = ["-" * (width - 1) + ":" for width in widths]
    lines = [[cell.rjust(width) for cell, width in zip(row, widths)] for row in [head, rule, *rows]]
    return "".join(f"| {' | '.join(line)} |\n" for line in lines)


def place(result: Result) -> Row:
    """The cells that say which case it is."""
    plan = result.plan
    return [f"{plan.frames}", f"{plan.takeover:,}", *habit_cells(plan.habit)]


def habit_cells(habit: Habit) -> Row:
    """The cells that say which habit it is."""
    return [f"{habit.once_in}", f"{habit.hold}"]


def by_habit(results: list[Result]) -> dict[Habit, list[Result]]:
    """The cases of each habit."""
    return {
        habit: [result for result in results if result.plan.habit == habit]
        for habit in sorted({result.plan.habit for result in results})
    }


def mean_table(results: list[Result], accesses: int) -> str:
    """For each habit the means of the ratios over its cases, and where the warmed standby is not better."""
    others = [COLD, LAST_USE]
    head = [*PLACE[2:], "references", *POLICIES, *(f"not above {policy}" for policy in others)]
    rows = []
    for habit, played in by_habit(results).items():
        share = sum(result.references for result in played) / sum(result.plan.takeover for result in played)
        ratios = {policy: [result.outcomes[policy].ratio(accesses) for result in played] for policy in POLICIES}
        means = [f"{sum(ratios[policy]) / len(played):.3f}" for policy in POLICIES]
        worse = [sum(ours <= theirs for ours, theirs in zip(ratios[WARMED], ratios[policy])) for policy in others]
        rows.append([*habit_cells(habit), f"{share:.3f}", *means, *(f"{count} of {len(played)}" for count in worse)])
    return text_table(head, rows)


def ratio_table(results: list[Result], accesses: int) -> str:
    """The hit ratio of each policy over the first accesses after the takeover."""
    head = [*PLACE, *POLICIES]
    rows = [[*place(r), *(f"{r.outcomes[policy].ratio(accesses):.3f}" for policy in POLICIES)] for r in results]
    return text_table(head, rows)


def read_cell(result: Result, policy: str) -> str:
    """Reads until a block is near the primary's, or that none was."""
    outcome = result.outcomes[policy]
    until = outcome.until_near(result.outcomes[PRIMARY])
    if until is None:
        return f"over {outcome.reads(BLOCK * len(outcome.hits)):,}"
    return f"{outcome.reads(until):,} / {until:,}"


def read_table(results: list[Result]) -> str:
    """How many reads each standby needs, and over how many accesses."""
    head = [*PLACE, *POLICIES[1:]]
    return text_table(head, [[*place(r), *(read_cell(r, policy) for policy in POLICIES[1:])] for r in results])


def cost_table(results: list[Result]) -> str:
    """What gossip and warm-up cost."""
    came = [f"{policy}, KB" for policy in (HALF, TENTH)]
    head = [*PLACE, "references", "sent, KB", *came, "WarmSteps needed", "warm-up, ms", "dump, ms"]
    rows = []
    for result in results:
        arrived = [f"{result.outcomes[policy].came / 1000:,.0f}" for policy in (HALF, TENTH)]
        times = [f"{1000 * result.outcomes[policy].seconds:.1f}" for policy in (WARMED, LAST_USE)]
        needed = "never" if result.steps_needed is None else f"{result.steps_needed}"
        sent = [f"{result.references:,}", f"{result.sent / 1000:,.0f}"]
        rows.append([*place(result), *sent, *arrived, needed, *times])
    return text_table(head, rows)


def measures(result: Result, policy: str) -> dict[str, float]:
    """What policies are compared by; more is better."""
    outcome = result.outcomes[policy]
    return {
        f"{BLOCK}": outcome.ratio(BLOCK),
        f"{FIRST:,}": outcome.ratio(FIRST),
        "reads": -outcome.reads(BLOCK * len(outcome.hits)),
    }


def not_better(result: Result, policy: str) -> list[str]:
    """By which measures the warmed standby is not better than one of this policy."""
    ours, theirs = measures(result, WARMED), measures(result, policy)
    return [name for name, value in theirs.items() if ours[name] <= value]


def worse_table(results: list[Result]) -> str:
    """Where the warmed standby is not better, case by case."""
    others = [COLD, HISTORY, LAST_USE]
    rows = [[*place(r), *(", ".join(not_better(r, policy)) or "-" for policy in others)] for r in results]
    return text_table([*PLACE, *others], rows)


def worse_counts(results: list[Result]) -> str:
    """In how many cases of each habit the warmed standby is not better."""
    others = [COLD, HISTORY, LAST_USE]
    rows = []
    for habit, played in by_habit(results).items():
        found = {policy: [name for result in played for name in not_better(result, policy)] for policy in others}
        counts = (
            ", ".join(f"{found[policy].count(name)} by {name}" for name in measures(played[0], WARMED))
            for policy in others
        )
        rows.append([*habit_cells(habit), f"{len(played)}", *counts])
    return text_table([*PLACE[2:], "cases", *others], rows)


def report_text(title: str, results: list[Result]) -> str:
    """The whole report in text."""
    return "\n".join([
        f"{title}\n",
        "'once in': of a page's accesses within so many the first alone is handed in as a reference; 'hold': for so",
        "many accesses a page stays pinned; 'references': the share of the accesses before the takeover that was",
        "handed in; 'restored 10': its dump is ten rounds older than the last round of gossip\n",
        f"Means over the cases, for the first {BLOCK} accesses after the takeover\n",
        mean_table(results, BLOCK),
        f"Means over the cases, for the first {FIRST:,} accesses after the takeover\n",
        mean_table(results, FIRST),
        f"Hit ratio of the first {BLOCK} accesses after the takeover\n",
        ratio_table(results, BLOCK),
        f"Hit ratio of the first {FIRST:,} accesses after the takeover\n",
        ratio_table(results, FIRST),
        f"Device reads, the warm-up's included, until {BLOCK} accesses have a ratio within 0.01 of the primary's",
        "(reads / accesses after the takeover; 'over' where none had)\n",
        read_table(results),
        "Costs: references that the primary handed in before the takeover; bytes of gossip that were sent, and that",
        f"came where frames were lost; WarmSteps until the first {BLOCK} accesses have a ratio within 0.01 of the",
        "primary's; times of a whole warm-up, and of loading a dump by last use\n",
        cost_table(results),
        f"Where the warmed standby is not better: by the ratio of the first {BLOCK} or {FIRST:,} accesses, "
        "or by all reads,",
        "those of its warm-up included\n",
        worse_counts(results),
        worse_table(results),
    ])  # fmt: skip


def csv_place(result: Result, policy: str) -> str:
    """The cells of a CSV line that say of what it is."""
    plan = result.plan
    return f"{plan.frames},{plan.takeover},{plan.habit.once_in},{plan.habit.hold},{policy}"


def ratios_csv(results: list[Result]) -> str:
    """The hits of each block after each takeover, with a space between two blocks."""
    lines = [f"frames,takeover,once_in,hold,policy,hits in each {BLOCK} accesses\n"]
    for result in results:
        for policy in POLICIES:
            hits = " ".join(map(str, result.outcomes[policy].hits))
            lines.append(f"{csv_place(result, policy)},{hits}\n")
    return "".join(lines)


def costs_csv(results: list[Result]) -> str:
    """What each policy cost. An empty cell: never, or not measured. The seconds are the last column."""
    head = "near_after,near_reads,loaded,references,gossip_sent,gossip_came,steps_needed,seconds"
    lines = [f"frames,takeover,once_in,hold,policy,{head}\n"]
    for result in results:
        for policy in POLICIES:
            outcome = result.outcomes[policy]
            until = outcome.until_near(result.outcomes[PRIMARY])
            near = ["", ""] if until is None else [until, outcome.reads(until)]
            references = result.references if policy == PRIMARY else ""
            sent = result.sent if outcome.came else 0
            steps = result.steps_needed if policy == WARMED and result.steps_needed is not None else ""
            seconds = f"{outcome.seconds:.6f}" if outcome.loaded else ""
            cells = [*near, outcome.loaded, references, sent, outcome.came, steps, seconds]
            lines.append(",".join(map(str, [csv_place(result, policy), *cells])) + "\n")
    return "".join(lines)
