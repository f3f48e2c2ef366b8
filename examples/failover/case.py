"""One case: a primary, a takeover, and the accesses after it on the primary and on each standby."""

import json
from dataclasses import dataclass, field
from pathlib import Path

from page_trace import Access, Trace
from player import Player
from replicas import Channel, Habit, Replica, Sender, make_access

BLOCK = 200  # accesses over which a ratio is taken
NEAR = 0.01  # a ratio this far below the primary's is as good
PROBES = 50  # WarmSteps are tried in steps of the frames divided by this
PAGE_SIZE = 512

PRIMARY = "primary"
COLD = "cold"
HISTORY = "history"
WARMED = "warmed"
RESTORED = "restored"
RESTORED_1 = "restored 1"
RESTORED_10 = "restored 10"
LAST_USE = "last use"
HALF = "1 of 2"
TENTH = "1 of 10"
POLICIES = (PRIMARY, COLD, HISTORY, WARMED, RESTORED, RESTORED_1, RESTORED_10, LAST_USE, HALF, TENTH)
DUMP_AGES = {RESTORED: 0, RESTORED_1: 1, RESTORED_10: 10}  # by how many rounds a dump is older than the last round
PROBE = len(POLICIES) + 1  # the number of the replica on which WarmSteps are counted
LATE = (1, 2)  # a late frame arrives one round after its own, and once more another round later


@dataclass(frozen=True)
class Plan:
    """What is played: frames of each pool, accesses before the takeover, between rounds of gossip, and after it."""

    frames: int
    takeover: int
    interval: int
    accesses: int
    habit: Habit

    @property
    def last_round(self) -> int:
        """After how many accesses the last round was: one that is due at the takeover does not come."""
        return (self.takeover - 1) // self.interval * self.interval

    def setup(self, pages: int, device: Path) -> str:
        """The setup file; devices are files beside `device`."""
        return (
            f"replicas = {PROBE}\nworkers = 1\nbuffer = 1\nframes = {self.frames}\npage_size = {PAGE_SIZE}\n"
            f"device = [{{ pages = {pages}, path = {json.dumps(str(device))} }}]\n"
        )


@dataclass
class Outcome:
    """What became of one replica: hits in each block after the takeover, and what it cost before."""

    hits: list[int] = field(default_factory=list)
    loaded: int = 0
    seconds: float = 0.0
    came: int = 0

    def ratio(self, accesses: int) -> float:
        """The hit ratio of the first accesses after the takeover."""
        blocks = self.hits[: accesses // BLOCK]
        return sum(blocks) / (BLOCK * len(blocks))

    def until_near(self, primary: "Outcome") -> int | None:
        """After how many accesses a block's ratio is near the primary's for the first time, if ever."""
        blocks = enumerate(zip(self.hits, primary.hits), start=1)
        return next((BLOCK * number for number, (ours, best) in blocks if near(ours, best)), None)

    def reads(self, accesses: int) -> int:
        """Reads from the device up to this many accesses after the takeover, those of the warm-up included."""
        return self.loaded + accesses - sum(self.hits[: accesses // BLOCK])


@dataclass(frozen=True)
class Result:
    """All of a case: each policy's outcome, the WarmSteps that were needed (if enough ever were), bytes sent, and the
    references that the primary handed in before the takeover."""

    plan: Plan
    outcomes: dict[str, Outcome]
    steps_needed: int | None
    sent: int
    references: int


def near(hits: int, best: int) -> bool:
    """Whether a block with this many hits is near one with the best number of them."""
    return hits >= best - NEAR * BLOCK


class Case:
    """A case while it is played."""

    def __init__(self, player: Player, trace: Trace, plan: Plan) -> None:
        self.player = player
        self.plan = plan
        self.before = trace.accesses[: plan.takeover]
        self.after = trace.accesses[plan.takeover : plan.takeover + plan.accesses]
        self.replicas = {policy: Replica(player, number, plan.habit) for number, policy in enumerate(POLICIES, start=1)}
        self.outcomes = {policy: Outcome() for policy in POLICIES}
        self.rounds: list[list[int]] = []  # the numbers of each round's frames
        self.sent = 0

    def play(self) -> Result:
        """Plays all of it."""
        self._lead_up()
        references = self.replicas[PRIMARY].references
        for policy, age in DUMP_AGES.items():
            self._restore(self.replicas[policy], age)
        for policy in (WARMED, *DUMP_AGES, HALF, TENTH):
            outcome = self.outcomes[policy]
            outcome.loaded, outcome.seconds = self.replicas[policy].warm_up(self.plan.frames)
        dumped = self.outcomes[LAST_USE]
        dumped.loaded, dumped.seconds = self.replicas[LAST_USE].load_dump(self._dump())
        self._take_over()
        return Result(self.plan, self.outcomes, self._steps_needed(), self.sent, references)

    def _lead_up(self) -> None:
        """The primary's accesses up to the takeover, and the gossip meanwhile."""
        channels = {policy: Channel(self.replicas[policy]) for policy in (HISTORY, WARMED, *DUMP_AGES)}
        channels[HALF] = Channel(self.replicas[HALF], 2, LATE)
        channels[TENTH] = Channel(self.replicas[TENTH], 10, LATE)
        sender = Sender(self.player)
        for access in self.before:
            make_access(self.player, [self.replicas[PRIMARY]], access)
            if self.replicas[PRIMARY].has_handed_in(access):
                sender.note(access)
            if access.time % self.plan.interval == 0 and access.time <= self.plan.last_round:
                frames = sender.send_round()
                self.sent += sum(frame.size for frame in frames)
                self.rounds.append([frame.number for frame in frames])
                for channel in channels.values():
                    channel.carry(frames)
        for policy, channel in channels.items():
            self.outcomes[policy].came = channel.came

    def _restore(self, replica: Replica, age: int) -> None:
        """The replica restarts, and reads a dump that is this many rounds older than the last one, or the oldest.

        A dump holds the frames of a whole history, which are those of a round.
        """
        replica.restart()
        replica.hear(self.rounds[max(0, len(self.rounds) - 1 - age)] if self.rounds else [])

    def _dump(self) -> list[Access]:
        """The latest last uses at the last round, oldest first, of as many pages as there are frames."""
        latest = {access.page: access for access in self.before[: self.plan.last_round]}
        return sorted(latest.values(), key=lambda access: access.time)[-self.plan.frames :]

    def _take_over(self) -> None:
        """The primary and each standby make the accesses after the takeover, as if each were the one that goes on."""
        for start in range(0, len(self.after), BLOCK):
            hits = dict.fromkeys(POLICIES, 0)
            for access in self.after[start : start + BLOCK]:
                found = make_access(self.player, list(self.replicas.values()), access)
                for policy, hit in zip(POLICIES, found):
                    hits[policy] += hit
            for policy, outcome in self.outcomes.items():
                outcome.hits.append(hits[policy])
        for replica in self.replicas.values():
            replica.end_accesses()

    def _steps_needed(self) -> int | None:
        """The least number of WarmSteps with which the first block is near the primary's.

        A replica that receives what the warmed standby has received begins again for each number.
        """
        best = self.outcomes[PRIMARY].hits[0]
        for steps in range(0, self.plan.frames + 1, max(1, self.plan.frames // PROBES)):
            probe = Replica(self.player, PROBE, self.plan.habit)
            # entries hold all that earlier rounds sent
            probe.hear(self.rounds[-1] if self.rounds else [])
            probe.warm_up(steps)
            hits = sum(hit for access in self.after[:BLOCK] for hit in make_access(self.player, [probe], access))
            probe.restart()
            if near(hits, best):
                return steps
        return None


def play_case(program: Path, trace: Trace, plan: Plan, folder: Path) -> Result:
    """Plays a case in a folder, which then has its setup, its schedule and its device."""
    name = f"{plan.frames}-frames-{plan.takeover}-once-in-{plan.habit.once_in}-hold-{plan.habit.hold}"
    setup = folder / f"{name}.setup"
    setup.write_text(plan.setup(trace.pages, folder / f"{name}.device"), encoding="utf-8")
    with Player(program, setup, folder / f"{name}.schedule") as player:
        return Case(player, trace, plan).play()
