"""What a check says of functions that it does not prove: whether that is of the meaning of their
bodies."""
import re

FUNCTION = re.compile(r"fn (\S+): (proved|not proved|no proof|could not tell)\b(.*)")
OTHER = re.compile(r"(?:struct|enum|impl|trait) (\S+): ")
ERROR = re.compile(
    r"(?:\./)?((?:src|specs|proofs)/\S+?):(\d+):(?:\d+:)? error(?:\[[\w-]+\])?: (.*)"
)
GOAL = re.compile(r"note: \S+: it is not proved that (.*) \(`(\S+)`\)(.*)")
SEARCHED = re.compile(
    r"note: what antt said of a `search` in the proof that rattle made: \S+: error: `(\S+)`: (.*)"
)
LEFT = re.compile(r"`search` did not prove ((?:`[^`]+`(?:, )?)+)")
CALLS = re.compile(r"\bit (?:calls|passes|waits for) |\ba call of |wait for a callee")
ENDED = re.compile(r"only=\d+ |logic=|rattle: no verdict")

# A proof file that names what an edit took away says nothing of what the edited body does.
NAMES = re.compile(
    r"is not in scope|has no field|has no `|is no name|exports no|operand is missing"
    r"|expected the end|cannot continue"
    r"|(?:constructor|pattern|clause|variable)s? .*(?:missing|expected|unknown)"
)
# An answer of another type than its goal, whose parts may have these words in their names.
DIFFERS = re.compile(
    r"`[^`]+`: (?:(?:as printed, |computed as far as they go, )?the two|expected type) "
)
WAITS = re.compile(r"was not admitted|depends on")
LIMIT = re.compile(
    r"broke off|gave up|ran out of|took more than \d+ steps|outgrew the memory limit"
    r"|stopped at the step limit"
)
FALSE = "; values are known at which it is false"

# What is said of a function, and of an edit the first of what is said of its functions.
REFUSED, AT_LIMIT, BAD = "refused", "refused at a limit", "BAD EDIT"
WAITING, PROVED = "waiting", "proved"
RANKS = (REFUSED, AT_LIMIT, BAD, WAITING, PROVED)


def first_of(found):
    """Of several findings, each a rank and a text, the one that counts."""
    return min(found, key=lambda it: RANKS.index(it[0]))


class Said:
    """What one check printed."""

    def __init__(self, output):
        self.output = output
        # each function's verdict, what stands behind it, and the lines before it
        self.functions = {}
        # each error's file, line and text
        self.errors = []
        self.is_whole = False
        before, last = [], None
        for line in output.splitlines():
            if found := ERROR.match(line):
                self.errors.append(last := [found[1], int(found[2]), found[3]])
            elif last and line.startswith("  "):
                last[2] += line[1:]
            else:
                last = None
            if found := FUNCTION.match(line):
                self.functions[found[1]] = (found[2], found[3], before)
                before = []
            elif OTHER.match(line):
                before = []
            else:
                before.append(line)
            self.is_whole = self.is_whole or bool(ENDED.match(line))

    def of(self, path):
        """What is said of the function of this path: a rank, and why."""
        if path not in self.functions:
            return BAD, "the check says nothing of the function"
        verdict, rest, before = self.functions[path]
        if verdict == "proved":
            return PROVED, ""
        folders = folders_of(path)
        found = [kind_of(text) for file, _, text in self.errors if file.startswith(folders)]
        # a goal that has another name now is open since its answer has the old one
        is_renamed = any(kind == BAD for kind, _ in found)
        found += [it for it in goals_in(rest, before) if not is_renamed or FALSE in it[1]]
        if CALLS.search(rest):
            found.append((WAITING, rest.strip(" ;:")))
        if verdict == "could not tell":
            found.append((AT_LIMIT, rest.strip(" ;:")))
        return first_of(found or [(BAD, f"unclear: {verdict}{rest}")])

    def of_all(self):
        """What is said of the whole crate: the first of what is said of its functions and of its
        lemmas."""
        found = [self.of(it) for it in self.functions]
        folders = tuple(folder for it in self.functions for folder in folders_of(it))
        found += [kind_of(text) for file, _, text in self.errors if not file.startswith(folders)]
        return first_of(found or [(BAD, "the check says nothing of the crate")])


def folders_of(path):
    """The folder with the proof files of the function of this path, and the one that it has where
    the function calls itself."""
    *above, name = path.split("::")[1:]
    return tuple("/".join(["proofs", *above, it, ""]) for it in (name, f"+{name}"))


def goals_in(rest, before):
    """What is said of the goals that `search` left open, by the rest of the function's line and
    the lines before it."""
    goals = {it[2]: it for line in before if (it := GOAL.match(line))}
    searched = {}
    for at, line in enumerate(before):
        if it := SEARCHED.match(line):
            searched[it[1]] = " ".join([it[2], *before[at + 1 : at + 2]])
    found = []
    for name in [it for words in LEFT.findall(rest) for it in re.findall(r"`([^`]+)`", words)]:
        if name in goals and not LIMIT.search(goals[name][3]):
            is_false = FALSE if "goal is false" in goals[name][3] else ""
            found.append((REFUSED, f"{name}: not proved that {goals[name][1]}{is_false}"))
        else:
            found.append((AT_LIMIT, f"{name}: {searched.get(name, 'the search gave up')}"))
    return found


def kind_of(text):
    """What an error in a proof file says of the body that it is of."""
    if DIFFERS.match(text):
        return REFUSED, text
    for kind, pattern in ((BAD, NAMES), (WAITING, WAITS), (AT_LIMIT, LIMIT)):
        if pattern.search(text):
            return kind, text
    return REFUSED, text


# what checks print, cut short
ENSURES = "it is not proved that what the function ensures holds when it returns"
ALLOW = "the facts known there allow values at which this goal is false"
SAID = "note: what antt said of a `search` in the proof that rattle made"
PRINTED = f"""./proofs/a/T/get/Answers.antt:4:26: error: `returns`: the two types differ
  expected type `c.min.result`, but this has type `c.self`
./proofs/a/next/Answers.antt:6:138: error: `returns`: record `Joined1` has no field `if-contains`
./proofs/a/last/Answers.antt:6:1: error: `returns`: `met` was not admitted
./proofs/a/+walk/Answers.antt:6:1: error: `returns`: expected type `1`, but this has type `0`
./proofs/a/count/Answers.antt:6:1: error: `returns-clause-kept`: as printed, the two types differ
  only where one has `old` (expected) and the other has `new` (found)
struct it::a::T: proved
fn it::a::T::new: proved
fn it::a::T::get: not proved
note: src/a.rt:33:5: {ENSURES} (`returns`); {ALLOW}
fn it::a::put: no proof: `search` did not prove `returns`; it calls `it::a::get`, which is not
{SAID}: src/a.rt:1:2: error: `returns`: less
  `search` broke off: the call's work took more than 10000000 steps
fn it::a::iter: no proof: `search` did not prove `returns`
note: src/a.rt:211:5: {ENSURES} (`returns-then-bucket`)
fn it::a::next: not proved; `search` did not prove `returns-then-bucket`; it calls `it::a::get`
fn it::a::last: not proved
fn it::a::count: not proved
fn it::a::walk: not proved
fn it::a::first: no proof: it calls `it::a::T::get`, which is not proved
fn it::a::turn: could not tell
logic=not-proved
"""
READ = {
    "new": PROVED,
    "get": REFUSED,
    "put": REFUSED,
    "iter": AT_LIMIT,
    "next": BAD,
    "last": WAITING,
    "count": REFUSED,
    "walk": REFUSED,
    "first": WAITING,
    "turn": AT_LIMIT,
}


def self_test():
    """Says what is wrong with how the prover's words are read, if anything."""
    said = Said(PRINTED)
    found = {it.split("::")[-1]: said.of(it)[0] for it in said.functions}
    if found != READ:
        return f"the functions are {found}"
    ended = Said("src/a.rt:3:5: error[unknown-name]: there is no `bitz`\n")
    if not said.is_whole or ended.is_whole or ended.errors[0][:2] != ["src/a.rt", 3]:
        return "a check that the front end ends is not told from others"
    return ""
