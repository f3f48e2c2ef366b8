"""Wrong bodies, crates/CRATE/wrong-bodies/*.edit and must-fail/*.edit: what they change, and in
which functions."""
import os
import re

# what a scan of Rust text may skip, and the words before braces that are no body
TOKEN = re.compile(
    r'//[^\n]*|"(?:\\.|[^"\\])*"|\'(?:\\.|[^\'\\])\'|[][{}();]'
    r"|\b(?:requires|ensures|ghost|decreases|invariant)\b"
)
OWNER = re.compile(r"(?m)^impl(?:<.*?>)? (?:([\w:]+(?:<.*?>)?) for )?&?(?:'\w+ )?(\w+)")
FUNCTION = re.compile(
    r'(?m)^[ \t]*(?:pub(?:\([a-z]+\))? )?(?:const )?(?:extern "C" )?fn ([A-Za-z_0-9]+)'
)
IMPORT = re.compile(r"\s*use [\w:{}, ]+;\s*")
CALL = re.compile(r"\b(\w+)(?:::<[^()]*>)?\(")


class BadEdit(Exception):
    """Why an edit cannot be applied."""


class Function:
    """A function of a source file: its name, the type and the trait whose impl it is in, and where
    its body begins and ends."""

    def __init__(self, text, name, start, end):
        self.name, self.start, self.end = name, start, end
        self.is_empty = not text[start + 1 : end - 1].strip()
        self.calls = {*CALL.findall(text[start:end])}
        self.trait = self.owner = None
        for head in OWNER.finditer(text[:start]):
            if closing(text, text.index("{", head.end()) + 1) > start:
                self.trait, self.owner = head.groups()

    def path_in(self, paths, crate, file):
        """Which of rt's paths of functions is that of this one, or None. A method's has the module
        of its type, and an impl of a trait is named by type and trait, as FaultFromAllocError."""
        found = [it.split("::") for it in paths]
        found = [it for it in found if it[0] == crate and it[-1] == self.name]
        if not self.owner:
            module = file[len("src/") : -len(".rt")].replace("/", "::")
            within = [] if module in ("lib", "main") else module.split("::")
            found = [it for it in found if it[1:-1] == within]
        elif not self.trait:
            found = [it for it in found if it[-2] == self.owner]
        else:
            words = [it.split("::")[-1] for it in re.findall(r"[\w:]+", self.trait)]
            found = [it for it in found if it[-2].startswith(self.owner + words[0])]
            if len(found) > 1:
                found = [it for it in found if words[1:] and words[1] in it[-2]]
        return "::".join(found[0]) if len(found) == 1 else None


class Edit:
    """One wrong body: its texts, and the functions in whose bodies alone it changes something
    (none, where it changes more)."""

    def __init__(self, path):
        self.path, self.name, self.crate = path, path.stem, path.parent.parent.name
        self.text = path.read_text(encoding="utf-8")
        self.pairs = list(pairs_in(self.text))
        self.functions = []
        self.paths = []

    def __str__(self):
        return f"{self.crate}/{self.name}"

    def applied(self, texts):
        """The texts of the files that it changes, where `texts` has that of each file of the crate
        by its path there."""
        changed = {}
        for file, old, new in self.pairs:
            text = changed.get(file, texts.get(file, ""))
            if text.count(old) != 1:
                times = text.count(old)
                raise BadEdit(f"an old text is {times} times in {file}: {old.strip()}")
            changed[file] = text.replace(old, new)
        if all(changed[it] == texts[it] for it in changed):
            raise BadEdit("it changes nothing")
        return changed

    def look_up(self, texts, bodies):
        """Finds the functions, where `bodies` gives those of each source file."""
        found = []
        for file, old, new in self.pairs:
            first, last = differing(old, new)
            if first == last and IMPORT.fullmatch(new[first : len(new) - len(old) + last]):
                continue
            at = texts[file].find(old)
            inside = bodies.get(file, [])
            inside = [it for it in inside if it.start < at + first and at + last < it.end]
            if at < 0 or not inside:
                return
            found += [(file, inside[-1])] * ((file, inside[-1]) not in found)
        self.functions = found

    def lines(self, texts):
        """The lines that it changes, by file and number. An old and a new text are one line each,
        so all lines keep their numbers."""
        starts = [(file, texts[file].find(old)) for file, old, _ in self.pairs]
        return {(file, texts[file].count("\n", 0, at) + 1) for file, at in starts}

    def meets(self, other):
        """Whether the two are not to be tried in one check: they change the same function, or one
        calls that of the other."""
        for file, one in self.functions:
            for other_file, two in other.functions:
                if (file, one.start) == (other_file, two.start):
                    return True
                if one.name in two.calls or two.name in one.calls:
                    return True
        return False


def differing(old, new):
    """Where the part of the old text begins and ends that the new one has otherwise."""
    first = len(os.path.commonprefix([old, new]))
    last = len(os.path.commonprefix([old[first:][::-1], new[first:][::-1]]))
    return first, len(old) - last


def pairs_in(text):
    """Each file, old and new text of an edit."""
    file = old = None
    for line in text.split("\n"):
        key, _, rest = line.partition(": ")
        if key == "file":
            file = rest.strip()
        elif key == "old":
            old = rest
        elif (key == "new" or line == "new:") and file and old:
            yield file, old, rest


def closing(text, at):
    """Where the braces that were opened before `at` close."""
    depth = 1
    while depth:
        token = TOKEN.search(text, at)
        if not token:
            return len(text)
        at = token.end()
        depth += {"{": 1, "}": -1}.get(token.group(), 0)
    return at


def body_of(text, at):
    """Where the body begins and ends of the function whose head ends at `at`, or None. Contracts
    are no part of it."""
    depth, is_clause = 0, False
    while token := TOKEN.search(text, at):
        word, at = token.group(), token.end()
        if word[0] in "/\"'":
            continue
        depth += {"(": 1, "[": 1, ")": -1, "]": -1}.get(word, 0)
        if depth:
            continue
        if word == ";":
            return None
        if word == "{":
            end = closing(text, at)
            if not is_clause:
                return token.start(), end
            is_clause, at = False, end
        elif word.isalpha():
            is_clause = True
    return None


def bodies_in(text):
    """The functions of a source file that have a body."""
    spans = [(it.group(1), body_of(text, it.end())) for it in FUNCTION.finditer(text)]
    return [Function(text, name, *span) for name, span in spans if span]


SOURCE = """impl<C: Drop> From<Spent<C>> for Fault {
    fn from(_spent: Spent<C>) -> Fault {
        Fault::Spent
    }
}

impl Counter {
    pub fn add(&mut self, more: u64) -> u64
        ensures { (λ x. x) result ≡ more }
    {
        // a brace in a comment: }
        self.total = self.sum(more);
        self.total
    }

    fn sum(&self, more: u64) -> u64 {
        self.total + more
    }
}

fn stop(all: [u8; 2]) -> char
    requires { all ≡ all }
{
    '}'
}
"""
FOUND = {
    "from": "it::FaultFromSpent::from",
    "add": "it::a::Counter::add",
    "sum": "it::a::Counter::sum",
    "stop": "it::b::stop",
}
PATHS = (*FOUND.values(), "it::FaultFromSpent", "it::FaultFromAlloc::from", "it::stop")


def self_test():
    """Says what is wrong with how functions are found, if anything."""
    bodies = bodies_in(SOURCE)
    found = {it.name: it.path_in(PATHS, "it", "src/b.rt") for it in bodies}
    if found != FOUND:
        return f"the functions are {found}"
    texts = {it.name: SOURCE[it.start : it.end] for it in bodies}
    if not texts["add"].endswith("self.total\n    }") or texts["stop"] != "{\n    '}'\n}":
        return f"the bodies are {texts}"
    if "sum" not in bodies[1].calls or bodies[2].calls:
        return "the calls are not those of the bodies"
    return ""
