"""Histories as text, printed and read from docs/FORMATS.md alone, and texts drawn at random, good and bad."""

import re

from model import History, page_text, shown, stamp_text

LONGEST = 1024


class BadText(Exception):
    """In which line a text is refused, and what is expected there."""

    def __init__(self, line, expected):
        super().__init__(line, expected)
        self.line, self.expected = line, expected


def text_refusal(file, bad):
    """The line about a file that is no text."""
    return f"warmhist: {file}: not a text: expected {bad.expected} (BadText at line {bad.line})\n"


def text_of(history):
    return f"horizon {history.horizon}\n" + shown(history)


# ---- reading


def number(text, most=2**64 - 1):
    """The number that a text spells, or None."""
    return int(text) if re.fullmatch(rb"[0-9]+", text) and int(text) <= most else None


def pair(word, sign, least, most):
    """The two numbers of a page or a stamp, of which one is limited; or None."""
    first, found, second = word.partition(sign)
    values = number(first), number(second)
    limited = values[0] if sign == b":" else values[1]
    return values if found and None not in values and least <= limited <= most else None


def stamps_in(words):
    """The stamps of the words of a page's line behind the page, and what is expected where they are others."""
    words, stamps = [*words, b"", b"", b"", b"", b""], []
    for at, name, expected in [(0, b"last", "last"), (2, b"prev", "prev, or the end of the line")]:
        if at == 2 and not words[at]:
            return stamps, None
        if words[at] != name:
            return stamps, expected
        stamp = pair(words[at + 1], b"@", 1, 64)
        if stamp is None:
            return stamps, "a stamp as 20@1"
        stamps.append(stamp)
    if words[4]:
        return stamps, "the end of the line"
    return stamps, None if stamps[1] < stamps[0] else "a second stamp that is less than the first"


class Reader:
    """The lines of a text, one after the other. Each call gives what is expected in the line, where it says something else."""

    def __init__(self):
        self.horizon, self.pages, self.has_begun, self.has_ended = 0, {}, False, False

    def line(self, line):
        words = [word for word in line.split(b" ") if word]
        if len(line) > LONGEST:
            return f"a line of at most {LONGEST} bytes"
        if not words or words[0].startswith(b"#"):
            return None
        if self.has_ended:
            return "nothing behind the line of end"
        first, self.has_begun = not self.has_begun, True
        if words[0] == b"end":
            return self.end([*words, b""])
        if words[0] == b"horizon" and first:
            return self.raised([*words, b""])
        page = pair(words[0], b":", 0, 2**16 - 1)
        if page is None:
            return "horizon, a page as 0:17, or end" if first else "a page as 0:17, or end"
        return self.page(page, words[1:])

    def raised(self, words):
        self.horizon = number(words[1])
        return "a time" if self.horizon is None else "the end of the line" if words[2:-1] else None

    def end(self, words):
        self.has_ended = True
        return self.count() if number(words[1]) != len(self.pages) else "the end of the line" if words[2:-1] else None

    def count(self):
        return f"end {len(self.pages)}"

    def page(self, page, words):
        stamps, expected = stamps_in(words)
        if expected:
            return expected
        if min(stamps)[0] < self.horizon:
            return f"a time from the horizon {self.horizon} on"
        if page in self.pages:
            return "a page that has no line before"
        self.pages[page] = stamps
        return None


def read_text(data):
    """The history that these bytes say, or the first line that is refused."""
    lines, reader = data.split(b"\n"), Reader()
    if not lines[-1]:
        lines.pop()
    for at, line in enumerate(lines, 1):
        expected = reader.line(line)
        if expected:
            raise BadText(at, expected)
    if not reader.has_ended:
        raise BadText(len(lines) + 1, reader.count())
    return History(reader.horizon, reader.pages)


# ---- drawing


def spaced(draw, words):
    """A line of these words, with spaces as they may be."""
    ends = draw.choice(["", "", " "]), draw.choice(["", "", "  "])
    return ends[0] + "".join(word + " " * draw.choice([1, 1, 1, 3]) for word in words).rstrip(" ") + ends[1] + "\n"


def drawn_number(draw, value):
    return draw.choice(["", "", "0", "000"]) + str(value)


def loose(draw, text):
    """A page or a stamp, some of its numbers with zeros before them."""
    return re.sub(r"[0-9]+", lambda found: drawn_number(draw, found[0]), text)


def drawn_text(draw, history):
    """A text of the history, not as it is printed."""
    lines = []
    for page, stamps in history.pages.items():
        words = [page_text(page), "last", stamp_text(stamps[0])]
        words += ["prev", stamp_text(stamps[1])] if len(stamps) == 2 else []
        lines.append(spaced(draw, [loose(draw, word) for word in words]))
    draw.shuffle(lines)
    if history.horizon or draw.random() < 0.5:
        lines.insert(0, spaced(draw, ["horizon", drawn_number(draw, history.horizon)]))
    lines.append(spaced(draw, ["end", drawn_number(draw, len(history.pages))]))
    for _ in range(draw.randrange(4)):
        nothing = draw.choice(["\n", "   \n", "# what a reader wants to know\n", "  #end 4\n", f"#{'x' * (LONGEST - 1)}\n"])
        lines.insert(draw.randint(0, len(lines)), nothing)
    text = "".join(lines)
    return (text if draw.random() < 0.7 else text.rstrip("\n")).encode()


SMALL = b"# a small text\nhorizon 12\n0:7 last 20@1 prev 15@64\n65535:18446744073709551615 last 18446744073709551615@3\n1:0 last 12@2\n\nend 3\n"

WORDS = [
    *[b"", b"horizon", b"end", b"last", b"prev", b"End", b"#", b"x", b"-1", b"+1", b"3 ", b"3\t", b"3\r", b"3\0", b"\xff", b"0x3", b"1e3", b"3"],
    *[b"0:7", b"0:007", b"0:", b":7", b"0:7:1", b"0:-7", b"65536:0", b"1:18446744073709551616", b"0;7"],
    *[b"20@1", b"21@1", b"11@1", b"12@1", b"15@64", b"20@0", b"20@65", b"20@", b"@1", b"20@1@1", b"18446744073709551616@1", b"20@18446744073709551617"],
]


def bad_lines():
    """The small text with each word changed in many ways, left out, and with a word before it."""
    lines = SMALL.split(b"\n")[:-1]
    for at, line in enumerate(lines):
        words = line.split(b" ")
        for place in range(len(words) + 1):
            for word in WORDS:
                for behind in {place, min(place + 1, len(words))}:
                    changed = [*words[:place], word, *words[behind:]]
                    yield b"\n".join([*lines[:at], b" ".join(changed), *lines[at + 1 :]]) + b"\n"


def bad_texts(draw):
    """Lines left out, said twice and in another order; each cut; long lines; and some of the lines with a word changed."""
    lines = SMALL.split(b"\n")[:-1]
    for at in range(len(lines)):
        yield b"\n".join(lines[:at] + lines[at + 1 :]) + b"\n"
        for place in range(len(lines) + 1):
            yield b"\n".join([*lines[:place], lines[at], *lines[place:]])
    for end in range(0, len(SMALL), 3):
        yield SMALL[:end]
    for line in (b"", b"#", b"1:1 last 20@1"):
        for size in (LONGEST, LONGEST + 1):
            for end in (b"", b"\n"):
                yield SMALL.replace(b"end 3", (line + b" " * size)[:size] + b"\nend 4") + line + b" " * (size - len(line)) + end
    for old, new in [(b"15@64", b"20@1"), (b"15@64", b"20@2"), (b"15@64", b"11@64"), (b"12@2", b"11@64"), (b"horizon 12", b"horizon 13"), (b"1:0", b"0:7")]:
        yield SMALL.replace(old, new)
    yield from draw.sample(sorted(set(bad_lines())), 400)
