"""What is no dump, and what cannot be read or written."""

import os
import re
import resource
import signal
import subprocess
import tempfile
from pathlib import Path

from drawing import drawn_history
from model import WIDE, Fault, History, checked, digests_frame, dump_of, entries_frame, frame, put, read_dump, refusal
from program import Wrong, is_root
from texts import SMALL, BadText, read_text, text_refusal

NOBODY = 65534
TOP = Path(__file__).resolve().parents[2]


def small_dump():
    """One page of replica 1 at horizon 12, in both of the frames that docs/FORMATS.md has, and its digests."""
    history = History(12, {(0, 7): [(20, 1), (10, 1)]})
    return entries_frame(WIDE, 1, 12, [((0, 7), [(20, 1), (10, 1)])]) + digests_frame(WIDE, 1, 12, history)


def damaged_dumps(draw):
    """Each cut of a small dump; each byte changed; and the bytes that are no digests changed in many ways."""
    dump = small_dump()
    for end in range(len(dump)):
        yield dump[:end]
    head = len(dump) - 2048
    for at in range(len(dump)):
        values = {draw.randrange(256)} | ({0, 1, 2, 3, 64, 65, 255, dump[at] ^ 1} if at < head else set())
        for value in sorted(values - {dump[at]}):
            yield dump[:at] + bytes([value]) + dump[at + 1 :]


def odd_dumps(draw):
    """What is whole in its frames, and yet no dump."""
    dump, entries = small_dump(), [((1, 1), [(50, 2)])]
    empty = History(0)
    yield dump + dump
    yield dump + b"\0"
    yield frame(WIDE, 3, 2, 12, put(6, 8)) + dump
    yield entries_frame(WIDE, 1, 12, entries) + dump
    yield entries_frame(WIDE, 1, 13, entries) + dump
    yield entries_frame(WIDE, 1, 12, entries) + digests_frame(WIDE, 1, 13, History(13, dict(entries)))
    yield digests_frame(WIDE, 1, 0, drawn_history(draw).join(History(0, dict(entries))))
    yield dump_of(empty, 1) + dump
    yield entries_frame(WIDE, 1, 0, [((1, page), [(1, 1)]) for page in range(1000)])
    yield b""


def expect_answer(program, data):
    """That the program answers these bytes, on standard input, as the reader here does. Gives the fault's name."""
    try:
        program.expect(["check", "-"], 0, checked(data), given=data)
        return "none"
    except Fault as fault:
        line = refusal("standard input", fault)
        found = program.run("check", "-", given=data)
        if found != (2, "", line):
            raise Wrong(f"{data[:99].hex()}.. is answered by {found}, and not by {line!r}")
        return fault.name


def expect_making(program, data, number):
    """That a dump is made of these bytes, on standard input, where the reader here takes them. Gives what is expected in them."""
    out = program.folder / f"made-{number}"
    out.write_bytes(b"old")
    try:
        history, expected = read_text(data), "nothing else"
        program.expect(["make", "-", "-o", out.name], 0, given=data)
        made = dump_of(history, 1)
    except BadText as bad:
        made, expected = b"old", bad.expected
        found, line = program.run("make", "-", "-o", out.name, given=data), text_refusal("standard input", bad)
        if found != (2, "", line):
            raise Wrong(f"the text {data!r} is answered by {found}, and not by {line!r}") from bad
    if out.read_bytes() != made:
        raise Wrong(f"of the text {data!r} another dump is made, or an old one is lost")
    out.unlink()
    return re.sub("[0-9]+", "N", expected)


HELP = ["show", "hot", "check", "diff", "join", "text", "make"]


def check_help(program):
    """The help of the program and of each command, with an example each."""
    for words in [[], *([name] for name in HELP)]:
        for asked in ("--help", "-h"):
            status, out, error = program.run(*words, asked)
            if status != 0 or "Example" not in out or " ".join(["warmhist", *words]) not in out.partition("Example")[2] or error:
                raise Wrong(f"the help of {words} is {(status, out, error)}")


def formats():
    """The formats that the newest version reads and writes, from the table of CHANGELOG."""
    table = re.findall(r"^\| *\w+, *`(\w+)` *\|[^|]*\| *([^|]*?) *\| *([^|]*?) *\|$", (TOP / "CHANGELOG.md").read_text(), re.MULTILINE)
    if not table:
        raise Wrong("CHANGELOG has no table of formats")
    still = re.compile("all|since")
    return [name for name, _, read in table if still.match(read)], [name for name, written, _ in table if still.match(written)]


def check_version(program):
    """The first two numbers of the version of include/warm.h, and the formats that CHANGELOG's table has."""
    version = re.search(r'^#define WARM_VERSION "(\d+\.\d+)\.', (TOP / "include/warm.h").read_text(), re.MULTILINE)[1]
    read, written = formats()
    text = f"warmhist {version}\nreads frames {' and '.join(read)}\nwrites frames {' and '.join(written)}\n"
    for asked in ("--version", "-V"):
        program.expect([asked], 0, text)


def check_words(program):
    """The command line."""
    (program.folder / "a").write_bytes(small_dump())
    for words in [[], ["no"], ["show"], ["show", "a", "a"], ["diff", "a"], ["join", "a"], ["join", "-o", "b"], ["make", "a"], ["make", "-o", "b"], ["text"]]:
        program.expect(words, 2, error="Usage")
    for words in [["show", "-q", "a"], ["diff", "--since", "3", "a", "a"], ["make", "a", "--since", "3", "-o", "b"], ["check", "--version", "a"]]:
        program.expect(words, 2, error="unexpected argument")
    program.expect(["hot", "-n", "x", "a"], 2, error="invalid value 'x'")
    program.expect(["hot", "--count", "-1", "a"], 2, error="unexpected argument '-1'")
    program.expect(["join", "a", "-o", "b", "--since", "x"], 2, error="invalid value 'x'")
    program.expect(["join", "a", "-o", "b", "--since", str(2**64)], 2, error="invalid value")
    program.expect(["make", "a", "-o", "b", "--sender", "0"], 2, error="invalid value '0'")
    program.expect(["hot", "-n", str(2**64), "a"], 2, error="invalid value")
    program.expect(["join", "a", "-o", "b", "--sender", "65"], 2, error="invalid value '65'")
    program.expect(["show", os.fsdecode(b"\xff")], 2, error="warmhist: the command line: ")
    for words in [["diff", "-", "-"], ["join", "-", "a", "-", "-o", "b"]]:
        program.expect(words, 2, error="warmhist: standard input can be read once\n", given=small_dump())
    check_help(program)
    check_version(program)


def check_unreadable(program):
    """Files that cannot be read."""
    folder = program.folder
    (folder / "empty").write_bytes(b"")
    (folder / "folder").mkdir(exist_ok=True)
    (folder / "two").write_bytes(small_dump() * 2)
    more = refusal("two", Fault("MoreFollows", len(small_dump())))
    for quiet in ([], ["--quiet"], ["-q"]):
        program.expect(["check", *quiet, "empty"], 2, error=refusal("empty", Fault("CutShort")))
        program.expect(["check", *quiet, "two"], 2, error=more)
        program.expect(["diff", *quiet, "a", "two"], 2, error=more)
    for command in ("show", "text"):
        program.expect([command, "missing"], 2, error="warmhist: cannot open missing: ")
    program.expect(["hot", "folder"], 2, error="warmhist: folder: it cannot be read (ReadFault at byte 0): is a directory\n")
    program.expect(["text", "two"], 2, error=more)
    program.expect(["diff", "missing", "a"], 2, error="warmhist: cannot open missing: ")
    program.expect(["join", "a", "missing", "-o", "never"], 2, error="warmhist: cannot open missing: ")
    program.expect(["make", "missing", "-o", "never"], 2, error="warmhist: cannot open missing: ")
    program.expect(["make", "folder", "-o", "never"], 2, error="warmhist: folder: it cannot be read (ReadFault at line 1): is a directory\n")
    program.expect(["make", "a", "-o", "never"], 2, error="warmhist: a: not a text: expected ")
    if (folder / "never").exists():
        raise Wrong("a command that failed wrote its file")
    (folder / "secret").write_bytes(small_dump())
    (folder / "secret").chmod(0)
    program.expect(["show", "secret"], 2, error="warmhist: cannot open secret: ", **as_nobody())


def as_nobody():
    return {"user": NOBODY, "group": NOBODY, "extra_groups": []} if is_root() else {}


def limited():
    """Files of 1,000 bytes at most, with an error and no signal beyond."""
    signal.signal(signal.SIGXFSZ, signal.SIG_IGN)
    resource.setrlimit(resource.RLIMIT_FSIZE, (1000, 1000))


def check_unwritable(program):
    """Where the join cannot go. The old file stays as it is, and no draft is left."""
    folder, old = program.folder, dump_of(History(3), 2)
    (folder / "old").write_bytes(old)
    (folder / "text").write_bytes(SMALL)
    join = ["join", "a", "-o"]
    for words in (join, ["make", "text", "-o"]):
        program.expect([*words, "old"], 2, error="warmhist: old: it cannot be written (WriteFault): ", preexec_fn=limited)
        program.expect([*words, "folder"], 2, error="warmhist: folder: cannot replace it: ")
    program.expect([*join, "/dev/full"], 2, error="warmhist: /dev/full: cannot replace it: not a regular file\n")
    program.expect([*join, "no/file"], 2, error="warmhist: no/file: cannot open its folder: ")
    program.expect([*join, ""], 2, error="warmhist: ")
    locked = folder / "locked"
    locked.mkdir(exist_ok=True)
    (locked / "old").write_bytes(old)
    locked.chmod(0o555)
    program.expect([*join, "locked/old"], 2, error="warmhist: locked/old: cannot make a new file in its folder: ", **as_nobody())
    locked.chmod(0o755)
    if (folder / "old").read_bytes() != old or (locked / "old").read_bytes() != old:
        raise Wrong("a join that failed changed the old file")
    program.expect_no_draft("joins that failed")


def check_full_disk(program):
    """A file system that is full. Gives whether this machine can make one."""
    old = dump_of(History(3), 2)
    with tempfile.TemporaryDirectory() as place:
        made = subprocess.run(["mount", "-t", "tmpfs", "-o", "size=8k", "none", place], capture_output=True, check=False)
        if made.returncode:
            return False
        try:
            (Path(place) / "old").write_bytes(old)
            (Path(place) / "rest").write_bytes(bytes(4096))
            program.expect(["join", "a", "-o", f"{place}/old"], 2, error=f"warmhist: {place}/old: it cannot be written (WriteFault): ")
            if (Path(place) / "old").read_bytes() != old or sorted(os.listdir(place)) != ["old", "rest"]:
                raise Wrong("a join onto a full disk changed what is there")
        finally:
            subprocess.run(["umount", place], check=True)
    return True


def to_output():
    return [["join", "a", "-o", "-"], ["make", "text", "-o", "-"]]


def check_lost_output(program):
    """Standard output that takes nothing: a full device, and a pipe that nobody reads."""
    for words in [["show", "a"], ["hot", "a"], ["check", "a"], ["diff", "a", "old"], ["--help"], ["--version"], ["text", "a"], *to_output()]:
        with open("/dev/full", "wb") as full:
            program.expect(words, 2, error="warmhist: standard output: ", stdout=full)
        read_end, write_end = os.pipe()
        os.close(read_end)
        with os.fdopen(write_end, "wb") as closed:
            program.expect(words, 2, error="warmhist: standard output: ", stdout=closed)
    with open("/dev/full", "wb") as full:
        program.expect(["check", "--quiet", "a"], 0, stdout=full)
        program.expect(["diff", "--quiet", "a", "old"], 1, stdout=full)


def check_paths(program):
    """A join over one of its inputs, a dump made of text, through a symbolic link, to standard output, and with the old file's permissions."""
    folder, draw = program.folder, (small_dump(), dump_of(History(5, {(2, 2): [(9, 3)]}), 2))
    (folder / "a").write_bytes(draw[0])
    (folder / "b").write_bytes(draw[1])
    (folder / "b").chmod(0o640)
    (folder / "link").unlink(missing_ok=True)
    (folder / "link").symlink_to("b")
    joined = dump_of(read_dump(draw[0]).history.join(read_dump(draw[1]).history), 7)
    program.expect(["join", "a", "b", "-o", "link", "--sender", "7"], 0)
    if (folder / "b").read_bytes() != joined or not (folder / "link").is_symlink():
        raise Wrong("a join through a link does not replace the file behind it")
    if (folder / "b").stat().st_mode & 0o777 != 0o640:
        raise Wrong("the permissions of the old file are lost")
    found = subprocess.run([program.path, "join", "-", "a", "-o", "-", "--sender", "7"], input=draw[1], cwd=folder, capture_output=True, check=False)
    if (found.returncode, found.stdout, found.stderr) != (0, joined, b""):
        raise Wrong("a join from standard input to standard output gives another dump")
    made = subprocess.run([program.path, "make", "text", "--out", "-", "--sender", "9"], cwd=folder, capture_output=True, check=False)
    if (made.returncode, made.stdout, made.stderr) != (0, dump_of(read_text(SMALL), 9), b""):
        raise Wrong("a dump that is made of text to standard output is another one")
    program.expect_no_draft("joins")
