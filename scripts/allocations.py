"""Runs a program of which some allocations fail or all are counted, or with little address space."""
import os
import resource
import subprocess
import tempfile

HERE = os.path.dirname(os.path.abspath(__file__))

# How many seconds a run may take: what hangs ends by it, and a busy machine needs minutes.
LIMIT = 1800

# The number of an allocation that comes after all others.
NEVER_LAST = 2**63


class Ended:
    """How a run ended: its status (below 0: the signal), its output, and whether an allocation failed."""

    def __init__(self, status, out, err, is_refused=False):
        self.status = status
        self.out = out
        self.err = err
        self.is_refused = is_refused

    def is_crash(self):
        return self.status < 0

    def __str__(self):
        return f"status {self.status}, {self.err!r} on standard error and {self.out[-200:]!r} last on standard output"


class Refuser:
    """Makes allocations fail, and counts them, by a library in front of the C library's allocator. The toolchain's clang compiles it."""

    def __init__(self, folder):
        page = subprocess.run(["rt", "doc"], check=True, capture_output=True, text=True).stdout.strip()
        compiler = os.path.join(os.path.dirname(page), "toolchain", "bin", "clang")
        self.library = os.path.join(folder, "refuse.so")
        words = ["-shared", "-fPIC", "-O2", "-Wall", "-Werror", "-nostdlib", "-fuse-ld=lld", "-o", self.library]
        subprocess.run([compiler, *words, os.path.join(HERE, "refuse.c")], check=True)

    def run(self, words, sent=b"", first=0, last=0, folder=None):
        """Runs the command in the folder, and makes the allocations from the first to the last fail, counted from 1."""
        reads, writes = os.pipe()
        refusals = {"REFUSE_FIRST": str(first), "REFUSE_LAST": str(last), "REFUSE_NOTE": str(writes)}
        try:
            ran = subprocess.run(
                words,
                input=sent,
                capture_output=True,
                cwd=folder,
                env={"LD_PRELOAD": self.library, **refusals},
                pass_fds=[writes],
                timeout=LIMIT,
            )
        finally:
            os.close(writes)
            with os.fdopen(reads, "rb") as notes:
                is_refused = notes.read() != b""
        return Ended(ran.returncode, ran.stdout, ran.stderr, is_refused)

    def count(self, words, folder=None):
        """Runs the command in the folder, with a line 'allocation BYTES beside HELD' in its output for each allocation."""
        ran = subprocess.run(
            words,
            input=b"",
            capture_output=True,
            cwd=folder,
            env={"LD_PRELOAD": self.library, "REFUSE_SIZES": "1"},
            timeout=LIMIT,
        )
        return Ended(ran.returncode, ran.stdout, ran.stderr)


def within(words, space, sent=b"", folder=None):
    """Runs the command with this many bytes of address space."""
    ran = subprocess.run(
        words,
        input=sent,
        capture_output=True,
        cwd=folder,
        env={},
        timeout=LIMIT,
        preexec_fn=lambda: resource.setrlimit(resource.RLIMIT_AS, (space, space)),
    )
    return Ended(ran.returncode, ran.stdout, ran.stderr)


def refuser():
    """A refuser, and its folder, which is removed when it is no longer used."""
    folder = tempfile.TemporaryDirectory()
    return Refuser(folder.name), folder
