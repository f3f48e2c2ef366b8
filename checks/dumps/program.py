"""Runs of the program."""

import os
import subprocess
import sys
from pathlib import Path

# How many seconds a run may take: what hangs ends by it, and a busy machine needs minutes.
LIMIT = 1800


class Wrong(Exception):
    """The program does not do what it should."""


class Program:
    """The program, run in a folder of its own."""

    def __init__(self, path, folder):
        self.path, self.folder = str(Path(path).resolve()), Path(folder)

    def run(self, *words, given=b"", **more):
        """The status, and what came on standard output and standard error."""
        more = {"stdout": subprocess.PIPE, "stderr": subprocess.PIPE, **more}
        done = subprocess.run([self.path, *words], input=given, cwd=self.folder, timeout=LIMIT, **more)
        return done.returncode, (done.stdout or b"").decode(), (done.stderr or b"").decode()

    def expect(self, words, status, out="", error="", **more):
        """That a run ends so. Of standard error each of the lines may be a part alone."""
        found = self.run(*words, **more)
        if found[:2] != (status, out) or error not in found[2] or (not error and found[2]):
            raise Wrong(f"{' '.join(words)} ends with {found}, and not with {(status, out, error)}")

    def start(self, *words):
        return subprocess.Popen([self.path, *words], cwd=self.folder, stdout=subprocess.PIPE, stderr=subprocess.PIPE)

    def drafts(self):
        return [name for name in os.listdir(self.folder) if name.endswith(".draft")]

    def expect_no_draft(self, after):
        if self.drafts():
            raise Wrong(f"a draft is left after {after}: {self.drafts()}")


def is_root():
    return os.geteuid() == 0


def note(text):
    print(f"dumps: {text}", file=sys.stderr)
