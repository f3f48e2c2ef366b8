"""A program at the other end of a pipe that answers each line with one line, as `warmplay play` does."""

import os
import select
import signal
import subprocess
from pathlib import Path

# How many seconds an answer may take: what hangs ends by it, and a busy machine needs minutes.
LIMIT = 1800

CLOSED = "end refused 12 Fault"


class Fault(Exception):
    """The program gave another answer than it should."""


class Gone(Exception):
    """The program has ended."""


def write_setup(file: Path, frames: int, page_size: int, replicas: int, devices: list[tuple[Path, int]]) -> None:
    """Writes a setup file whose devices are files: of each the path, and how many pages it has."""
    lines = [f"replicas = {replicas}", "workers = 1", f"frames = {frames}", f"page_size = {page_size}"]
    for path, pages in devices:
        lines += ["[[device]]", f"path = '{path}'", f"pages = {pages}"]
    file.write_text("\n".join(lines) + "\n", encoding="utf-8")


def words_for(setup: Path) -> list[str]:
    """The words with which `warmplay` plays by a setup file."""
    return ["play", "--setup", str(setup)]


class Player:
    """Lines go out, and each is answered by one line."""

    def __init__(self, program: Path, words: list[str], prepare=None) -> None:
        self._process = subprocess.Popen(
            [str(program), *words],
            stdin=subprocess.PIPE,
            stdout=subprocess.PIPE,
            stderr=subprocess.PIPE,
            bufsize=0,
            preexec_fn=prepare,
            # so that a signal which `prepare` ignores stays ignored
            restore_signals=False,
        )
        self._rest = b""

    def __enter__(self) -> "Player":
        return self

    def __exit__(self, kind, error, trace) -> None:
        if self._process.poll() is None:
            self._process.kill()
        self._process.communicate()

    def kill(self) -> None:
        """Kills the program at once, by its process number."""
        os.kill(self._process.pid, signal.SIGKILL)

    def send(self, line: str) -> None:
        try:
            self._process.stdin.write(line.encode("ascii") + b"\n")
        except BrokenPipeError as error:
            raise Gone from error

    def answer(self) -> str:
        """The next line."""
        while b"\n" not in self._rest:
            if not select.select([self._process.stdout], [], [], LIMIT)[0]:
                raise Fault(f"no answer came within {LIMIT} seconds")
            piece = os.read(self._process.stdout.fileno(), 65536)
            if not piece:
                raise Gone
            self._rest += piece
        line, self._rest = self._rest.split(b"\n", 1)
        return line.decode("ascii")

    def ask(self, line: str) -> str:
        self.send(line)
        return self.answer()

    def wants(self, line: str, wanted: str) -> None:
        """Sends a line that has to be answered so."""
        found = self.ask(line)
        if found != wanted:
            raise Fault(f"'{line[:40]}' is answered '{found[:80]}', and not '{wanted[:80]}'")

    def end(self) -> tuple[str, str, int]:
        """Ends the schedule: what was printed after the last answer, on standard error, and the status."""
        out, err = self._process.communicate(timeout=LIMIT)
        return (self._rest + out).decode("ascii"), err.decode("utf-8"), self._process.returncode

    def ends(self, printed: str) -> None:
        """The schedule ends, with these last lines and status 0."""
        found = self.end()
        if found != (printed, "", 0):
            raise Fault(f"at the end comes {found}, and not {(printed, '', 0)}")
