"""`warmplay play` at the other end of a pipe: lines go out, and each is answered by one line."""

import subprocess
from pathlib import Path
from types import TracebackType
from typing import TextIO

from fault import Fault

LINES_AT_ONCE = 500  # few enough that neither end of the pipe waits for the other to read


class Player:
    """A run of `warmplay play`. All lines that were sent are kept as the schedule that this run was."""

    def __init__(self, program: Path, setup: Path, schedule: Path) -> None:
        self._schedule: TextIO = schedule.open("w", encoding="ascii")
        try:
            self._process = subprocess.Popen(
                [str(program), "play", "--setup", str(setup)],
                stdin=subprocess.PIPE,
                stdout=subprocess.PIPE,
            )
        except OSError as error:
            self._schedule.close()
            raise Fault(f"cannot run {program}: {error.strerror}") from error
        assert self._process.stdin and self._process.stdout
        self._lines, self._answers = self._process.stdin, self._process.stdout

    def __enter__(self) -> "Player":
        return self

    def __exit__(
        self, kind: type[BaseException] | None, error: BaseException | None, trace: TracebackType | None
    ) -> None:
        self._schedule.close()
        if kind is not None:
            self._process.kill()
        self._process.communicate()
        if kind is None and self._process.returncode != 0:
            raise Fault(f"warmplay ended with status {self._process.returncode}")

    def ask(self, lines: list[str]) -> list[str]:
        """The answer of each line, in order. Lines that print more or less than one line are not for this."""
        answers: list[str] = []
        for start in range(0, len(lines), LINES_AT_ONCE):
            answers += self._ask_at_once(lines[start : start + LINES_AT_ONCE])
        return answers

    def _ask_at_once(self, lines: list[str]) -> list[str]:
        text = "\n".join(lines) + "\n"
        self._schedule.write(text)
        try:
            self._lines.write(text.encode("ascii"))
            self._lines.flush()
        except BrokenPipeError as error:
            raise Fault("warmplay ended before its schedule did") from error
        return [self._answer_to(line) for line in lines]

    def _answer_to(self, line: str) -> str:
        answer = self._answers.readline().decode("ascii").rstrip("\n")
        if not answer:
            raise Fault(f"warmplay ended before it answered '{line}'")
        if answer.startswith(("refused ", "bad line ")):
            raise Fault(f"warmplay answered '{answer}' to '{line}'")
        return answer
