"""What a machine is asked for, so that a file fails: mounts of its own, a limit on the size of files, and a call of the
system that is answered with an error. What it does not give is `Missing`, with the reason."""

import ctypes
import errno
import os
import resource
import shutil
import signal
import struct
import subprocess
from pathlib import Path
from typing import Callable

CLONE_NEWNS = 0x00020000
CLONE_NEWUSER = 0x10000000
MS_RDONLY, MS_REMOUNT, MS_BIND, MS_REC, MS_PRIVATE = 1, 32, 4096, 16384, 1 << 18

libc = ctypes.CDLL(None, use_errno=True)


class Missing(Exception):
    """The machine cannot make this case."""


def called(what: str, answer: int) -> None:
    if answer != 0:
        raise Missing(f"{what}: {os.strerror(ctypes.get_errno())}")


def own_mounts() -> None:
    """From now on this process has mounts of its own, which go when it ends; as another user than root in a name space of its
    own too."""
    if not hasattr(libc, "unshare"):
        raise Missing("this system has no name spaces")
    user, group = os.geteuid(), os.getegid()
    if libc.unshare(CLONE_NEWNS) != 0:
        called("no mounts of its own", libc.unshare(CLONE_NEWNS | CLONE_NEWUSER))
        Path("/proc/self/setgroups").write_text("deny", encoding="ascii")
        Path("/proc/self/uid_map").write_text(f"0 {user} 1", encoding="ascii")
        Path("/proc/self/gid_map").write_text(f"0 {group} 1", encoding="ascii")
    mount("none", Path("/"), None, MS_REC | MS_PRIVATE, None)


def mount(source: str, target: Path, kind: str | None, flags: int, options: str | None) -> None:
    """Mounts as the system call of that name does."""
    answer = libc.mount(
        source.encode(),
        str(target).encode(),
        kind.encode() if kind else None,
        ctypes.c_ulong(flags),
        options.encode() if options else None,
    )
    called(f"no mount of {kind or source}", answer)


def small_memory(target: Path, size: int) -> None:
    """A file system of this many bytes, in memory."""
    target.mkdir()
    mount("tmpfs", target, "tmpfs", 0, f"size={size}")


def read_only(file: Path) -> None:
    """The file can be read and not written, not even by root."""
    mount(str(file), file, None, MS_BIND, None)
    mount("none", file, None, MS_BIND | MS_REMOUNT | MS_RDONLY, None)


def fill(folder: Path) -> Path:
    """Takes all the space that the file system has left, by a file, which it gives."""
    filler = folder / "filler"
    with filler.open("wb", buffering=0) as file:
        try:
            while True:
                file.write(b"\xff" * 4096)
        except OSError as error:
            if error.errno != errno.ENOSPC:
                raise
    return filler


def run(command: list[str]) -> None:
    done = subprocess.run(command, stdout=subprocess.PIPE, stderr=subprocess.STDOUT, text=True)
    if done.returncode != 0:
        raise Missing(f"{command[0]}: {done.stdout.strip()}")


def failing_disk(target: Path, store: Path) -> Callable[[], None]:
    """A file system on a disk that is a file of the folder `store`, and has less space there than it says. What is given mounts
    it again, so that nothing is read but what the disk has."""
    for tool in ["mkfs.ext2", "mount", "umount"]:
        if not shutil.which(tool):
            raise Missing(f"no {tool}")
    image = store / "disk"
    with image.open("wb") as file:
        file.truncate(16 << 20)
    target.mkdir()
    # blocks as large as the pieces in which the folder gives space away
    run(["mkfs.ext2", "-q", "-F", "-b", "4096", str(image)])
    mount_it = ["mount", "-o", "loop", str(image), str(target)]
    run(mount_it)

    def anew() -> None:
        run(["umount", str(target)])
        run(mount_it)

    return anew


def file_limit(size: int) -> Callable[[], None]:
    """What a program does before it starts, so that no file of its own grows beyond `size` bytes."""

    def prepare() -> None:
        resource.setrlimit(resource.RLIMIT_FSIZE, (size, size))

    return prepare


# The calls of the system that sync a file, and what the processor is called to a filter of calls.
SYNCS = {"x86_64": (0xC000003E, [74, 75]), "aarch64": (0xC00000B7, [82, 83])}
PR_SET_NO_NEW_PRIVS, PR_SET_SECCOMP, SECCOMP_MODE_FILTER = 38, 22, 2
ALLOW, ANSWER_WITH, KILL = 0x7FFF0000, 0x00050000, 0x80000000
LOAD, JUMP_IF_EQUAL, RETURN = 0x20, 0x15, 0x06


def no_sync() -> Callable[[], None]:
    """What a program does before it starts, so that each sync of a file is answered by an input/output error. The files are
    written to all the same."""
    return syncs_meet(ANSWER_WITH | errno.EIO)


def killed_by_a_sync() -> Callable[[], None]:
    """What a program does before it starts, so that its first sync of a file ends it by the signal SIGSYS."""
    return syncs_meet(KILL)


def syncs_meet(verdict: int) -> Callable[[], None]:
    """What a program does before it starts, so that the system's filter of calls gives each sync of a file this verdict."""
    kind = os.uname().machine
    if kind not in SYNCS:
        raise Missing(f"the calls of {kind} are not known here")
    name, syncs = SYNCS[kind]
    steps = [(LOAD, 0, 0, 4), (JUMP_IF_EQUAL, 1, 0, name), (RETURN, 0, 0, ALLOW), (LOAD, 0, 0, 0)]
    for at, call in enumerate(syncs):
        steps.append((JUMP_IF_EQUAL, len(syncs) - at, 0, call))
    steps += [(RETURN, 0, 0, ALLOW), (RETURN, 0, 0, verdict)]
    code = b"".join(struct.pack("HBBI", *step) for step in steps)
    text = ctypes.create_string_buffer(code)
    program = struct.pack("HxxxxxxP", len(steps), ctypes.addressof(text))

    def prepare() -> None:
        # a program that is killed leaves no memory image behind
        resource.setrlimit(resource.RLIMIT_CORE, (0, 0))
        for what, value in [(PR_SET_NO_NEW_PRIVS, ctypes.c_ulong(1)), (PR_SET_SECCOMP, ctypes.c_ulong(SECCOMP_MODE_FILTER))]:
            zero = ctypes.c_ulong(0)
            if libc.prctl(what, value, program if what == PR_SET_SECCOMP else zero, zero, zero) != 0:
                os._exit(1)
        # what `text` holds has to be there until now
        assert text

    def try_it() -> None:
        prepare()
        try:
            os.fsync(os.open("/", os.O_RDONLY))
        except OSError as error:
            os._exit(0 if error.errno == errno.EIO else 1)
        os._exit(1)

    if has_met(try_it) != (-signal.SIGSYS if verdict == KILL else 0):
        raise Missing("the system takes no filter of calls")
    return prepare


def has_met(try_it: Callable[[], None]) -> int:
    """The status of a process that does this, or the negated number of the signal that ended it."""
    child = os.fork()
    if child == 0:
        try_it()
        os._exit(1)
    return os.waitstatus_to_exitcode(os.waitpid(child, 0)[1])
