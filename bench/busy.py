"""Background load for the measurements in which all processors must be busy."""

import os
import subprocess
import sys
from contextlib import contextmanager


@contextmanager
def all_processors_busy(are_busy: bool):
    """As many other processes as there are processors, each of which runs a busy loop; none where no load is requested."""
    others = []
    try:
        for _ in range(len(os.sched_getaffinity(0)) if are_busy else 0):
            others.append(subprocess.Popen([sys.executable, "-c", "while True: pass"]))
        yield
    finally:
        for other in others:
            other.kill()
            other.wait()
