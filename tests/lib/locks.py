"""Locks of records, which another process holds, as another builder does."""
from __future__ import annotations

import contextlib
import pathlib
import subprocess
import sys
from typing import Iterator

HOLD = """import fcntl, sys
file = open(sys.argv[1], "ab")
fcntl.flock(file, fcntl.LOCK_EX)
print(flush=True)
sys.stdin.read()
"""


@contextlib.contextmanager
def held(path: pathlib.Path) -> Iterator[int]:
    """Holds the lock of a file in a process that isn't above the builders of a test; yields its number."""
    with subprocess.Popen([sys.executable, "-c", HOLD, str(path)], stdin=subprocess.PIPE,
                          stdout=subprocess.PIPE) as child:
        assert child.stdin and child.stdout
        child.stdout.readline()
        try:
            yield child.pid
        finally:
            child.stdin.close()
            child.kill()


def name_of(path: pathlib.Path, process: int) -> str:
    """Returns the name of a builder with this lock, as the variable has it. The process must live."""
    found = path.stat()
    fields = pathlib.Path("/proc", str(process), "stat").read_text().rpartition(")")[2].split()
    return f"{found.st_dev}:{found.st_ino}:{process}:{fields[19]}"
