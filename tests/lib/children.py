"""Ends the processes that tests leave behind: those that a test started, and what these started.

A test that fails or is interrupted can end the programs that it started, but hardly their commands. So all of them get
a variable in their environment by which they are found.
"""
from __future__ import annotations

import contextlib
import os
import pathlib
import signal
from collections.abc import Iterator

MARK = "PLAN_NINJA_TEST_RUN"
ROUNDS = 10  # a process may start another one while others are looked for


def mark() -> None:
    """Marks the processes that this one starts from now on."""
    os.environ[MARK] = str(os.getpid())


def marked() -> Iterator[int]:
    """Yields the marked processes."""
    wanted = f"{MARK}={os.getpid()}".encode()
    for path in pathlib.Path("/proc").glob("[0-9]*/environ"):
        with contextlib.suppress(OSError):
            if wanted in path.read_bytes().split(b"\0"):
                yield int(path.parent.name)


def end_marked() -> None:
    """Kills the marked processes."""
    for _ in range(ROUNDS):
        found = list(marked())
        for process in found:
            with contextlib.suppress(ProcessLookupError):
                os.kill(process, signal.SIGKILL)
        if not found:
            return
