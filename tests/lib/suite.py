"""The parts of a suite of tests: its cases, and what it is run with.

A suite is a module of tests/suites. Its function `cases(setting)` yields a Case for each thing to try, and may set up
before the first of them what they share. Its constants, each of which may be missing:

  ALONE           True if its cases run one after the other, because they measure times, use terminals or send signals
  NEEDS_PROGRAM   False if it needs no program, or makes its own
"""
from __future__ import annotations

import os
import pathlib
import time
from typing import Callable, Iterable, NamedTuple, Optional, Union

PATIENCE = 20.0  # seconds that a check waits for something that must happen

# A check of one thing returns what is wrong with it, or nothing; a check of several returns one such text for each.
Checked = Union[None, str, Iterable[str]]


class LeftOut(Exception):
    """Why a suite or a case can't be tried on this machine."""


class Wrong(Exception):
    """What a check found that is not as it has to be."""


class Case(NamedTuple):
    """A case: its name, and its check, which is called with a fresh folder."""

    name: str
    check: Callable[[pathlib.Path], Checked]


class Setting(NamedTuple):
    """What a suite is run with."""

    program: str
    home: pathlib.Path  # an empty folder for what the cases share
    count: Optional[int] = None  # of random cases, instead of the suite's own number
    seed: int = 1  # of the random numbers
    long: bool = False  # whether cases that take long or need the network are tried too
    bless: bool = False  # whether what is found is written into the cases
    wanted: Callable[[str], bool] = lambda name: True  # whether a case of this name was asked for

    def counted(self, default: int) -> int:
        """Returns the number of random cases."""
        return default if self.count is None else self.count


def check(holds: object, told: str) -> None:
    """Raises Wrong unless a condition holds."""
    if not holds:
        raise Wrong(told)


def until(done: Callable[[], object], told: str) -> None:
    """Waits until a condition holds; raises Wrong if that takes too long."""
    end = time.monotonic() + PATIENCE
    while not done():
        check(time.monotonic() < end, told)
        time.sleep(0.01)


def alive(group: int) -> bool:
    """Checks whether a process group has a process."""
    try:
        os.killpg(group, 0)
    except ProcessLookupError:
        return False
    return True
