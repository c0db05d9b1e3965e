"""Runs a program under a limit of time, and measures it; finds the helpers in tests/ for all benches."""
from __future__ import annotations

import os
import pathlib
import shutil
import subprocess
import sys
import tempfile
import time
from collections.abc import Sequence
from typing import NamedTuple

sys.path.insert(0, str(pathlib.Path(__file__).resolve().parent.parent / "tests"))

from lib import programs

TIME = shutil.which("time")  # Debian: time
LIMIT = 60  # seconds
OVER = 124  # the status of `timeout`


class Run(NamedTuple):
    """Wall time, peak memory, status and processor's time of one run; 0 where no `time` is there to tell them."""

    seconds: float
    mebibytes: float
    status: int
    processor: float = 0.0

    @property
    def is_over(self) -> bool:
        """Whether it took too long, and was stopped."""
        return self.status == OVER


def measured(words: Sequence[str], folder: pathlib.Path, limit: int = LIMIT, output: str = os.devnull) -> Run:
    """One run of a program, of at most so many seconds; its output is thrown away, or goes to a file of the folder."""
    with tempfile.NamedTemporaryFile("r") as peak, (folder / output).open("wb") as out:
        before = [TIME, "-q", "-f", "%M %U %S", "-o", peak.name] if TIME else []
        null = subprocess.DEVNULL
        begun = time.monotonic()
        done = subprocess.run([*before, "timeout", str(limit), *words], cwd=folder, stdout=out, stderr=null)
        seconds = time.monotonic() - begun
        kibibytes, user, system = map(float, peak.read().split()) if TIME else (0.0, 0.0, 0.0)
        return Run(seconds, kibibytes / 1024, done.returncode, user + system)


__all__ = ["LIMIT", "Run", "measured", "programs"]
