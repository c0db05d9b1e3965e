"""Runs a program of which one allocation is refused, by the library refusing.c."""
from __future__ import annotations

import pathlib
import subprocess
from collections.abc import Sequence
from typing import Tuple

SECONDS = 60
Ended = Tuple[int, bytes, bytes]  # status, standard output and standard error


def run(command: Sequence[str], library: pathlib.Path, folder: pathlib.Path, refused: int) -> Tuple[Ended, int]:
    """Runs a program; returns how it ended, and how many allocations it asked for. 0 refuses none."""
    count = folder / "allocations"
    env = {"LD_PRELOAD": str(library), "REFUSED_ALLOCATION": str(refused), "ALLOCATIONS_FILE": str(count)}
    done = subprocess.run(command, cwd=folder, stdin=subprocess.DEVNULL, capture_output=True, env=env, timeout=SECONDS)
    return (done.returncode, done.stdout, done.stderr), int(count.read_text())
