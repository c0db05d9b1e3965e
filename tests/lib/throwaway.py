"""Lays out and builds a program over some crates of this repository, in a folder of its own."""
from __future__ import annotations

import pathlib
import shutil
import subprocess
from collections.abc import Iterable, Mapping, Sequence

ROOT = pathlib.Path(__file__).resolve().parents[2]


def laid(home: pathlib.Path, sources: Mapping[str, pathlib.Path], crates: Sequence[str]) -> pathlib.Path:
    """Writes the crate of a program with these files in its src/, next to copies of these crates; returns its folder.

    The crates must be all that the program needs, each after those that it depends on.
    """
    lines = (ROOT / "crates.txt").read_text().splitlines()
    wanted = [line for line in lines if line.partition(":")[0] in crates]
    home.mkdir(parents=True, exist_ok=True)
    (home / "crates.txt").write_text("\n".join([*wanted, f"program: {' '.join(crates)}", ""]))
    shutil.copy(ROOT / "HANDLES", home / "HANDLES")
    for crate in crates:
        shutil.copytree(ROOT / "crates" / crate, home / "crates" / crate, ignore=shutil.ignore_patterns("out"))
    program = home / "crates" / "program"
    (program / "src").mkdir(parents=True)
    for name, source in sources.items():
        shutil.copy(source, program / "src" / name)
    return program


def built(home: pathlib.Path, source: pathlib.Path, crates: Sequence[str],
          reads: Iterable[str] = ("stdin", "record")) -> pathlib.Path:
    """Proves and builds the program of a source, which takes some minutes from scratch; returns its path.

    It runs once, with empty files of the names in `reads`.
    """
    program = laid(home, {"main.rt": source}, crates)
    for name in reads:
        (program / name).write_bytes(b"")
    subprocess.run(["rt", "run"], cwd=program, check=True, stdin=subprocess.DEVNULL, stdout=subprocess.DEVNULL)
    return program / "out" / "program"
