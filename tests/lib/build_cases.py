"""Reads the cases of tests/builds: small trees that are built, changed and built again.

A file has blank lines and lines that begin with `#`, which say nothing, and cases. A case is a list of steps:

  case NAME          begins one; words after the name say what it shows
  file NAME          writes the indented lines below it; `executable NAME` makes it a program too
  append NAME        appends the indented lines
  touch NAME         sets its times to now; `delete NAME`, `folder NAME`
  run [WORDS]        compiles build.ninja, and runs the image with -j 1 or with these words; the indented lines below
                     are what is printed. `[*/m] LABEL` fits any number before m; lines are then compared in any order
  status N           the exit status of the run before it (default: 0)
  says TEXT          a line that it writes to standard error (default: none)
  left NAME          the file must have the indented lines now; `gone NAME`: there must be no such file
  alone [REASON]     ninja does something else from here on, and why; it isn't run any more
  needs PROGRAM      leaves the case out if there is no such program
"""
from __future__ import annotations

import pathlib
from collections.abc import Iterator
from typing import NamedTuple

FOLDER = pathlib.Path(__file__).resolve().parents[1] / "builds"
STEPS = {"file", "executable", "append", "touch", "delete", "folder", "run", "status", "says", "left", "gone", "alone",
         "needs"}


class Step(NamedTuple):
    """A step: its name, the words after it, the lines below it, and its place as FILE:LINE."""

    name: str
    words: str
    lines: list[str]
    place: str

    def text(self) -> bytes:
        """Returns the lines below the step as one text."""
        return "".join(f"{line}\n" for line in self.lines).encode()


class Build(NamedTuple):
    """A case: its name, and its steps."""

    name: str
    steps: list[Step]


def builds_of(path: pathlib.Path) -> Iterator[Build]:
    """Yields the cases of a file."""
    build: Build | None = None
    for number, line in enumerate(path.read_text(encoding="utf-8").splitlines(), 1):
        place = f"{path.name}:{number}"
        name, _, words = line.partition(" ")
        if line.startswith("  ") and build and build.steps:
            build.steps[-1].lines.append(line[2:])
        elif name == "case":
            if build:
                yield build
            build = Build(f"{path.stem}/{words.split()[0]}", [])
        elif name in STEPS and build:
            build.steps.append(Step(name, words, [], place))
        elif line and not line.startswith("#"):
            raise SystemExit(f"{place}: no step: {line}")
    if build:
        yield build


def builds() -> Iterator[Build]:
    """Yields the cases of all files; their names are FILE/NAME."""
    for path in sorted(FOLDER.glob("*.builds")):
        yield from builds_of(path)


def names() -> list[str]:
    """Returns FILE/NAME of each case."""
    return sorted(build.name for build in builds())
