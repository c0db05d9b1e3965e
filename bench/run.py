#!/usr/bin/env python3
"""Times `plan_ninja commands` beside `ninja -t commands` and `make -n` on projects of 1,000, 10,000 and 100,000 edges.

One shape is a flat file of commands with per-edge variables; the other a tree of an included and many subninja files
with depfiles, pools, phonies, implicit and order-only lists.

Prints for each size the median wall time of five runs and the peak memory of each, and the ratios of plan_ninja's to
those of ninja and of make (below 1: plan_ninja needs less). Before that it compares what all three print. make gets the
same edges and commands as Makefiles, without its built-in rules (-rR); nothing is built, so it prints them all. What
takes longer than a minute is stopped and told as such. It is no test and asserts no time.
"""
from __future__ import annotations

import pathlib
import re
import shutil
import statistics
import subprocess
import sys
import tempfile
from collections.abc import Sequence
from typing import NamedTuple, Optional

import makefiles
import manifests
import projects
from timing import LIMIT, Run, measured, programs

SIZES = (1_000, 10_000, 100_000)
RUNS = 5
SHAPES = {"flat": projects.flat, "tree": projects.tree}
NEEDED = {"ninja": "ninja-build", "make": "make"}  # Debian's packages


class Median(NamedTuple):
    """Of the runs of one program."""

    seconds: float
    mebibytes: float


Found = Optional[Median]  # none where a run took too long


def median(runs: Sequence[Run]) -> Found:
    """Of the runs behind the first."""
    if any(run.is_over for run in runs):
        return None
    seconds, mebibytes = [run.seconds for run in runs[1:]], [run.mebibytes for run in runs[1:]]
    return Median(statistics.median(seconds), statistics.median(mebibytes))


def medians(commands: Sequence[Sequence[str]], folder: pathlib.Path) -> list[Found]:
    """The programs take turns; one that takes too long is not run again."""
    runs: list[list[Run]] = [[] for _ in commands]
    for _ in range(RUNS + 1):
        for words, done in zip(commands, runs):
            if done and done[-1].is_over:
                continue
            done.append(measured(words, folder))
            if done[-1].status and not done[-1].is_over:
                sys.exit(f"{words[0]} failed")
    return [median(done) for done in runs]


def same(ours: Sequence[str], theirs: Sequence[str], folder: pathlib.Path) -> bool:
    """Whether both print the same commands; where one takes too long, nothing was compared."""
    try:
        return programs.printed_lines(ours, folder) == programs.printed_lines(theirs, folder)
    except subprocess.TimeoutExpired:
        return True


def compare(shape: str, edges: int, commands: Sequence[Sequence[str]]) -> list[Found]:
    """The medians of each program on a project of so many edges."""
    project = SHAPES[shape](edges)
    with tempfile.TemporaryDirectory() as home:
        folder = pathlib.Path(home)
        programs.write({**manifests.written(project), **makefiles.written(project)}, folder)
        if not all(same(commands[0], words, folder) for words in commands[1:]):
            sys.exit(f"{shape}, {edges} edges: the commands differ")
        return medians(commands, folder)


def ratios(found: Sequence[Found], part: str) -> list[str]:
    """plan_ninja's time or memory, divided by each of the others'."""
    pairs = [(getattr(found[0], part, 0), getattr(other, part, 0)) for other in found[1:]]
    return [f"{ours / theirs:.2f}" if ours and theirs else "-" for ours, theirs in pairs]


def plain_line(shape: str, edges: int, found: Sequence[Found]) -> str:
    cells = [f"{one.seconds:7.3f} s {one.mebibytes:6.1f} MiB" if one else f"{f'over {LIMIT} s':>20}" for one in found]
    both = zip(ratios(found, "seconds"), ratios(found, "mebibytes"))
    return "  ".join([f"{shape} {edges:8d}", *cells, *(f"{time:>5} {memory:>5}" for time, memory in both)])


def markdown_line(shape: str, edges: int, found: Sequence[Found]) -> str:
    """A row of README's table."""
    cells = [f"{one.seconds:.3f} s, {one.mebibytes:.1f} MiB" if one else f"over {LIMIT} s" for one in found]
    both = [", ".join(ratios(found, part)) for part in ("seconds", "mebibytes")]
    return "| " + " | ".join([f"{shape}, {edges:,}", *cells, *both]) + " |"


def version(name: str) -> str:
    """A program's name and version, as it prints them."""
    printed = programs.run([name, "--version"], pathlib.Path()).stdout.decode()
    return f"{name} {re.search(r'[0-9][0-9.]*', printed)[0]}"


def heading(markdown: bool) -> str:
    if not markdown:
        titles = "        edges  plan_ninja            ninja -t commands     make -n"
        return f"{titles}               ratio to ninja  to make (time, memory)"
    others = f"{version('ninja')} | {version('make')} | time, to ninja, to make | memory, to ninja, to make"
    return f"| Manifest, edges | plan_ninja | {others} |\n{'|---' * 6}|"


def main() -> None:
    parser = programs.arguments(__doc__)
    parser.add_argument("sizes", metavar="EDGES", nargs="*", type=int, help="sizes of the projects")
    parser.add_argument("--markdown", action="store_true", help="print README's table")
    asked = parser.parse_args()
    for name, package in NEEDED.items():
        if shutil.which(name) is None:
            sys.exit(f"{name} is not installed (Debian: {package})")
    commands = [[asked.program, "commands", "build.ninja"], ["ninja", "-t", "commands"], ["make", "-nrR"]]
    line = markdown_line if asked.markdown else plain_line
    print(heading(asked.markdown))
    for shape in SHAPES:
        for edges in asked.sizes or SIZES:
            print(line(shape, edges, compare(shape, edges, commands)), flush=True)


if __name__ == "__main__":
    main()
