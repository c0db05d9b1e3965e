"""Builds trees with `-d explain`, and compares the reason of each command; with `-n` and `-t explain` no command runs.

The reason is printed to standard error before the command, and names the first of the rule's causes that holds.
"""
from __future__ import annotations

import functools
import os
import pathlib
import re
import time
from collections.abc import Iterator
from typing import Callable, Dict, NamedTuple, Tuple

from lib import programs
from lib.place import expect
from lib.suite import Case, Setting, check
from suites.progress import Edge, on_terminal, says, write

ALONE = True
BEGIN = 1_600_000_000
PAUSE = 0.02  # seconds after which a file that is changed is later than what commands made
EXPLAIN = ("-d", "explain")
# A copy of `in` that reads the header `h` too, as a depfile says.
COPY = Edge("a", "cat in h > $out && echo '$out: h' > d", "in", "  depfile = d\n")
LINK = Edge("b", "cat a > $out", "a")
KEPT = Edge("a", "test -e $out || cp in $out", "in", "  restat = 1\n")
SELF = Edge("a", "touch $out", "in", "  generator = 1\n")


class Change(NamedTuple):
    """What is done to a tree that was built, and the reasons of the commands that then run, by their outputs."""

    edges: Tuple[Edge, ...]
    change: Callable[[pathlib.Path], None]
    reasons: Dict[str, str]
    settles: bool = True  # whether the build after these commands has nothing to do


def stamp(name: str, seconds: int) -> Callable[[pathlib.Path], None]:
    """Sets the stamp of a file, in seconds after the stamps of the files of a new tree."""
    return lambda folder: os.utime(folder / name, (BEGIN + seconds, BEGIN + seconds))


def touched(name: str) -> Callable[[pathlib.Path], None]:
    """Gives a file the stamp of now, which is later than those of everything that commands made."""
    def touch(folder: pathlib.Path) -> None:
        time.sleep(PAUSE)
        os.utime(folder / name)
    return touch


def removes(*names: str) -> Callable[[pathlib.Path], None]:
    """Removes files."""
    return lambda folder: [(folder / name).unlink() for name in names] and None


def other_command(folder: pathlib.Path) -> None:
    """Changes all commands."""
    path = folder / "build.ninja"
    path.write_text(path.read_text().replace("  command = ", "  command = : && "))


CHANGES = {
    "nothing": Change((COPY, LINK), lambda folder: None, {}),
    "output missing": Change((COPY, LINK), removes("b"), {"b": "output b doesn't exist"}),
    "both outputs missing": Change((COPY, LINK), removes("a", "b"),
                                   {"a": "output a doesn't exist", "b": "output b doesn't exist"}),
    "second output missing": Change((Edge("a c", "touch a c", "in"),), removes("c"), {"a": "output c doesn't exist"}),
    "no entry": Change((COPY,), removes(".plan_record"), {"a": "no earlier build is recorded"}),
    "another command": Change((COPY,), other_command, {"a": "its command line changed"}),
    "another command of a generator": Change((SELF,), other_command, {}),
    "header missing": Change((Edge("a", "echo '$out: h' > d; touch $out", "in", "  depfile = d\n"),), removes("h"),
                             {"a": "input h doesn't exist"}, False),
    "source newer": Change((COPY, LINK), touched("in"),
                           {"a": "input in is newer than output a", "b": "input a was changed in this build"}),
    "header newer": Change((COPY,), touched("h"), {"a": "input h is newer than output a"}),
    "older file replaced": Change((COPY,), stamp("in", 10), {"a": "input in is newer than what the last build read"}),
    "output of a restat edge kept": Change((KEPT, LINK), stamp("in", 10),
                                           {"a": "input in is newer than what the last build read"}),
}


def tree(edges: Tuple[Edge, ...], builder: str, folder: pathlib.Path) -> None:
    """Writes a tree and builds it."""
    programs.write({"in": "in", "h": "h"}, folder)
    for name in ("in", "h"):
        os.utime(folder / name, (BEGIN, BEGIN))
    write(folder, edges)
    expect("status of the first build", 0, says(builder, folder, "-j1")[2])


def lines_of(reasons: Dict[str, str]) -> str:
    """Returns what is said of these reasons."""
    return "".join(f"ninja explain: {output}: {reason}\n" for output, reason in reasons.items())


def explained(change: Change, builder: str, folder: pathlib.Path) -> None:
    """After the change each command has its reason. A dry run and the tool say those that can be known."""
    tree(change.edges, builder, folder)
    change.change(folder)
    for words in (("-n", *EXPLAIN), ("-t", "explain")):
        dry, errors, status = says(builder, folder, "-j1", *words)
        expect("status and first reason", (0, lines_of(change.reasons).split("\n")[0]), (status, errors.split("\n")[0]))
        check(bool(change.reasons) == dry.startswith("["), f"printed {dry}")
    printed, errors, status = says(builder, folder, "-j1", *EXPLAIN)
    expect("errors and status", (lines_of(change.reasons), 0), (errors, status))
    expect("lines", len(change.reasons), len(re.findall(r"^\[\d+/\d+\] ", printed, re.M)))
    if change.settles:
        expect("nothing left", ("ninja: no work to do.\n", "", 0), says(builder, folder, *EXPLAIN))


def begun(builder: str, folder: pathlib.Path) -> None:
    """A command that failed was begun and did not succeed."""
    programs.write({"in": "in"}, folder)
    write(folder, (Edge("a", "touch $out; test -e go", "in"),))
    first = lines_of({"a": "output a doesn't exist"})
    expect("first", (first, 1), says(builder, folder, *EXPLAIN)[1:])
    (folder / "go").touch()
    again = lines_of({"a": "its command was started before, and didn't succeed"})
    expect("again", (again, 0), says(builder, folder, *EXPLAIN)[1:])


def only_targets(builder: str, folder: pathlib.Path) -> None:
    """The tool explains the targets that it is given, and refuses others."""
    write(folder, (Edge("a", "touch $out"), Edge("b", "touch $out")))
    lines = lines_of({"b": "output b doesn't exist"})
    expect("explained", ("[1/1] b\n", lines, 0), says(builder, folder, "-t", "explain", "b"))
    check(not (folder / "b").exists(), "a command ran")
    expect("status of an unknown target", 1, says(builder, folder, "-t", "explain", "nosuch")[2])
    expect("usage", ("usage: ninja -t explain [targets]\n", "", 1), says(builder, folder, "-t", "explain", "-h"))


def clears_the_line(builder: str, folder: pathlib.Path) -> None:
    """On a terminal a reason is written over the line of progress, and has a line of its own."""
    write(folder, (Edge("a", "touch $out"), Edge("b", "touch $out", "a")))
    shown, status = on_terminal(builder, folder, "xterm", "-j", "1", *EXPLAIN)
    expect("status", 0, status)
    for output in "ab":
        line = f"\r\x1b[Kninja explain: {output}: output {output} doesn't exist\r\n"
        check(line.encode() in shown, f"showed {shown!r}")


def cases(setting: Setting) -> Iterator[Case]:
    """Yields a build for each reason, and those of the tool."""
    builder = programs.front(setting.program)
    for name, change in CHANGES.items():
        yield Case(name, functools.partial(explained, change, builder))
    yield Case("command begun", functools.partial(begun, builder))
    yield Case("tool", functools.partial(only_targets, builder))
    yield Case("terminal", functools.partial(clears_the_line, builder))
