"""Compares the commands of random trees of manifests, and why random graphs are refused, with what ninja prints.

A tree (lib/random_trees.py) that ninja refuses is not counted; one that only plan_ninja refuses is a failure. A graph
(lib/random_graphs.py) may have each fault of a graph. The names of a cycle are not compared, since there may be several
cycles. Without ninja (Debian: ninja-build) the suite is left out.
"""
from __future__ import annotations

import functools
import pathlib
import re
import shutil
from collections.abc import Iterator

from lib import programs
from lib.random_graphs import GraphWriter
from lib.random_trees import TreeWriter
from lib.suite import Case, LeftOut, Setting

SECONDS = 60
COUNT = 300  # trees, and graphs


def commands(program: str, folder: pathlib.Path) -> programs.Lines | None:
    """Returns the commands that plan_ninja prints, or None if it refuses."""
    try:
        return programs.printed_lines([program, "commands", "build.ninja"], folder)
    except programs.Refused:
        return None


def tree_faults(program: str, ninja: str, files: dict[str, str], folder: pathlib.Path) -> Iterator[str]:
    """Yields a tree if its commands differ, or an empty text; nothing if ninja refuses it."""
    programs.write(files, folder)
    try:
        theirs = programs.ninja_commands(ninja, folder)
    except programs.Refused:
        return
    yield "" if commands(program, folder) == theirs else f"differs: {files!r}"


def fault_of_ninja(ninja: str, folder: pathlib.Path, paths: int) -> str:
    """Returns what plan_ninja must print if ninja refuses; of a cycle only the name of the fault."""
    listed = programs.run([ninja, "-t", "targets", "all"], folder, SECONDS)
    said = listed.stderr.decode()
    if twice := re.search(r"multiple rules generate (\S+)", said):
        return f"plan: 50 TwoProducers {twice[1]}"
    if unknown := re.search(r"unknown target '(\S+)'", said):
        return f"plan: 52 UnknownDefault {unknown[1]}"
    for path in range(paths):
        (folder / str(path)).touch()
    done = programs.run([ninja, "-n", *programs.targets(listed.stdout)], folder, SECONDS)
    if b"dependency cycle" in done.stderr:
        return "plan: 51 Cycle"
    return done.stderr.decode() if done.returncode else ""


def graph_fault(program: str, ninja: str, text: str, paths: int, folder: pathlib.Path) -> str:
    """Returns how the refusals of a graph differ, or an empty text."""
    programs.write({"build.ninja": text}, folder)
    done = programs.run([program, "commands", "build.ninja"], folder, SECONDS)
    ours = re.sub("(51 Cycle).*", r"\1", done.stderr.decode().strip())
    theirs = fault_of_ninja(ninja, folder, paths)
    return "" if ours == theirs else f"differs: {text!r}: {ours!r}, ninja: {theirs!r}"


def cases(setting: Setting) -> Iterator[Case]:
    """Yields random trees and graphs."""
    ninja, count = shutil.which("ninja"), setting.counted(COUNT)
    if ninja is None:
        raise LeftOut("no ninja")
    trees, graphs = TreeWriter(setting.seed), GraphWriter(setting.seed)
    for number in range(count):
        yield Case(f"tree {number}", functools.partial(tree_faults, setting.program, ninja, trees.tree()))
    for number in range(count):
        text = graphs.graph()
        yield Case(f"graph {number}", functools.partial(graph_fault, setting.program, ninja, text, graphs.paths))
