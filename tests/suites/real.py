"""Compares the commands and the images of build trees that CMake and Meson make here with what ninja prints.

The trees are some of those that tests/real writes. With --long they are all of these, and the sources of some Debian
packages (real/upstream.py), which are fetched and configured, but not built. Commands are compared as multisets. The
image of each manifest is compiled and verified, and must say the same as ninja of commands and of who makes which file
(real/compiling.py). A manifest that is refused by a number that the project decided on is compared again without the
lines that are refused. Trees that can't be made here are left out, and without ninja all are. Each manifest counts as
one check.
"""
from __future__ import annotations

import functools
import pathlib
import re
import shutil
import subprocess
from collections.abc import Iterator

from lib import programs
from lib.suite import Case, LeftOut, Setting, Wrong
from real import cmake_trees, comparing, meson_trees, trees, upstream
from real.trees import Tree

ALONE = True
WIDTH = 300


def said(name: str, outcome: comparing.Outcome) -> str:
    """Prints what came of a manifest; returns what is wrong with it, or an empty text."""
    if outcome.verdict == "differs":
        return f"{name}, {outcome.commands} commands:\n{outcome.said}"
    more = f" by {outcome.said}" if outcome.said else ""
    print(f"{name}, {outcome.commands} commands: {outcome.verdict}{more}", flush=True)
    return ""


def compared(tree: Tree, program: str, ninja: str, build: pathlib.Path) -> Iterator[str]:
    """Yields for each manifest of a build folder what is wrong with it, or an empty text."""
    for manifest in trees.manifests(build):
        name = tree.name if manifest == "build.ninja" else f"{tree.name}, {manifest}"
        try:
            yield said(name, comparing.compared(program, ninja, manifest, build))
        except (OSError, programs.Refused, subprocess.TimeoutExpired) as error:
            yield f"{name}: {error}"


def reason(text: str) -> str:
    """Returns what a tool says from its first error on, or its last words."""
    words = " ".join(text.split())
    found = re.search("(CMake Error|ERROR).*", words)
    return found[0][:WIDTH] if found else words[-WIDTH:]


def faults(tree: Tree, program: str, ninja: str, folder: pathlib.Path) -> Iterator[str]:
    """Configures a tree, and compares its manifests. Only a tree from elsewhere may need what is not installed."""
    lacking = trees.lacking(tree)
    if lacking:
        raise LeftOut(f"no {', no '.join(lacking)}")
    try:
        build = trees.configured(tree, folder)
    except (trees.NotConfigured, subprocess.TimeoutExpired) as error:
        told = f"not configured: {reason(str(error))}"
        raise (Wrong if tree.own else LeftOut)(told) from None
    yield from compared(tree, program, ninja, build)


def all_trees(setting: Setting) -> Iterator[Tree]:
    """Yields this repository's own trees, and with --long those that are fetched."""
    yield from (tree for tree in [*cmake_trees.TREES, *meson_trees.TREES] if tree.short or setting.long)
    if setting.long:
        yield from upstream.fetched(setting.home, setting.wanted, trees.say_left_out)


def cases(setting: Setting) -> Iterator[Case]:
    """Yields the trees."""
    ninja = shutil.which("ninja")
    if ninja is None:
        raise LeftOut("no ninja")
    for tree in all_trees(setting):
        yield Case(tree.name, functools.partial(faults, tree, setting.program, ninja))
