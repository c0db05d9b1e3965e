"""Uses CMake and Meson with ninja, and with plan_build in its place, by their own commands.

A project of tests/real is configured, built, tested, installed, built again after its manifest was touched, cleaned,
and built once more, each time in the same folder. Each command must end as with ninja, the same files must be there
after it, and what is installed must be the same byte for byte. Then plan_build's tools must print what ninja's print,
and builds after them must do the same again. Each command counts as one check.
"""
from __future__ import annotations

import functools
import hashlib
import os
import pathlib
import shutil
import subprocess
from collections.abc import Iterator
from typing import NamedTuple

from lib import programs
from lib.suite import Case, LeftOut, Setting, check
from real import buildable, trees
from real.trees import Tree
from suites import building

ALONE = True
USED = ("cmake built", "meson built")
SECONDS = 600
# By tool, what is done, and the words.
STEPS = {
    "cmake": [
        ("configure", "cmake -G Ninja -S source -B build -DCMAKE_INSTALL_PREFIX=/usr"),
        ("build", "cmake --build build -j 4"),
        ("test", "ctest --test-dir build"), ("install", "cmake --build build --target install"),
        ("touch", "touch source/CMakeLists.txt"), ("regenerate", "cmake --build build"),
        ("clean", "cmake --build build --target clean"), ("build again", "cmake --build build --target program"),
        ("fail", "cmake --build build --target nosuch"),
    ],
    "meson": [
        ("configure", "meson setup --prefix=/usr build source"), ("build", "meson compile -C build -j 4"),
        ("test", "meson test -C build"), ("install", "meson install -C build"), ("touch", "touch source/meson.build"),
        ("regenerate", "meson compile -C build"), ("clean", "meson compile -C build --clean"),
        ("build again", "meson compile -C build program"), ("fail", "meson compile -C build nosuch"),
    ],
}


class Step(NamedTuple):
    """A command that ended: whether it succeeded, which files are there, and the hashes of installed files."""

    well: bool
    names: list[str]
    installed: dict[str, str]
    printed: str


def found(place: pathlib.Path) -> tuple[list[str], dict[str, str]]:
    """Returns the names of the files that were built, and the hashes of those that were installed."""
    names = [str(path.relative_to(place)) for path in (place / "build").rglob("*") if path.is_file()]
    kept = [name for name in names if not name.endswith(building.NOT_COMPARED) and not building.LEFT_OUT.search(name)]
    files = [path for path in (place / "out").rglob("*") if path.is_file()]
    return sorted(kept), {str(path.relative_to(place)): hashlib.sha256(path.read_bytes()).hexdigest() for path in files}


def used(tree: Tree, place: pathlib.Path, environment: dict[str, str]) -> dict[str, Step]:
    """Returns the steps of a tree, in a fresh folder."""
    shutil.rmtree(place, ignore_errors=True)
    assert not isinstance(tree.files, pathlib.Path)
    programs.write(tree.files, place / "source")
    steps = {}
    for name, words in STEPS[tree.tool]:
        done = subprocess.run(words.split(), cwd=place, env={**environment, "DESTDIR": str(place / "out")},
                              timeout=SECONDS, stdin=subprocess.DEVNULL, stdout=subprocess.PIPE,
                              stderr=subprocess.STDOUT)
        steps[name] = Step(done.returncode == 0, *found(place), done.stdout.decode(errors="replace"))
    return steps


def fault(name: str, ours: Step, theirs: Step) -> str:
    """Returns how a step differs from ninja's, or an empty text."""
    if theirs.well != (name != "fail"):
        return f"{name}: with ninja it {'succeeded' if theirs.well else 'failed'}\n{theirs.printed[-1000:]}"
    if ours.well != theirs.well:
        said = f"{ours.printed[-1000:]}\n---- ninja\n{theirs.printed[-1000:]}"
        return f"{name}: it {'succeeded' if ours.well else 'failed'}\n{said}"
    if ours.names != theirs.names:
        return f"{name}: other files: {sorted(set(ours.names) ^ set(theirs.names))[:8]}"
    if ours.installed != theirs.installed:
        return f"{name}: other files are installed: {building.differing(ours.installed, theirs.installed)}"
    return ""


# What the tools of both must print word for word. Lines of -t clean may come in another order.
LISTINGS = ("-t targets", "-t targets all", "-t targets depth 0", "-t targets rule", "-t compdb", "-t commands",
            "-t commands all", "-t commands -s all", "-n -t clean", "-n -t clean -g", "-n -v -t clean all")


def tools(builder: str, build: pathlib.Path, environment: dict[str, str]) -> dict[str, bool]:
    """Returns whether each tool, each refusal and each build is as it has to be."""
    def done(words: str, own: str = builder) -> tuple[list[bytes], int]:
        ended = subprocess.run([own, *words.split()], cwd=build, env=environment, stdin=subprocess.DEVNULL,
                               capture_output=True, timeout=SECONDS)
        lines = ended.stdout.splitlines(True)
        return sorted(lines) if "clean" in words else lines, ended.returncode

    listed = {words: done(words) == done(words, "ninja") for words in LISTINGS}
    built, again = done("-k 0")[1], done("")  # some commands run in each build
    return {
        **listed, "--version": done("--version") == ([b"1.9.0\n"], 0),
        "an unknown tool": done("-t nosuch")[1] == 1, "no such target": done("nosuch")[1] == 1,
        "a build": built == 0, "a build after it": again[1] == 0 and len(again[0]) <= 3,
        "-t recompact": done("-t recompact")[1] == 0, "a build after that": done("") == again,
        "-t restat": done("-t restat build.ninja")[1] == 0, "-t cleandead": done("-t cleandead")[1] == 0,
        "a build at last": done("") == again,
    }


def faults(program: str, tree: Tree, folder: pathlib.Path) -> Iterator[str]:
    """Yields for each command and each tool how it differs from ninja's, or an empty text."""
    lacking = [*trees.lacking(tree), *(name for name in ("ninja",) if shutil.which(name) is None)]
    if lacking:
        raise LeftOut(f"no {', no '.join(lacking)}")
    place, environment = folder / "tree", {**os.environ, "LC_ALL": "C.UTF-8"}
    theirs = used(tree, place, environment)
    own = folder / "bin"
    own.mkdir()
    (own / "ninja").symlink_to(programs.front(program))
    ours = used(tree, place, {**environment, "PATH": f"{own}:{environment['PATH']}"})
    check((place / "build" / ".plan_record").exists(), "plan_build wasn't called")
    yield from (fault(name, step, theirs[name]) for name, step in ours.items())
    held = tools(str(own / "ninja"), place / "build", environment)
    yield from ("" if holds else f"{name}: not as it has to be" for name, holds in held.items())


def cases(setting: Setting) -> Iterator[Case]:
    """Yields the projects."""
    for tree in buildable.TREES:
        if tree.name in USED:
            yield Case(tree.name, functools.partial(faults, setting.program, tree))
