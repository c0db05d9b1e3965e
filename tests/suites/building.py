"""Builds trees with ninja and with plan_build, changes them, and builds them again.

Each tree is configured once; both builders begin with the same bytes and stamps in the same folder, at -j 4 and -k 0.
After each change (real/changing.py) both must have run the same commands (as the lines say), as many of which failed,
ended with the same status, and left the same files, byte for byte. Then the program is killed at random moments while a
source changes. What is built at last must be what ninja built, and then as little is left to do as with ninja. The
trees are some of those that tests/real writes. With --long they are all of these, and sources of Debian packages
(real/upstream.py), which are fetched.
"""
from __future__ import annotations

import collections
import contextlib
import functools
import hashlib
import os
import pathlib
import random
import re
import shutil
import signal
import subprocess
import time
from collections.abc import Iterator
from typing import NamedTuple

from lib import programs
from lib.suite import Case, LeftOut, Setting, Wrong
from real import buildable, changing, trees, upstream
from real.changing import CHANGES, Place
from real.trees import Tree

ALONE = True
TICK = 0.02
KILLS = 5
LONGEST = 20.0  # seconds after which a run is killed at the latest
LINE = re.compile(r"\[\d+/\d+\] (.*)")
NOT_COMPARED = (".d", ".ninja_log", ".ninja_deps", ".img", ".files", ".log", ".yaml", ".bin", ".gch")
LEFT_OUT = re.compile(
    r"(^|/)(\.plan_|\.ninja_|Testing/|CMakeFiles/(CMake|3\.|Progress|cmake\.)|meson-(info|logs|private)/)")
# After Meson has written the manifest again it calls `ninja -t restat`; then ninja runs commands again that had left
# their outputs as they were.
AGAIN = re.compile(r"Generating symbol file ")


class Built(NamedTuple):
    """A build: how often it ran the commands of each label, how many failed, what it printed, and what it left."""

    labels: collections.Counter[str]
    well: bool
    failed: int
    printed: str
    files: dict[str, str]
    seconds: float


# ---- builds

def files(place: Place) -> dict[str, str]:
    """Returns the hashes of the files that a build made, by name, without those that a builder keeps for itself."""
    found = {}
    for path in place.build.rglob("*"):
        name = str(path.relative_to(place.build))
        if path.is_file() and not path.is_symlink() and not name.endswith(NOT_COMPARED) and not LEFT_OUT.search(name):
            found[name] = hashlib.sha256(path.read_bytes()).hexdigest()
    return found


def built(builder: str, place: Place) -> Built:
    """Builds a tree."""
    environment = {**os.environ, "LC_ALL": "C.UTF-8"}
    begun = time.monotonic()
    done = subprocess.run([builder, "-j", "4", "-k", "0"], cwd=place.build, env=environment, stdin=subprocess.DEVNULL,
                          stdout=subprocess.PIPE, stderr=subprocess.STDOUT, timeout=3600)
    seconds = time.monotonic() - begun
    printed = done.stdout.decode(errors="replace")
    labels = collections.Counter(line[1] for line in map(LINE.fullmatch, printed.splitlines()) if line)
    failed = len(re.findall(r"^FAILED", printed, re.MULTILINE))
    return Built(labels, done.returncode == 0, failed, printed, files(place), seconds)


def story(builder: str, place: Place) -> dict[str, Built]:
    """Returns the builds of a tree by one builder, each after a change that could be made."""
    builds: dict[str, Built] = {}
    for name, change in CHANGES:
        time.sleep(TICK)
        if change(place):
            builds[name] = built(builder, place)
    return builds


def restored(place: Place, kept: pathlib.Path) -> None:
    """Restores the folder as it was configured, with its stamps."""
    shutil.rmtree(place.top)
    subprocess.run(["cp", "-a", kept, place.top], check=True)


def differing(one: dict[str, str], other: dict[str, str]) -> str:
    """Returns how many files differ, and some of their names."""
    names = sorted(name for name in one.keys() | other.keys() if one.get(name) != other.get(name))
    return f"{len(names)} files, as {', '.join(names[:8])}"


def compare(ours: dict[str, Built], theirs: dict[str, Built]) -> None:
    """Compares the builds of both builders."""
    if ours.keys() != theirs.keys():
        raise Wrong(f"other changes could be made: {ours.keys() ^ theirs.keys()}")
    for name, other in theirs.items():
        one = ours[name]
        if (one.well, one.failed) != (other.well, other.failed):
            said = f"{one.printed[-2000:]}\n---- ninja\n{other.printed[-2000:]}"
            raise Wrong(f"{name}: {one.failed} failed, {'succeeded' if one.well else 'failed'}, not as ninja\n{said}")
        more = sorted(one.labels - other.labels)
        less = sorted(label for label in (other.labels - one.labels).elements() if not AGAIN.match(label))
        if more or less:
            raise Wrong(f"{name}: ran {more[:5]} besides ninja's {sum(other.labels.values())}, and not {less[:5]}")
        if one.files != other.files:
            raise Wrong(f"{name}: other files: {differing(one.files, other.files)}")


# ---- builds that are killed

def drained(group: int) -> None:
    """Waits until no process of a group is left."""
    for _ in range(6000):
        try:
            os.killpg(group, 0)
        except ProcessLookupError:
            return
        time.sleep(0.01)


def killed(place: Place, builder: str, longest: float, chance: random.Random) -> None:
    """Starts a run, and ends it at a random moment: only the builder, or its commands too."""
    words = [builder, "-j", "4"]
    child = subprocess.Popen(words, cwd=place.build, stdin=subprocess.DEVNULL, stdout=subprocess.DEVNULL,
                             stderr=subprocess.DEVNULL, preexec_fn=os.setpgrp)
    try:
        time.sleep(chance.uniform(0.0, longest))
        if chance.randrange(4) == 0:
            child.kill()
        else:
            os.killpg(child.pid, chance.choice([signal.SIGINT, signal.SIGTERM, signal.SIGKILL]))
        child.wait()
        drained(child.pid)
    finally:
        with contextlib.suppress(ProcessLookupError):
            os.killpg(child.pid, signal.SIGKILL)
        child.wait()


def interrupted(place: Place, builder: str, theirs: dict[str, Built], seed: int) -> None:
    """Checks that builds after killed ones, in which a source changed, give what ninja built."""
    chance, source = random.Random(seed), changing.source(place)
    whole, nothing = theirs["the first build"], theirs["nothing to do"]
    before = source.read_bytes() if source is not None else b""
    for number in range(KILLS):
        killed(place, builder, min(whole.seconds, LONGEST), chance)
        changing.appended(source, f"{changing.WEAK}plan_ninja_changed_{number};\n")
    if source is not None:
        source.write_bytes(before)
    last = built(builder, place)
    if not last.well:
        raise Wrong(f"after builds that were killed: failed\n{last.printed[-2000:]}")
    # Not what killed commands left. CMake that was killed and started again writes other manifests, by itself too.
    wanted = {name: found for name, found in whole.files.items() if not name.endswith("build.ninja")}
    made = {name: found for name, found in last.files.items() if name in wanted}
    if made != wanted:
        raise Wrong(f"after builds that were killed, other files: {differing(made, wanted)}")
    again = built(builder, place)
    if again.labels != nothing.labels:
        raise Wrong(f"after builds that were killed, and one that wasn't: ran {sorted(again.labels)[:5]} again")


# ---- trees

def compared(tree: Tree, builder: str, ninja: str, seed: int, folder: pathlib.Path) -> dict[str, Built]:
    """Builds a tree with both builders, and compares what they do; returns ninja's builds."""
    top, kept = folder / "tree", folder / "kept"
    top.mkdir()
    if isinstance(tree.files, pathlib.Path):
        shutil.copytree(tree.files, top / "source", symlinks=True)
        tree.files = top / "source"
    build = trees.configured(tree, top)
    place = Place(top, top / "source", top / "source" / tree.place, build)
    subprocess.run(["cp", "-a", top, kept], check=True)
    theirs = story(ninja, place)
    if not theirs["the first build"].well:
        raise trees.NotConfigured(f"ninja doesn't build it: {theirs['the first build'].printed[-1000:]}")
    restored(place, kept)
    compare(story(builder, place), theirs)
    restored(place, kept)
    interrupted(place, builder, theirs, seed)
    return theirs


def try_tree(tree: Tree, builder: str, ninja: str, seed: int, folder: pathlib.Path) -> None:
    """Compares the builds of a tree, and prints what was run. A tree from elsewhere may be one that can't be built."""
    lacking = trees.lacking(tree)
    if lacking:
        raise LeftOut(f"no {', no '.join(lacking)}")
    try:
        builds = compared(tree, builder, ninja, seed, folder)
    except trees.NotConfigured as error:
        raise (Wrong if tree.own else LeftOut)(f"not made here: {str(error)[-300:]}") from None
    failed = sum(not one.well for one in builds.values())
    counts = [str(sum(one.labels.values())) for one in builds.values()]
    more = f", {failed} builds failed" if failed else ""
    print(f"{tree.name}: equal, {counts[0]} commands, then {', '.join(counts[1:])}{more}", flush=True)


def all_trees(setting: Setting) -> Iterator[Tree]:
    """Yields this repository's own trees, and with --long those that are fetched."""
    yield from (tree for tree in buildable.TREES if tree.short or setting.long)
    if setting.long:
        yield from upstream.fetched(setting.home, setting.wanted, trees.say_left_out, upstream.BUILT)


def cases(setting: Setting) -> Iterator[Case]:
    """Yields the trees."""
    ninja = shutil.which("ninja")
    if ninja is None:
        raise LeftOut("no ninja")
    builder = programs.front(setting.program)
    for tree in all_trees(setting):
        yield Case(tree.name, functools.partial(try_tree, tree, builder, ninja, setting.seed))
