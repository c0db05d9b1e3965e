"""Builds manifests that name a missing source with plan_build, and compares what it says and leaves with ninja's.

A missing source refuses the build before its first command, with ninja's sentence on standard error. Where plan_build
differs from ninja 1.11.1, the case has what it says instead. A source that a command removes fails its edge.
"""
from __future__ import annotations

import functools
import pathlib
import re
import shutil
import subprocess
from collections.abc import Iterator
from typing import Callable, NamedTuple, Optional, Tuple

from lib import programs
from lib.place import expect
from lib.suite import Case, Setting, check

RULES = """rule touch
  command = touch $out
rule cat
  command = cat $in > $out
rule generate
  command = touch $out
  generator = 1
rule restat
  command = touch $out
  restat = 1
rule deps
  command = touch $out; echo '$out: $in header' > $out.d
  depfile = $out.d
  deps = gcc
rule depfile
  command = touch $out; echo '$out: $in header' > $out.d
  depfile = $out.d
rule aside
  command = touch $out aside
"""
IDLE = ("ninja: no work to do.\n", "", 0)
Said = Tuple[str, str, int]


class Step(NamedTuple):
    """A build with these words, after a change by the shell."""

    words: str = ""
    before: str = ":"
    own: Optional[Said] = None  # what plan_build says, if ninja says something else


def lacks(source: str, output: str, front: str = "") -> Said:
    """Returns what is said of a missing source."""
    return "", f"ninja: error: {front}'{source}', needed by '{output}', missing and no known rule to make it\n", 1


TWO = "build a: cat x\nbuild b: touch\nbuild all: phony b a\ndefault all\n"
TABLE = {
    "explicit input": ("build a: cat x\n", Step()),
    "implicit input": ("build a: cat | x\n", Step()),
    "order-only input": ("build a: touch || x\n", Step(), Step(before="touch x"), Step(before="rm a x")),
    "order-only input of a clean edge": (
        "build a: touch || x\n", Step(before="touch x"), Step(before="rm x", own=lacks("x", "a"))),
    "before other commands": (TWO, Step(), Step("-k 0"), Step("-j 1 -k 2"), Step("-n"), Step("-v"), Step("--quiet")),
    "targets that don't need it": (TWO, Step("b"), Step("a"), Step("all"), Step("a", before="touch x"), Step("all")),
    "explained": (TWO, Step("-d explain", own=lacks("x", "a")), Step("-t explain", own=lacks("x", "a"))),
    "input of a phony": ("build all: phony x\n", Step("all")),
    "order-only input of a phony": ("build all: phony || x\n", Step("all", own=lacks("x", "all"))),
    "phony without inputs": ("build x: phony\nbuild a: touch x\n", Step(), Step()),
    "phony of a source": ("build p: phony x\nbuild a: touch p\n", Step(), Step(before="touch x"), Step(before="rm x")),
    "second output": ("build a b: touch x\nbuild z: touch b\n", Step("a"), Step("b", own=lacks("x", "a")),
                      Step("z", own=lacks("x", "a"))),
    "first of several": (
        "build z: touch y x || w\nbuild y: touch m1 y1\nbuild x: touch m2\nbuild w: touch m3\nbuild q: touch m4 y\n"
        "build r: touch | w || y m5\n",
        Step("z"), Step("x z"), Step("q"), Step("r"), Step("w q"), Step(), Step("z", before="touch m1"),
        Step("z", before="touch y1"), Step("z", before="touch m2")),
    "long chain": ("".join(f"build n{n}: touch n{n + 1}\n" for n in range(3000)), Step("n0"), Step("n2999")),
    "shared by many": ("".join(f"build n{n}: touch n{n + 1} n{n + 2} | x{n}\n" for n in range(200))
                       + "build n200: touch\nbuild n201: touch\n", Step("n0"), Step("n0", before="touch x199")),
    "many edges": ("".join(f"build o{n}: touch s{n % 7}\n" for n in range(1300)),
                   Step(before="touch s0 s1 s2 s4 s5 s6"), Step("o1299", before="touch s0"), Step("o1298 o1295")),
    "generator": ("build a: generate x\n", Step(), Step(before="touch x a"), Step(before="rm x")),
    "restat": ("build a: restat x\nbuild b: touch a\n", Step("b"), Step("b", before="touch x"),
               Step("b", before="rm x")),
    "target that is a source": ("build a: cat x\n", Step("x"), Step("x", before="touch x"), Step("a x")),
    "unknown target": ("build a: cat x\n", Step("a nope"), Step("nope a")),
    "maker of the manifest": (
        "build build.ninja: generate cfg\nbuild a: touch\n", Step(), Step(before="touch cfg"), Step(before="rm cfg"),
        Step("-n"), Step("a")),
    "written by another command": (
        "build a: aside\nbuild b: cat aside || a\nbuild all: phony a b\ndefault all\n", Step("-j 1"), Step("a"),
        Step("-j 1"), Step(before="rm aside")),
    "below a file": ("build a: cat x/y\n", Step(before="touch x"), Step(before="rm x; mkdir x")),
    # ninja 1.11.1 runs a command whose source an old depfile names. Later versions refuse the build.
    "named by deps too": ("build a: deps s\n", Step(before="touch s"), Step(before="rm s", own=lacks("s", "a"))),
    "named by a depfile too": ("build a: depfile s\n", Step(before="touch s"),
                               Step(before="rm s", own=lacks("s", "a"))),
    "only named by deps": ("build a: deps s\n", Step(before="touch s header"), Step(before="rm header")),
}


def says(builder: str, folder: pathlib.Path, words: str) -> Said:
    """Builds, and returns what was printed, the errors, and the status."""
    done = programs.run([builder, *words.split()], folder)
    return done.stdout.decode(), done.stderr.decode(), done.returncode


def files(folder: pathlib.Path) -> Tuple[str, ...]:
    """Returns the names of the files of a tree, without those of a builder and the depfiles, which ninja removes."""
    return tuple(sorted(path.name for path in folder.iterdir() if path.name[0] != "." and path.suffix != ".d"))


def as_ninja(manifest: str, steps: Tuple[Step, ...], builder: str, folder: pathlib.Path) -> None:
    """Each build says what ninja says, or what is its own, and leaves the same files if it says the same."""
    found = shutil.which("ninja")
    places = {builder: folder / "own", **({found: folder / "ninja"} if found else {})}
    for place in places.values():
        place.mkdir()
        programs.write({"build.ninja": RULES + manifest}, place)
    for number, step in enumerate(steps):
        said = {}
        for program, place in places.items():
            subprocess.run(["sh", "-c", step.before], cwd=place, check=True)
            said[program] = says(program, place, step.words)
        what = f"build {number} ({step.before}; {step.words})"
        if step.own:
            expect(what, step.own, said[builder])
        elif found:
            expect(what, said[found], said[builder])
            expect(f"files after {what}", files(places[found]), files(places[builder]))


REMOVED = ("rule remove\n  command = rm -f x; touch $out\nrule touch\n  command = touch $out\n"
           "build a: remove\nbuild b: touch x || a\nbuild c: touch b\nbuild d: touch\n")


def removed_meanwhile(builder: str, folder: pathlib.Path) -> None:
    """A source that a command removes fails the edge that needs it. The others are built."""
    programs.write({"build.ninja": REMOVED, "x": ""}, folder)
    printed, errors, status = says(builder, folder, "-j 1 -k 0")
    expect("errors and status", ("", 1), (errors, status))
    sentence = lacks("x", "b")[1]
    check(sentence in printed and "1 skipped\n" in printed, f"it printed {printed!r}")
    check((folder / "a").exists() and (folder / "d").exists(), "another edge wasn't built")
    expect("again", lacks("x", "b"), says(builder, folder, "-k 0"))


def asked_once(builder: str, folder: pathlib.Path) -> None:
    """A build with nothing to do asks for each stamp once, as before it looks for missing sources."""
    if not shutil.which("strace"):
        return
    edges = "".join(f"build o{n}: touch s{n}\n" for n in range(300))
    programs.write({"build.ninja": RULES + edges, **{f"s{n}": "" for n in range(300)}}, folder)
    programs.run([builder], folder)
    words = ["strace", "-f", "-e", "trace=stat,lstat,newfstatat,statx", "-o", "calls", builder]
    expect("said", IDLE, (lambda done: (done.stdout.decode(), done.stderr.decode(), done.returncode))(
        programs.run(words, folder)))
    text = (folder / "calls").read_text()
    counts = {len(re.findall(rf'"s{n}"', text)) for n in range(300)}
    expect("questions for each source", {1}, counts)


def cases(setting: Setting) -> Iterator[Case]:
    """Yields the cases of the table, and those of plan_build only."""
    builder = programs.front(setting.program)
    for name, (manifest, *steps) in TABLE.items():
        yield Case(name, functools.partial(as_ninja, manifest, tuple(steps), builder))
    trials: Tuple[Callable[[str, pathlib.Path], None], ...] = (removed_meanwhile, asked_once)
    for trial in trials:
        yield Case(trial.__name__.replace("_", " "), functools.partial(trial, builder))
