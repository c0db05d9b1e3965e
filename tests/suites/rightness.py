"""Changes files while commands read them, builds the trees of several branches in turn in one folder, and changes files
that have the name of a phony.

After each change the next build must run each command whose outputs are old, and the build after that has nothing to
do. A file that is no record must stay as it is.
"""
from __future__ import annotations

import functools
import os
import pathlib
import time
from collections.abc import Iterator, Sequence
from typing import Dict, NamedTuple, Tuple

from lib import programs
from lib.place import Place, expect
from lib.suite import Case, Setting, check, until
from suites.progress import TICK, Edge, says, write

NOTHING = ("ninja: no work to do.\n", "", 0)
RESTAT = "  restat = 1\n"
DEPFILE = "  depfile = d\n"
# Writes the output before it waits or changes what it has read.
READS = "cat in h > $out && echo '$out: h' > d && touch begun"
WAITS = f"{READS} && while ! [ -e go ]; do sleep 0.02; done"
HOUR = 3600  # seconds


def changed(builder: str, folder: pathlib.Path, edge: Edge) -> None:
    """Builds a tree in which a file became `new` while the command of its edge ran: the command runs once more."""
    expect("next build", ("[1/1] out\n", "", 0), says(builder, folder))
    check("new" in (folder / "out").read_text(), f"{edge.outputs} is old: {(folder / 'out').read_text()!r}")
    expect("the build after it", NOTHING, says(builder, folder))


def edited(name: str, more: str, builder: str, folder: pathlib.Path) -> None:
    """A file is edited from outside, after the command has read it and has written its output."""
    programs.write({"in": "in\n", "h": "h\n"}, folder)
    edge = Edge("out", WAITS, "in", DEPFILE + more)
    write(folder, (edge,))
    place = Place(builder, folder)
    try:
        first = place.started()
        until((folder / "begun").exists, "the command doesn't begin")
        time.sleep(TICK)
        (folder / name).write_text("new\n")
        (folder / "go").touch()
        expect("status of the first build", 0, first.wait())
    finally:
        place.end()
    changed(builder, folder, edge)


def edits(name: str, more: str, builder: str, folder: pathlib.Path) -> None:
    """The first run of a command edits a file that it has read."""
    programs.write({"in": "in\n", "h": "h\n"}, folder)
    edge = Edge("out", f"{READS} && (test -e once || (sleep {TICK}; touch once; echo new > {name}))", "in",
                DEPFILE + more)
    write(folder, (edge,))
    expect("status of the first build", 0, says(builder, folder)[2])
    changed(builder, folder, edge)


class Branch(NamedTuple):
    """A manifest, and what its files must have after a build."""

    edges: Tuple[Edge, ...]
    files: Dict[str, str]


def branch(word: str, *makers: str) -> Branch:
    """Returns a branch with an edge for each of these lists of outputs. Its commands write this word to all of them."""
    edges = []
    for files in makers:
        commands = [f"echo {word} > {name}" for name in files.replace("|", "").split()]
        edges.append(Edge(" ".join(files.split()), "; ".join(commands)))
    return Branch(tuple(edges), {name: f"{word}\n" for files in makers for name in files.replace("|", "").split()})


# Manifests that are built in turn in one folder, over and over.
BRANCHES = {
    "second output of another edge": (branch("one", "p"), branch("two", "q | p")),
    "swapped outputs": (branch("one", "p q"), branch("two", "q p")),
    "second output of two edges": (branch("one", "p | r"), branch("two", "q | r")),
    "three branches": (branch("one", "p"), branch("two", "q | p"), branch("three", "r p")),
    "outputs that part": (branch("one", "p q"), branch("two", "p", "q")),
}


def in_turn(branches: Sequence[Branch], builder: str, folder: pathlib.Path) -> None:
    """Builds each branch three times, one after the other. All its files are its own each time."""
    for number in range(3 * len(branches)):
        one = branches[number % len(branches)]
        write(folder, one.edges)
        printed, errors, status = says(builder, folder, "-j1")
        expect(f"errors and status of build {number}", ("", 0), (errors, status))
        for name, text in one.files.items():
            expect(f"{name} after build {number}", text, (folder / name).read_text())
        time.sleep(TICK)


def settles(builder: str, folder: pathlib.Path) -> None:
    """An edge whose outputs another edge made before runs once, and then there is nothing to do."""
    for one in BRANCHES["swapped outputs"] + BRANCHES["second output of another edge"]:
        write(folder, one.edges)
        expect("status", 0, says(builder, folder)[2])
        expect("the build after it", NOTHING, says(builder, folder))


def dead_outputs(builder: str, folder: pathlib.Path) -> None:
    """`-t cleandead` removes all outputs of an edge that is no longer in the manifest."""
    write(folder, branch("one", "p q | r", "k").edges)
    expect("status", 0, says(builder, folder)[2])
    write(folder, branch("one", "k").edges)
    expect("status of the tool", 0, says(builder, folder, "-t", "cleandead")[2])
    expect("files that are left", ["k"], [name for name in "pqrk" if (folder / name).exists()])


def future(more: str, builder: str, folder: pathlib.Path) -> None:
    """A source of the future is built in each build, with one warning, until it is edited."""
    programs.write({"in": "old\n", "h": "h\n"}, folder)
    later = time.time() + HOUR
    os.utime(folder / "in", (later, later))
    write(folder, (Edge("out", "cp in $out", "in", more), Edge("other", "cp in $out", "in", more)))
    for _ in range(2):
        printed, errors, status = says(builder, folder, "-j1")
        expect("status", 0, status)
        expect("warnings", 1, errors.count("\n"))
        check("in the future" in errors, f"said {errors!r}")
    time.sleep(TICK)
    (folder / "in").write_text("new\n")
    expect("errors and status after the edit", ("", 0), says(builder, folder, "-j1")[1:])
    expect("output", "new\n", (folder / "out").read_text())
    expect("the build after it", NOTHING, says(builder, folder))


def future_header(builder: str, folder: pathlib.Path) -> None:
    """The warning names a header of the future."""
    programs.write({"in": "in\n", "h": "h\n"}, folder)
    later = time.time() + HOUR
    os.utime(folder / "h", (later, later))
    write(folder, (Edge("out", READS, "in", DEPFILE),))
    errors = says(builder, folder)[1]
    expect("warning", "plan_ninja: h has a date in the future, so commands that read it run again\n", errors)


# The header is written next to the stamp that the edge declares, as generators do.
SIDE_EFFECT = """\
rule stamp
  command = test -e x.h || echo one > x.h; touch $out
rule copy
  command = cp in x.h; touch $out
rule use
  command = cat x.h > $out
  description = $out
build x.stamp: stamp given
build x.h: phony x.stamp
build other: copy in
build out: use x.h
default out
"""


def used(text: str, builder: str, folder: pathlib.Path) -> None:
    """Builds after the header changed: its user runs once."""
    expect("next build", ("[1/1] out\n", "", 0), says(builder, folder))
    expect("output", text, (folder / "out").read_text())
    expect("the build after it", NOTHING, says(builder, folder))


def side_effect(builder: str, folder: pathlib.Path) -> None:
    """A phony with an input names a file that is there: whatever changes this file, the phony's users run."""
    programs.write({"build.ninja": SIDE_EFFECT, "given": "given\n", "in": "in\n"}, folder)
    expect("errors and status of the first build", ("", 0), says(builder, folder)[1:])
    expect("output", "one\n", (folder / "out").read_text())
    expect("the build after it", NOTHING, says(builder, folder))
    time.sleep(TICK)
    (folder / "x.h").write_text("by hand\n")
    used("by hand\n", builder, folder)
    time.sleep(TICK)
    expect("errors and status of another edge", ("", 0), says(builder, folder, "other")[1:])
    used("in\n", builder, folder)
    (folder / "x.h").unlink()
    expect("without the file", NOTHING, says(builder, folder))


def strange_record(program: str, folder: pathlib.Path) -> None:
    """A file that is no record isn't used as one, and stays as it is."""
    text = "int main(void) { return 0; }\n"
    programs.write({"build.ninja": "rule c\n  command = touch $out\nbuild out: c\n", "main.c": text}, folder)
    programs.printed_lines([program, "compile", "build.ninja", "-o", "plan.img"], folder)
    done = programs.run([program, "run", "plan.img", "--record", "main.c"], folder)
    check(done.returncode != 0, f"the run ended with {done.returncode}")
    check(b"it is no build record" in done.stderr, f"said {done.stderr!r}")
    expect("main.c", text, (folder / "main.c").read_text())
    check(not (folder / "out").exists(), "a command ran")


def strange_link(size: int, builder: str, folder: pathlib.Path) -> None:
    """A record that is a link to another file isn't used, and the other file stays as it is."""
    text = "precious\n" * (size // 9 + 1)
    programs.write({"build.ninja": "rule c\n  command = touch $out\nbuild out: c\n", "victim": text}, folder)
    (folder / ".plan_record").symlink_to("victim")
    printed, errors, status = says(builder, folder)
    check(status != 0, f"the build ended with {status}, and printed {printed!r}")
    check("it is no build record" in errors, f"said {errors!r}")
    expect("whether the victim stays", True, text == (folder / "victim").read_text())
    check(not (folder / "out").exists(), "a command ran")


def good_link(builder: str, folder: pathlib.Path) -> None:
    """A record that is a link to nothing or to a good record is used."""
    programs.write({"build.ninja": "rule c\n  command = touch $out\nbuild out: c\n"}, folder)
    (folder / ".plan_record").symlink_to("record")
    expect("first build", ("", 0), says(builder, folder)[1:])
    expect("second build", NOTHING, says(builder, folder))
    check((folder / "record").stat().st_size > 0, "the record is empty")


def cases(setting: Setting) -> Iterator[Case]:
    """Yields the edits, the branches, and the files that are no records."""
    builder = programs.front(setting.program)
    for kind, more in (("", ""), (" of restat", RESTAT)):
        for name, what in (("in", "input"), ("h", "header")):
            yield Case(f"{what} edited while a command{kind} runs", functools.partial(edited, name, more, builder))
            yield Case(f"{what} edited by a command{kind} itself", functools.partial(edits, name, more, builder))
        yield Case(f"future source{kind}", functools.partial(future, more, builder))
    yield Case("future header", functools.partial(future_header, builder))
    for name, branches in BRANCHES.items():
        yield Case(name, functools.partial(in_turn, branches, builder))
    yield Case("nothing to do after a switch", functools.partial(settles, builder))
    yield Case("dead outputs", functools.partial(dead_outputs, builder))
    yield Case("side effect with the name of a phony", functools.partial(side_effect, builder))
    yield Case("strange record", functools.partial(strange_record, setting.program))
    for size in (9, 100_000):
        yield Case(f"link to {size} strange bytes", functools.partial(strange_link, size, builder))
    yield Case("link to a good record", functools.partial(good_link, builder))
