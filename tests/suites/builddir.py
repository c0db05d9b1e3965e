"""Builds manifests with `builddir`, which names the folder of the record, and builds without writing a record.

The record and its lock are in the folder in which ninja has its logs: that of the value which `builddir` has at the end
of the manifest, as a table of manifests shows, by ninja if it is installed. Two manifests of one folder have a record
each. A record of earlier builds in the folder of the build is parted: the manifest's entries move, the others stay. If
a manifest is remade with another `builddir`, the build stops. ninja and plan_build build in turns.

A dry build and `-t explain` only read the record: they wait for no builder, and create and write nothing. In a folder
that may not be written, they and a build with nothing to do end well, and another build names the record.
"""
from __future__ import annotations

import functools
import os
import pathlib
import random
import shutil
import subprocess
import time
from collections.abc import Iterator, Sequence
from typing import Callable, List, Tuple

from lib import programs, records
from lib.place import Place, expect
from lib.suite import PATIENCE, Case, LeftOut, Setting, check, until
from suites.foreign import WORDS, mixed_edges, mixed_text, ninja
from suites.progress import TICK, Edge, says

NOTHING = ("ninja: no work to do.\n", "", 0)
RECORD = ".plan_record"
NOBODY = 65534
ROUNDS = 24  # of builds by both programs
KILLS = 20
OLD = 20000  # entries of other manifests
PART = 65536  # bytes of a manifest that are searched at once
MOVED = "ninja: error: 'build.ninja' has another builddir than before, with another build record; build again\n"


def text_of(edges: Sequence[Edge], front: str = "") -> str:
    """Returns a manifest of edges, after the lines of `front`. The rules have the names of the first outputs."""
    text = front
    for edge in edges:
        rule = f"rule {edge.name()}\n  command = {edge.command}\n  description = {edge.name()}\n{edge.more}"
        text += f"{rule}build {edge.outputs}: {edge.name()} {edge.inputs}\n"
    return text


def write(folder: pathlib.Path, *edges: Edge, front: str = "", name: str = "build.ninja") -> None:
    """Writes a manifest."""
    programs.write({name: text_of(edges, front)}, folder)


def made(folder: pathlib.Path) -> List[str]:
    """Returns the records and locks below a folder."""
    return sorted(str(path.relative_to(folder)) for path in folder.rglob(f"{RECORD}*"))


def recorded(path: pathlib.Path) -> List[str]:
    """Returns the outputs of a record, each once."""
    return sorted({entry.output.decode() for entry in records.entries(path.read_bytes())})


COPY = Edge("o", "cp in o", "in")
OTHER = Edge("p", "cp in p", "in")

# Manifests, each with the files that it includes, and the folder of the record.
BOUND = {
    "bound": ({"build.ninja": "builddir = b\n"}, "b"),
    "two levels": ({"build.ninja": "builddir = b/c\n"}, "b/c"),
    "not bound": ({"build.ninja": ""}, "."),
    "empty": ({"build.ninja": "builddir =\n"}, "."),
    "here": ({"build.ninja": "builddir = .\n"}, "."),
    "slash": ({"build.ninja": "builddir = b/\n"}, "b"),
    "blanks": ({"build.ninja": "builddir   =   b\n"}, "b"),
    "continued": ({"build.ninja": "builddir $\n  = $\n  b\n"}, "b"),
    "lines of DOS": ({"build.ninja": "x = 1\r\nbuilddir = b\r\n"}, "b"),
    "bound twice": ({"build.ninja": "builddir = a\nx = $builddir\nbuilddir = b\n"}, "b"),
    "expanded": ({"build.ninja": "x = b\nbuilddir = $x/c\nx = d\n"}, "b/c"),
    "in another name": ({"build.ninja": "builddirs = b\nx = builddir = b\n"}, "."),
    "part of a value": ({"build.ninja": "x = a $\nbuilddir = b\n"}, "."),
    "after a comment": ({"build.ninja": "# builddir = a\nbuilddir = b\n"}, "b"),
    "included": ({"build.ninja": "include i\n", "i": "builddir = b\n"}, "b"),
    "included by an included file": ({"build.ninja": "include i\n", "i": "include  j  \n", "j": "builddir = b\n"}, "b"),
    "included by a name": ({"build.ninja": "x = i\ninclude $x\n", "i": "builddir = b\n"}, "b"),
    "included last": ({"build.ninja": "builddir = a\ninclude i\n", "i": "builddir = b\n"}, "b"),
    "subninja": ({"build.ninja": "subninja i\n", "i": "builddir = b\n"}, "."),
    "subninja of a bound one": ({"build.ninja": "builddir = a\nsubninja i\n", "i": "builddir = b\n"}, "a"),
    "in a rule": ({"build.ninja": "rule r\n  command = $builddir\n  depfile = $builddir\n"}, "."),
    "in a block": ({"build.ninja": "rule r\n  command = touch $out\nbuild q: r\n  builddir = b\n"}, "."),
}


def bound(name: str, builder: str, folder: pathlib.Path) -> None:
    """The record, its lock and ninja's log are in one folder."""
    files, place = BOUND[name]
    texts = {**files, "in": "in\n"}
    texts["build.ninja"] += text_of([COPY])
    for path, text in texts.items():
        (folder / path).write_bytes(text.encode())
    expect("the dry build", ([], 0), (made(folder), says(builder, folder, "-n")[2]))
    expect("made by the dry build", [], made(folder))
    expect("the build", ("[1/1] o\n", "", 0), says(builder, folder, "o"))
    wanted = [str(pathlib.Path(place, RECORD)), str(pathlib.Path(place, f"{RECORD}.lock"))]
    expect("files of plan_build", wanted, made(folder))
    expect("the build after it", NOTHING, says(builder, folder, "o"))
    expect("the dry build after it", NOTHING, says(builder, folder, "-n", "o"))
    expect("status of ninja", 0, says(ninja(), folder, "o")[2])
    logs = [str(path.relative_to(folder)) for path in folder.rglob(".ninja_log")]
    expect("logs of ninja", [str(pathlib.Path(place, ".ninja_log"))], logs)


def far(builder: str, folder: pathlib.Path) -> None:
    """The variable, or the file that binds it, comes after much text, which may be one long line."""
    (folder / "in").write_text("in\n")
    (folder / "i").write_text("builddir = b\n")
    for number, line in enumerate(("builddir = b\n", "include i\n")):
        for size in (*range(PART - len(line) - 1, PART + 2), 2 * PART, 2 * PART + 5):
            for text in ("#" * (size - 1) + "\n", "#\n" * (size // 2)):
                (folder / "build.ninja").write_text(text + line + text_of([COPY]))
                says(builder, folder)
                check((folder / "b" / RECORD).exists(), f"{line!r} after {len(text)} bytes isn't found")
                shutil.rmtree(folder / "b")
        expect(f"records after {number}", [], made(folder))


def two_manifests(builder: str, folder: pathlib.Path) -> None:
    """Two manifests of one folder: each has nothing to do after the other one was built. A common output runs again."""
    (folder / "in").write_text("in\n")
    common = [Edge("c", f"echo {word} > c", "in") for word in ("one", "two")]
    write(folder, COPY, common[0], front="builddir = one\n", name="one.ninja")
    write(folder, OTHER, common[1], front="builddir = two\n", name="two.ninja")
    for name in ("one", "two"):
        expect("the first build", 0, says(builder, folder, "-f", f"{name}.ninja")[2])
        expect("outputs", sorted("c" + {"one": "o", "two": "p"}[name]), recorded(folder / name / RECORD))
        time.sleep(TICK)
    for name in ("one", "two", "one"):
        expect("the next build", ("[1/1] c\n", "", 0), says(builder, folder, "-f", f"{name}.ninja"))
        expect("the common output", f"{name}\n", (folder / "c").read_text())
        expect("the build after it", NOTHING, says(builder, folder, "-f", f"{name}.ninja"))
        time.sleep(TICK)
    for name, edge in (("one", COPY), ("two", OTHER)):
        write(folder, edge, front=f"builddir = {name}\n", name=f"{name}.ninja")
        expect("without the common one", NOTHING, says(builder, folder, "-f", f"{name}.ninja"))
    files = [f"{name}/{RECORD}{end}" for name in ("one", "two") for end in ("", ".lock")]
    expect("files of plan_build", files, made(folder))


def taken_over(builder: str, folder: pathlib.Path) -> None:
    """A record of the folder is moved when the manifest gets a `builddir`: nothing is lost, and no command runs."""
    (folder / "in").write_text("in\n")
    write(folder, COPY, OTHER)
    expect("the first build", 0, says(builder, folder)[2])
    old = (folder / RECORD).stat()
    write(folder, COPY, OTHER, front="builddir = b\n")
    expect("the dry build", NOTHING, says(builder, folder, "-n"))
    expect("reasons", ("", 0), says(builder, folder, "-t", "explain")[1:])
    expect("made by the dry build", [RECORD, f"{RECORD}.lock"], made(folder))
    expect("the next build", NOTHING, says(builder, folder))
    expect("files", [f"{RECORD}.lock", f"b/{RECORD}", f"b/{RECORD}.lock"], made(folder))
    new = (folder / "b" / RECORD).stat()
    expect("date and owner", (old.st_mtime_ns, old.st_uid, old.st_mode), (new.st_mtime_ns, new.st_uid, new.st_mode))
    (folder / "o").write_text("by hand\n")
    expect("after a hand", ("[1/1] o\n", "", 0), says(builder, folder))
    write(folder, COPY, OTHER)
    expect("without builddir", 2, says(builder, folder)[0].count("\n"))


def parted(builder: str, folder: pathlib.Path) -> None:
    """Two manifests shared a record. The entries of one of them move to its `builddir`, those of the other one stay."""
    programs.write({"in": "in\n", "h": "h\n"}, folder)
    reads = Edge("o | q", "cp in o; cp in q; echo o: h > o.d", "in", "  depfile = o.d\n")
    write(folder, reads, name="one.ninja")
    write(folder, OTHER, name="two.ninja")
    for name in ("one.ninja", "two.ninja"):
        expect("the first build", 0, says(builder, folder, "-f", name)[2])
    write(folder, reads, front="builddir = one\n", name="one.ninja")
    expect("the one that moves", NOTHING, says(builder, folder, "-f", "one.ninja"))
    expect("outputs that moved", ["o", "q"], recorded(folder / "one" / RECORD))
    expect("outputs that stay", ["p"], recorded(folder / RECORD))
    expect("the one that stays", NOTHING, says(builder, folder, "-f", "two.ninja"))
    time.sleep(TICK)
    (folder / "h").write_text("new\n")
    expect("after an edit", ("[1/1] o\n", "", 0), says(builder, folder, "-f", "one.ninja"))


def killed(builder: str, folder: pathlib.Path) -> None:
    """A builder is killed while it takes over a record: no entry is in both records, and the next build is right."""
    (folder / "in").write_text("in\n")
    write(folder, COPY, OTHER)
    expect("the first build", 0, says(builder, folder)[2])
    record, place = folder / RECORD, Place(builder, folder)
    old = record.read_bytes() + b"".join(records.spelled(b"old%d" % number) for number in range(OLD))
    write(folder, COPY, OTHER, front="builddir = b\n")
    chance, took = random.Random(1), 0.0
    try:
        for number in range(KILLS + 1):
            shutil.rmtree(folder / "b", ignore_errors=True)
            record.write_bytes(old)
            begin = time.monotonic()
            child = place.started()
            if number:
                time.sleep(chance.random() * took)
                child.kill()
            child.communicate(timeout=PATIENCE)
            took = took if number else time.monotonic() - begin
            left, new = (set(recorded(path)) if path.exists() else set() for path in (record, folder / "b" / RECORD))
            check(not left & new, f"in both records: {sorted(left & new)[:9]}")
            check("old0" in left, "an entry of another manifest is lost")
            expect("errors and status of the next build", ("", 0), says(builder, folder)[1:])
            expect("the build after it", NOTHING, says(builder, folder))
    finally:
        place.end()


def switched(builder: str, folder: pathlib.Path) -> None:
    """A manifest gets a `builddir`, another command, and loses both: its old entry doesn't count any more.

    The record of the folder is written meanwhile, for another manifest that used it too.
    """
    (folder / "in").write_text("in\n")
    for front, word in (("", "one"), ("builddir = b\n", "two"), ("", "one")):
        write(folder, Edge("o", f"echo {word} > o", "in"), front=front)
        expect("status", 0, says(builder, folder)[2])
        expect("output", f"{word}\n", (folder / "o").read_text())
        time.sleep(TICK)
        write(folder, Edge("p", f"echo {front}{word} > p".replace("\n", ""), "in"), name="two.ninja")
        expect("status of the other one", 0, says(builder, folder, "-f", "two.ninja")[2])
        time.sleep(TICK)


def nested(builder: str, folder: pathlib.Path) -> None:
    """The old record is held by the builder above this one: it stays, and the new one begins without it."""
    (folder / "in").write_text("in\n")
    write(folder, COPY)
    expect("the first build", 0, says(builder, folder)[2])
    write(folder, COPY, front="builddir = b\n")
    write(folder, Edge("call", f"{builder} > log && touch call"), name="two.ninja")
    expect("the builder above", ("[1/1] call\n", "", 0), says(builder, folder, "-f", "two.ninja"))
    expect("the one below", "[1/1] o\n", (folder / "log").read_text())
    expect("old entries", ["call", "o"], recorded(folder / RECORD))
    expect("the build after it", NOTHING, says(builder, folder))


def remade(builder: str, folder: pathlib.Path) -> None:
    """A manifest is remade with another `builddir`: the build stops, and the next one has that record."""
    def text(value: str) -> str:
        return (f"builddir = {value}\nrule g\n  command = cp next build.ninja\n  description = remake\n"
                f"build build.ninja: g next\n{text_of([COPY])}")
    programs.write({"in": "in\n", "next": text("a"), "build.ninja": text("a")}, folder)
    for value, before in (("b", "a"), ("", "b"), ("c", "")):
        expect("status of the first build", 0, says(builder, folder)[2])
        time.sleep(TICK)
        (folder / "next").write_text(text(value))
        (folder / "in").write_text(value)
        expect("the build that remakes it", ("[1/1] remake\n", MOVED, 1), says(builder, folder))
        expect("the next build", 0, says(builder, folder)[2])
        expect("output", value, (folder / "o").read_text())
        check((folder / value / RECORD).exists(), f"no record in {value}")
        expect("the build after it", NOTHING, says(builder, folder))


def unchanged(builder: str, folder: pathlib.Path) -> None:
    """A manifest is remade with the same `builddir`: the build goes on."""
    text = (f"builddir = b\nrule g\n  command = cp next build.ninja && touch build.ninja\n  description = remake\n"
            f"build build.ninja: g next\n{text_of([COPY])}")
    programs.write({"in": "in\n", "next": text, "build.ninja": text}, folder)
    expect("status of the first build", 0, says(builder, folder)[2])
    time.sleep(TICK)
    (folder / "next").touch()
    (folder / "in").write_text("new\n")
    printed, errors, status = says(builder, folder)
    expect("errors and status", ("", 0), (errors, status))
    expect("output", "new\n", (folder / "o").read_text())


def tools(builder: str, folder: pathlib.Path) -> None:
    """The tools of the record use that of `builddir`."""
    (folder / "in").write_text("in\n")
    write(folder, COPY, OTHER, front="builddir = b\n")
    expect("the first build", 0, says(builder, folder)[2])
    record = folder / "b" / RECORD
    expect("recompact", ("", "", 0), says(builder, folder, "-t", "recompact"))
    expect("entries", 2, len(list(records.entries(record.read_bytes()))))
    time.sleep(TICK)
    (folder / "o").write_text("by hand\n")
    expect("reasons", 1, says(builder, folder, "-t", "explain")[1].count("o was changed"))
    expect("restat", ("", "", 0), says(builder, folder, "-t", "restat"))
    expect("the build after it", NOTHING, says(builder, folder))
    write(folder, COPY, front="builddir = b\n")
    expect("cleandead", 0, says(builder, folder, "-t", "cleandead")[2])
    expect("dead and living", (False, True), ((folder / "p").exists(), (folder / "o").exists()))
    expect("files", [f"b/{RECORD}", f"b/{RECORD}.lock"], made(folder))
    (folder / "build.ninja").unlink()
    expect("restat without a manifest", ("", "", 0), says(builder, folder, "-t", "restat"))


def not_a_folder(builder: str, folder: pathlib.Path) -> None:
    """A file has the name of the folder."""
    programs.write({"in": "in\n", "b": "file\n"}, folder)
    write(folder, COPY, front="builddir = b/c\n")
    said = says(builder, folder)
    expect("status and errors", ("", "ninja: error: creating build directory b/c: Not a directory\n", 1), said)
    expect("status of ninja", 1, says(ninja(), folder)[2])


def lost_output(builder: str, folder: pathlib.Path) -> None:
    """plan_build's command fails after it has written. ninja must not take the output for its own."""
    other = ninja()
    (folder / "in").write_text("in\n")
    for text in ("in\n", "new\n"):
        (folder / "in").write_text(text)
        write(folder, COPY, front="builddir = b\n")
        expect("status of ninja", 0, says(other, folder)[2])
        expect("output", text, (folder / "o").read_text())
        time.sleep(TICK)
        write(folder, Edge("o", "echo half > o; false", "in"), front="builddir = b\n")
        expect("status of plan_build", 1, says(builder, folder)[2])
        time.sleep(TICK)
    write(folder, COPY, front="builddir = b\n")
    expect("status of ninja", 0, says(other, folder)[2])
    expect("output", "new\n", (folder / "o").read_text())


def unmarked(builder: str, folder: pathlib.Path) -> None:
    """plan_build had its record in the folder, and didn't mark an output in ninja's log that another command made."""
    other = ninja()
    (folder / "in").write_text("in\n")
    write(folder, COPY, front="builddir = b\n")
    expect("status of ninja", 0, says(other, folder)[2])
    time.sleep(TICK)
    write(folder, Edge("o", "echo other > o", "in"))
    expect("status of plan_build", 0, says(builder, folder)[2])
    write(folder, Edge("o", "echo other > o", "in"), front="builddir = b\n")
    expect("the record moves", NOTHING, says(builder, folder))
    write(folder, COPY, front="builddir = b\n")
    expect("status of ninja", 0, says(other, folder)[2])
    expect("output", "in\n", (folder / "o").read_text())


def mixed(count: int, seed: int, builder: str, folder: pathlib.Path) -> None:
    """Both programs build in turns, after random edits of sources, command lines and `builddir`."""
    programs_ = (builder, ninja())
    any_ = random.Random(seed)
    words, names, front = ["a"] * WORDS, ["h0", "h1"], "builddir = b\n"
    for name in ("i0", "i1", "i2", "h0", "h1"):
        (folder / name).write_text("0\n")
    for name in ("which", "other"):
        (folder / name).write_text("h0\n")
    for number in range(count):
        time.sleep(0.02)
        for name in ("i0", "i1", "i2", "h0", "h1"):
            if any_.random() < 0.2:
                (folder / name).write_text(f"{number // 4}\n")
        at = any_.randrange(WORDS)
        words[at] = any_.choice("ab")
        if any_.random() < 0.2:
            (folder / any_.choice("opredf")).unlink(missing_ok=True)
        edges = mixed_edges(words, names)
        program = any_.choice(programs_)
        if any_.random() < 0.2:
            edges_failing = tuple(edge._replace(command=f"{edge.command}; false") for edge in edges)
            write(folder, *edges_failing, front=front)
            says(builder, folder, "-k", "0")
            time.sleep(0.02)
        write(folder, *edges, front=front)
        expect(f"errors and status of round {number}", ("", 0), says(program, folder)[1:])
        expect(f"outputs of round {number}", mixed_text(words, names, folder), (folder / "all").read_text())
        if program == builder:
            expect(f"the build after round {number}", NOTHING, says(builder, folder))


# ---- builds that only read the record

READING: Tuple[Tuple[str, ...], ...] = (("-n",), ("-n", "-d", "explain"), ("-t", "explain"))
GATE = Edge("g", "touch begun; while ! [ -e go ]; do sleep 0.02; done; cp in g", "in")


def state(folder: pathlib.Path) -> List[Tuple[str, int, bytes]]:
    """Returns the files of a folder with their dates and contents."""
    return sorted((str(path.relative_to(folder)), path.stat().st_mtime_ns, path.read_bytes() if path.is_file() else b"")
                  for path in folder.rglob("*"))


def reads_beside_a_build(words: Tuple[str, ...], builder: str, folder: pathlib.Path) -> None:
    """A dry build doesn't wait for the build that runs, and changes nothing."""
    (folder / "in").write_text("in\n")
    write(folder, COPY, GATE)
    expect("the first build", 0, says(builder, folder, "o")[2])
    place = Place(builder, folder)
    try:
        first = place.started("g")
        until((folder / "begun").exists, "the command doesn't begin")
        before = state(folder)
        begin = time.monotonic()
        printed, _, status = says(builder, folder, *words)
        check(time.monotonic() - begin < PATIENCE / 2, "it waited")
        expect("status and label", (0, "[1/1] g"), (status, printed.splitlines()[0]))
        expect("what is there", before, state(folder))
        expect("the build runs", None, first.poll())
        (folder / "go").touch()
        expect("status of the build", 0, first.wait(PATIENCE))
    finally:
        place.end()
    expect("the build after it", NOTHING, says(builder, folder))


def reads_nothing(words: Tuple[str, ...], builder: str, folder: pathlib.Path) -> None:
    """Without a record, a dry build creates none."""
    (folder / "in").write_text("in\n")
    write(folder, COPY, front="builddir = b\n")
    before = state(folder)
    printed, _, status = says(builder, folder, *words)
    expect("label and status", ("[1/1] o", 0), (printed.splitlines()[0], status))
    expect("what is there", before, state(folder))


def reads_torn(builder: str, folder: pathlib.Path) -> None:
    """A record that another builder is appending to, and one that has grown, are read as they are."""
    (folder / "in").write_text("in\n")
    write(folder, COPY)
    expect("the first build", 0, says(builder, folder)[2])
    path = folder / RECORD
    for more in (records.spelled(b"o")[:9], records.spelled(b"old") * 400, records.spelled(b"old") * 4000 + b"\0"):
        whole, found = path.read_bytes(), path.stat()
        path.write_bytes(whole + more)
        os.utime(path, ns=(found.st_atime_ns, found.st_mtime_ns))
        before = state(folder)
        for words in READING[:2]:
            expect("the dry build", NOTHING, says(builder, folder, *words))
        expect("what is there", before, state(folder))
        path.write_bytes(whole)
        os.utime(path, ns=(found.st_atime_ns, found.st_mtime_ns))


def reads_the_future(builder: str, folder: pathlib.Path) -> None:
    """A command dates its output in the future: a dry build has nothing to do, as the build that it stands for."""
    (folder / "in").write_text("in\n")
    write(folder, Edge("o", "cp in o && touch -d '+1 hour' o", "in"))
    expect("the first build", 0, says(builder, folder)[2])
    expect("the dry build", NOTHING, says(builder, folder, "-n"))
    expect("the build", NOTHING, says(builder, folder))


# ---- folders that may not be written

def as_nobody(builder: str, folder: pathlib.Path, *words: str) -> Tuple[str, str, int]:
    """Runs a builder that may not write into its folder, as another user if this one may write everywhere."""
    other = {"user": NOBODY, "group": NOBODY, "extra_groups": []} if os.geteuid() == 0 else {}
    try:
        done = subprocess.run([builder, *words], cwd=folder, stdin=subprocess.DEVNULL, capture_output=True,
                              timeout=programs.SECONDS, **other)
    except (PermissionError, TypeError):  # Python 3.8 can't run a program as another user
        raise LeftOut("another user may not run the program") from None
    return done.stdout.decode(), done.stderr.decode(), done.returncode


def close(folder: pathlib.Path, writing: bool) -> None:
    """Lets everybody read a folder and what is in it, and lets their owner write them, or nobody."""
    for path in folder.rglob("*"):
        path.chmod((0o755 if writing else 0o555) if path.is_dir() else 0o644 if writing else 0o444)
    folder.chmod(0o755 if writing else 0o555)


def read_only(front: str, gone: Sequence[str], builder: str, folder: pathlib.Path) -> None:
    """Dry builds, tools and a build with nothing to do end well. A command isn't started, for a reason that is told."""
    place = folder / "b" if front else folder
    (folder / "in").write_text("in\n")
    write(folder, COPY, front=front)
    expect("the first build", 0, says(builder, folder)[2])
    time.sleep(TICK)
    for name in gone:
        (place / name).unlink()
    close(folder, False)
    try:
        before = state(folder)
        nothing = NOTHING if RECORD not in gone else ("[1/1] o\n", "", 0)
        for words in (*READING[:1], *(() if RECORD in gone else ((),))):
            expect(f"{words}", nothing, as_nobody(builder, folder, *words))
        expect("reasons", 0, as_nobody(builder, folder, "-t", "explain")[2])
        for words in (("-t", "targets"), ("-t", "commands"), ("-t", "compdb"), ("-t", "cleandead"),
                      ("-n", "-t", "cleandead")):
            expect(f"{words}", ("", 0), as_nobody(builder, folder, *words)[1:])
        close(folder, True)
        (folder / "in").write_text("new\n")
        close(folder, False)
        before = state(folder)
        printed, errors, status = as_nobody(builder, folder)
        told = (f"plan_ninja: can't write {folder.resolve()}/{'b/' if front else ''}{RECORD}: permission denied\n"
                "plan_ninja: can't start the command of o: permission denied\n")
        expect("errors and status", (told, 1), (errors, status))
        expect("output", "in\n", (folder / "o").read_text())
        expect("what is there", before, state(folder))
    finally:
        close(folder, True)


def cases(setting: Setting) -> Iterator[Case]:
    """Yields the manifests, records that move, builds by ninja, and builds that only read."""
    builder = programs.front(setting.program)
    for name in BOUND:
        yield Case(name, functools.partial(bound, name, builder))
    checks: Sequence[Callable[[str, pathlib.Path], None]] = (
        far, two_manifests, taken_over, parted, killed, switched, nested, remade, unchanged, tools, not_a_folder,
        lost_output, unmarked, reads_torn, reads_the_future)
    for one in checks:
        yield Case(one.__name__, functools.partial(one, builder))
    for seed in range(setting.seed, setting.seed + 3):
        yield Case(f"mixed rounds {seed}", functools.partial(mixed, setting.counted(ROUNDS), seed, builder))
    for words in READING:
        yield Case(f"{' '.join(words)} beside a build", functools.partial(reads_beside_a_build, words, builder))
        yield Case(f"{' '.join(words)} without a record", functools.partial(reads_nothing, words, builder))
    lock = f"{RECORD}.lock"
    for front in ("", "builddir = b\n"):
        for gone in ((), (lock,), (RECORD,), (RECORD, lock)):
            name = f"read-only folder {front.strip()} without {' and '.join(gone) or 'nothing'}"
            yield Case(name, functools.partial(read_only, front, gone, builder))
