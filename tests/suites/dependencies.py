"""Builds edges whose depfiles aren't as their entries say, and depfiles that are removed.

A depfile is added to a rule, is missing, is empty, or was written by something other than its edge's command. Or it was
removed after it was read, and the next command fails or writes none. After each build the output has what its sources
have, and the build after that has nothing to do. The cases that ninja has too are also run by ninja, if it is
installed.
"""
from __future__ import annotations

import functools
import os
import pathlib
import random
import shutil
import time
from collections.abc import Callable, Iterator, Sequence
from typing import Tuple

from lib import programs
from lib.place import expect
from lib.suite import Case, Setting, check
from suites.progress import TICK, Edge, says, write

NOTHING = ("ninja: no work to do.\n", "", 0)
GENERATOR = "  generator = 1\n"
DEPFILE = "  depfile = o.d\n"
DEPS = DEPFILE + "  deps = gcc\n"
ROUNDS = 30  # of builds by both programs, with changed depfiles
GROWTH = 60  # a record of this many times its entries is compacted
READS = "cat s h > o; echo o: h > o.d"


def begun(program: str, folder: pathlib.Path, *edges: Edge) -> None:
    """Writes a tree with two sources, and builds it."""
    programs.write({"s": "s\n", "h": "one\n"}, folder)
    remade(program, folder, *edges)


def remade(program: str, folder: pathlib.Path, *edges: Edge) -> None:
    """Writes another manifest, and builds it. The build after that has nothing to do."""
    write(folder, edges)
    rebuilt(program, folder)


def rebuilt(program: str, folder: pathlib.Path) -> None:
    """Builds. The build after that has nothing to do."""
    expect("status", 0, says(program, folder)[2])
    expect("the build after it", NOTHING, says(program, folder))
    time.sleep(TICK)


def edited(program: str, folder: pathlib.Path, name: str = "h") -> None:
    """Edits a source that only the depfile names, and builds. The output has the edit."""
    (folder / name).write_text("two\n")
    rebuilt(program, folder)
    expect("output", "two\n", (folder / "o").read_text()[-4:])


def added(more: str, program: str, folder: pathlib.Path) -> None:
    """A depfile that the command wrote all along is added to its rule."""
    begun(program, folder, Edge("o", READS, "s"))
    remade(program, folder, Edge("o", READS, "s", more))
    edited(program, folder)


def added_later(spoil: Callable[[pathlib.Path], None], program: str, folder: pathlib.Path) -> None:
    """A depfile with `deps` is added to the rule of a command that wrote one, which is gone or empty now."""
    begun(program, folder, Edge("o", READS, "s"))
    spoil(folder / "o.d")
    remade(program, folder, Edge("o", READS, "s", DEPS))
    edited(program, folder)


def gained(more: str, program: str, folder: pathlib.Path) -> None:
    """A generator, whose command isn't compared, gains a depfile with its command."""
    begun(program, folder, Edge("o", "cat s h > o", "s", GENERATOR))
    remade(program, folder, Edge("o", READS, "s", GENERATOR + more))
    edited(program, folder)


def removed(program: str, folder: pathlib.Path) -> None:
    """A depfile that stands for itself is removed."""
    begun(program, folder, Edge("o", READS, "s", DEPFILE))
    (folder / "o.d").unlink()
    expect("status", 0, says(program, folder)[2])
    expect("depfile", "o: h\n", (folder / "o.d").read_text())
    edited(program, folder)


def emptied(program: str, folder: pathlib.Path) -> None:
    """A depfile that stands for itself is emptied."""
    begun(program, folder, Edge("o", READS, "s", DEPFILE))
    (folder / "o.d").write_text("")
    expect("status", 0, says(program, folder)[2])
    expect("depfile", "o: h\n", (folder / "o.d").read_text())
    edited(program, folder)


def never_written(write_empty: str, program: str, folder: pathlib.Path) -> None:
    """A command leaves no depfile, or an empty one. It runs in each build."""
    programs.write({"s": "s\n"}, folder)
    write(folder, (Edge("o", f"cat s > o{write_empty}", "s", DEPFILE),))
    for number in range(3):
        expect(f"build {number}", ("[1/1] o\n", "", 0), says(program, folder))


def not_written(program: str, folder: pathlib.Path) -> None:
    """A command with `deps` leaves no depfile. It counts as empty."""
    begun(program, folder, Edge("o", "cat s h > o", "s h", DEPS))
    edited(program, folder)


def named_nothing(more: str, program: str, folder: pathlib.Path) -> None:
    """A depfile names nothing: its edge has nothing to do."""
    begun(program, folder, Edge("o", "cat s h > o; echo o: > o.d", "s h", more))
    edited(program, folder)


def by_hand(program: str, folder: pathlib.Path) -> None:
    """A hand adds a source to a depfile that stands for itself."""
    programs.write({"k": "one\n"}, folder)
    begun(program, folder, Edge("o", "cat s h k > o; test -e o.d || echo o: h > o.d", "s", DEPFILE))
    (folder / "o.d").write_text("o: h k\n")
    rebuilt(program, folder)
    edited(program, folder, "k")


def by_another_edge(program: str, folder: pathlib.Path) -> None:
    """Another edge makes a depfile. The build after the one in which it names another source sees that."""
    programs.write({"k": "one\n", "list": "h\n"}, folder)
    begun(program, folder, Edge("o.d", "echo o: $$(cat list) > o.d", "list"),
          Edge("o", "cat s h k > o", "s || o.d", DEPFILE))
    (folder / "list").write_text("h k\n")
    expect("status", 0, says(program, folder)[2])
    rebuilt(program, folder)
    edited(program, folder, "k")


def touched(builder: str, folder: pathlib.Path) -> None:
    """A depfile is touched. It names what the entry names, so there is nothing to do."""
    begun(builder, folder, Edge("o", READS, "s", DEPFILE))
    os.utime(folder / "o.d")
    expect("the build after it", NOTHING, says(builder, folder))
    edited(builder, folder)


def explained(builder: str, folder: pathlib.Path) -> None:
    """Dry builds list commands whose entries don't count, and the reasons are shown."""
    for text, reason in (("", "is empty"), ("o: k\n", "names files that the last build didn't read"),
                         ("o h\n", "can't be read"), (None, "is missing")):
        programs.write({"k": "k\n"}, folder)
        begun(builder, folder, Edge("o", READS, "s", DEPFILE))
        if text is None:
            (folder / "o.d").unlink()
        else:
            (folder / "o.d").write_text(text)
        expect(f"dry build with {text!r}", ("[1/1] o\n", "", 0), says(builder, folder, "-n"))
        errors = says(builder, folder, "-d", "explain")[1]
        expect(f"reason with {text!r}", f"ninja explain: o: o.d {reason}\n", errors)


def committed(builder: str, folder: pathlib.Path) -> None:
    """A header that was generated before is a source now: `-t cleandead` leaves it, and removes other dead outputs."""
    begun(builder, folder, Edge("h", "echo one > h", "s"), Edge("k", "echo k > k", "s"),
          Edge("o", READS, "s || h k", DEPS))
    write(folder, (Edge("o", READS, "s", DEPS),))
    expect("status of the tool", ("Cleaning... 1 files.\n", "", 0), says(builder, folder, "-t", "cleandead"))
    expect("dead output", False, (folder / "k").exists())
    expect("the build after it", NOTHING, says(builder, folder))
    edited(builder, folder)


def not_dead(builder: str, folder: pathlib.Path) -> None:
    """A depfile that names nothing has an entry in the record, but `-t cleandead` leaves it."""
    begun(builder, folder, Edge("o", "cat s > o; echo o: > o.d", "s", DEPS))
    expect("the tool", ("Cleaning... 0 files.\n", "", 0), says(builder, folder, "-t", "cleandead"))
    expect("depfile", "o:\n", (folder / "o.d").read_text())
    expect("the build after it", NOTHING, says(builder, folder))


def compacted(words: Tuple[str, ...], builder: str, folder: pathlib.Path) -> None:
    """A hand writes an output. Its command runs, although the record was compacted meanwhile."""
    begun(builder, folder, Edge("o", "cat s > o", "s"), Edge("p", "cat s > p", "s"))
    record = folder / ".plan_record"
    record.write_bytes(record.read_bytes() * GROWTH)
    grown = record.stat().st_size
    time.sleep(TICK)
    (folder / "o").write_text("by hand\n")
    time.sleep(TICK)
    expect("status", 0, says(builder, folder, *words)[2])
    check(record.stat().st_size < grown, "the record wasn't compacted")
    rebuilt(builder, folder)
    expect("output", "s\n", (folder / "o").read_text())


# ---- depfiles with `deps` are removed once they were read

def written_no_more(more: str, program: str, folder: pathlib.Path) -> None:
    """A command writes no depfile any more. The header that its old depfile named is gone."""
    begun(program, folder, Edge("o", READS, "s", DEPS + more))
    (folder / "h").unlink()
    remade(program, folder, Edge("o", "cat s > o", "s", DEPS + more))
    (folder / "s").write_text("t\n")
    rebuilt(program, folder)
    expect("output", "t\n", (folder / "o").read_text())


def written_if_changed(program: str, folder: pathlib.Path) -> None:
    """A command leaves a depfile that is as it would write it. Its headers aren't lost."""
    begun(program, folder, Edge("o", "cat s h > o; echo o: h > n; cmp -s n o.d || cp n o.d", "s", DEPS))
    (folder / "s").write_text("t\n")
    rebuilt(program, folder)
    edited(program, folder)


def removed_once_read(program: str, folder: pathlib.Path) -> None:
    """A depfile with `deps` is removed, unless `-d keepdepfile` is given. Another one stays."""
    for more, words, stays in ((DEPS, (), False), (DEPS, ("-d", "keepdepfile"), True), (DEPFILE, (), True),
                               (DEPS, ("-d", "keepdepfile", "-d", "explain"), True)):
        programs.write({"s": f"{more}{words}\n", "h": "one\n"}, folder)
        write(folder, (Edge("o", READS, "s", more),))
        expect(f"status with {words}", 0, says(program, folder, *words)[2])
        expect(f"depfile with {words}", stays, (folder / "o.d").exists())
        time.sleep(TICK)


def dry_builds(program: str, folder: pathlib.Path) -> None:
    """A dry build removes no depfile, as it does with ninja."""
    programs.write({"s": "s\n", "h": "one\n"}, folder)
    write(folder, (Edge("o", READS, "s", DEPS),))
    expect("status", 0, says(program, folder, "-d", "keepdepfile")[2])
    for words in (("-n",), ("-n", "o"), ("-t", "commands"), ("-t", "targets")):
        expect(f"status of {words}", 0, says(program, folder, *words)[2])
    time.sleep(TICK)
    (folder / "h").write_text("two\n")
    expect("list", ("[1/1] o\n", 0), says(program, folder, "-n")[::2])
    expect("depfile", "o: h\n", (folder / "o.d").read_text())


def needed(builder: str, folder: pathlib.Path) -> None:
    """A depfile stays if an edge makes it or uses it, also as an input of another kind. ninja removes it."""
    write(folder, ())
    uses = (("o | o.d", "", "o.d"), ("o", "build o.d: phony\n", "o.d"), ("o | o.d", "", "| o.d"),
            ("o | o.d", "", "|| o.d"))
    for number, (outputs, line, inputs) in enumerate(uses):
        place = folder / str(number)
        place.mkdir()
        programs.write({"s": "s\n", "h": "one\n", "o.d": "o: h\n"}, place)
        write(place, (Edge(outputs, READS, "s", DEPS), Edge("p", "cat o > p", f"o {inputs}")))
        with open(place / "build.ninja", "a", encoding="utf-8") as manifest:
            manifest.write(line)
        expect(f"status of {number}", 0, says(builder, place)[2])
        expect(f"depfile of {number}", "o: h\n", (place / "o.d").read_text())


def shared(builder: str, folder: pathlib.Path) -> None:
    """The depfile of an edge with `deps` is also that of an edge without: it stays."""
    begun(builder, folder, Edge("o", READS, "s", DEPS), Edge("p", "cat s h > p", "s || o", DEPFILE))
    expect("depfile", "o: h\n", (folder / "o.d").read_text())
    edited(builder, folder)


def linked(builder: str, folder: pathlib.Path) -> None:
    """A link and a device stay."""
    (folder / "o.d").symlink_to("real")
    begun(builder, folder, Edge("o", READS, "s", DEPS), Edge("p", "cat s > p", "s", DEPS.replace("o.d", "/dev/null")))
    expect("link", True, (folder / "o.d").is_symlink())
    expect("device", True, pathlib.Path("/dev/null").is_char_device())
    edited(builder, folder)


def malformed(builder: str, folder: pathlib.Path) -> None:
    """A malformed depfile stays, so that it can be looked at."""
    programs.write({"s": "s\n", "h": "one\n"}, folder)
    write(folder, (Edge("o", "cat s > o; echo o h > o.d", "s", DEPS),))
    expect("status", 1, says(builder, folder)[2])
    expect("depfile", "o h\n", (folder / "o.d").read_text())


def not_kept(builder: str, folder: pathlib.Path) -> None:
    """The entry of a command can't be kept. Its depfile stays, and the next build waits for its header."""
    copies = Edge("h", "sleep 0.2; cat i > h", "i")
    programs.write({"s": "s\n", "i": "one\n"}, folder)
    write(folder, (Edge("o", "cat s h > o; echo o: h > o.d; test -e ok || rm .plan_record", "s", DEPS), copies))
    expect("status of the header", 0, says(builder, folder, "h")[2])
    expect("status", 1, says(builder, folder)[2])
    expect("depfile", "o: h\n", (folder / "o.d").read_text())
    time.sleep(TICK)
    programs.write({"ok": "", "i": "two\n"}, folder)
    expect("status of the second build", 0, says(builder, folder, "-j4")[2])
    expect("output", "s\ntwo\n", (folder / "o").read_text())
    expect("the build after it", NOTHING, says(builder, folder))


# ---- a command waits for the headers that an earlier one read, although its depfile is gone

MAKES_HEADER = Edge("h", "sleep 0.2; cat i > h", "i")


def fails(command: str, count: int, program: str, folder: pathlib.Path) -> None:
    """A command that read a generated header fails this many times, or is stopped. Then it waits for the header."""
    programs.write({"s": "s\n", "i": "one\n", "ok": ""}, folder)
    write(folder, (Edge("o", f"test -e ok || {command}; sleep 0.05; {READS}", "s", DEPS), MAKES_HEADER))
    expect("status of the header", 0, says(program, folder, "h")[2])
    rebuilt(program, folder)
    (folder / "ok").unlink()
    for number in range(count):
        (folder / "s").write_text(f"{number}\n")
        check(says(program, folder)[2] != 0, "the command didn't fail")
        time.sleep(TICK)
    programs.write({"ok": "", "i": "two\n"}, folder)
    expect("status", 0, says(program, folder, "-j4", "o")[2])
    expect("output", f"{count - 1}\ntwo\n", (folder / "o").read_text())
    expect("the build after it", NOTHING, says(program, folder))


def reads_more(builder: str, folder: pathlib.Path) -> None:
    """A command that failed has written a depfile with a further header. The next one waits for both."""
    programs.write({"s": "s\n", "i": "one\n", "j": "j\n", "ok": ""}, folder)
    makes = (MAKES_HEADER, Edge("k", "sleep 0.2; cat j > k", "j"))
    write(folder, (Edge("o", READS, "s", DEPS), *makes))
    expect("status of the headers", 0, says(builder, folder, "h", "k")[2])
    rebuilt(builder, folder)
    (folder / "ok").unlink()
    write(folder, (Edge("o", "cat s h k > o; echo o: k > o.d; test -e ok", "s", DEPS), *makes))
    expect("status of the failure", 1, says(builder, folder)[2])
    time.sleep(TICK)
    programs.write({"ok": "", "i": "two\n", "j": "three\n"}, folder)
    expect("status", 0, says(builder, folder, "-j4", "o")[2])
    expect("output", "s\ntwo\nthree\n", (folder / "o").read_text())


def ended(builder: str, folder: pathlib.Path) -> None:
    """A hand writes an output, and a build doesn't reach it. The command of the next build waits for its header."""
    programs.write({"s": "s\n", "i": "one\n"}, folder)
    write(folder, (Edge("o", f"sleep 0.05; {READS}", "s", DEPS), MAKES_HEADER, Edge("p", "cat s > p", "s")))
    expect("status of the header", 0, says(builder, folder, "h")[2])
    rebuilt(builder, folder)
    (folder / "o").write_text("by hand\n")
    (folder / "p").unlink()
    time.sleep(TICK)
    expect("status of the other target", 0, says(builder, folder, "p")[2])
    time.sleep(TICK)
    (folder / "i").write_text("two\n")
    expect("status", 0, says(builder, folder, "-j4", "o")[2])
    expect("output", "s\ntwo\n", (folder / "o").read_text())
    expect("the build after it", NOTHING, says(builder, folder))


def branches(builder: str, folder: pathlib.Path) -> None:
    """Another branch makes the output as its second one. Back on the first one, its command waits for its header."""
    programs.write({"s": "s\n", "i": "one\n"}, folder)
    first = (Edge("o | q", f"cat s > q; sleep 0.05; {READS}", "s", DEPS), MAKES_HEADER)
    write(folder, first)
    expect("status of the header", 0, says(builder, folder, "h")[2])
    rebuilt(builder, folder)
    remade(builder, folder, Edge("q", "cat s > q", "s"), MAKES_HEADER)
    (folder / "i").write_text("two\n")
    write(folder, first)
    expect("status", 0, says(builder, folder, "-j4", "o")[2])
    expect("output", "s\ntwo\n", (folder / "o").read_text())
    expect("the build after it", NOTHING, says(builder, folder))


def dry_list(builder: str, folder: pathlib.Path) -> None:
    """After a failure a dry build knows the header that the start entry keeps."""
    programs.write({"s": "s\n", "i": "one\n", "ok": ""}, folder)
    write(folder, (Edge("o", f"test -e ok || exit 1; {READS}", "s", DEPS), MAKES_HEADER))
    expect("status of the header", 0, says(builder, folder, "h")[2])
    rebuilt(builder, folder)
    (folder / "ok").unlink()
    (folder / "s").write_text("t\n")
    expect("status of the failure", 1, says(builder, folder)[2])
    time.sleep(TICK)
    programs.write({"ok": "", "i": "two\n"}, folder)
    expect("list", ("[1/2] h\n[2/2] o\n", "", 0), says(builder, folder, "-n", "o"))


class Readers:
    """Objects that read a generated header or none, by a command that fails at times. All have `deps`."""

    def __init__(self, seed: int, builder: str, folder: pathlib.Path) -> None:
        self.any = random.Random(seed)
        self.builder, self.folder = builder, folder
        self.other = shutil.which("ninja")
        self.reads = [True] * 4
        programs.write({"s": "0\n", "i0": "0\n", "i1": "0\n", "ok": ""}, folder)
        self.write()
        expect("status of the headers", 0, says(builder, folder, "h0", "h1")[2])

    def write(self) -> None:
        """Writes the manifest. An object that reads no header writes no depfile."""
        edges = [Edge(f"h{number}", f"sleep 0.05; cat i{number} > $out", f"i{number}") for number in range(2)]
        for number, reads in enumerate(self.reads):
            header = f"h{number % 2}"
            command = f"cat s {header} > $out; echo $out: {header} > $out.d" if reads else "cat s > $out"
            edges.append(Edge(f"o{number}", f"test -e ok && {{ {command}; }}", "s",
                              "  depfile = $out.d\n  deps = gcc\n"))
        write(self.folder, edges)

    def change(self, number: int) -> bool:
        """Edits sources, or lets further commands read headers and runs them. Returns whether it edited any.

        No builder knows of a header that a command reads for the first time, so the headers are up to date then.
        """
        if self.any.random() < 0.2:
            expect("status of the headers", 0, says(self.builder, self.folder, "h0", "h1")[2])
            self.reads = [reads or self.any.random() < 0.5 for reads in self.reads]
            self.write()
            expect("status of further readers", 0, says(self.builder, self.folder)[2])
            return False
        for name in ("s", "i0", "i1"):
            if self.any.random() < 0.4:
                (self.folder / name).write_text(f"{number}\n")
        self.reads = [reads and self.any.random() < 0.8 for reads in self.reads]
        self.write()
        return True

    def fail(self) -> None:
        """Builds while commands fail. Depfiles of failed commands may be gone, as clang removes them."""
        (self.folder / "ok").unlink()
        says(self.any.choice((self.builder, self.other or self.builder)), self.folder, "-k0", "o0", "o1", "o2", "o3")
        for number in range(4):
            if self.any.random() < 0.5:
                (self.folder / f"o{number}.d").unlink(missing_ok=True)
        (self.folder / "ok").write_text("")

    def build(self, when: str) -> None:
        """Builds, and checks the objects."""
        program = self.any.choice((self.builder, self.builder, self.other or self.builder))
        expect(f"status of {when}", 0, says(program, self.folder, "-j4")[2])
        for number, reads in enumerate(self.reads):
            text = (self.folder / "s").read_text() + ((self.folder / f"i{number % 2}").read_text() if reads else "")
            if program == self.builder:
                expect(f"o{number} of {when}", text, (self.folder / f"o{number}").read_text())
        if program == self.builder:
            expect(f"the build after {when}", NOTHING, says(program, self.folder))


def readers(count: int, seed: int, builder: str, folder: pathlib.Path) -> None:
    """Commands read generated headers, write no depfile any more, and fail, between builds by both programs."""
    tree = Readers(seed, builder, folder)
    for number in range(count):
        tree.build(f"round {number}")
        time.sleep(TICK)
        if tree.change(number) and tree.any.random() < 0.4:
            tree.fail()
            time.sleep(TICK)
            (folder / "i0").write_text(f"{count + number}\n")


def spoilt(any_: random.Random, depfile: pathlib.Path, header: str) -> None:
    """Removes, empties, touches or rewrites a depfile, or leaves it as it is. What it names stays true."""
    how = any_.choice(("", "", "removed", "emptied", "touched", "longer"))
    if how == "removed":
        depfile.unlink(missing_ok=True)
    elif how == "emptied":
        depfile.write_text("")
    elif how == "touched" and depfile.exists():
        os.utime(depfile)
    elif how == "longer":
        depfile.write_text(f"{depfile.name[:-2]}: s {header}\n")


def random_edges(lines: Sequence[str]) -> Sequence[Edge]:
    """Returns edges that read a source and a header each. Their commands always write depfiles."""
    return [Edge(f"o{number}", f"cat s h{number} > $out; echo $out: h{number} > $out.d", "s", more)
            for number, more in enumerate(lines)]


def rounds(count: int, seed: int, builder: str, folder: pathlib.Path) -> None:
    """Lines `depfile` and `deps` come and go, and depfiles change, between builds by both programs.

    When all edges have a depfile, each build is right, and the next one by plan_build has nothing to do.
    """
    any_, other = random.Random(seed), shutil.which("ninja")
    kinds = ("", "  depfile = $out.d\n", "  depfile = $out.d\n  deps = gcc\n")
    lines = [kinds[0]] * 3
    programs.write({"s": "0\n", "h0": "0\n", "h1": "0\n", "h2": "0\n"}, folder)
    for number in range(count):
        time.sleep(TICK)
        for name in ("s", "h0", "h1", "h2"):
            if any_.random() < 0.3:
                (folder / name).write_text(f"{number}\n")
        for at, _ in enumerate(lines):
            if any_.random() < 0.4:
                lines[at] = any_.choice(kinds[number % 2:])
            spoilt(any_, folder / f"o{at}.d", f"h{at}")
            if any_.random() < 0.1:
                (folder / f"o{at}").unlink(missing_ok=True)
        write(folder, random_edges(lines))
        program = any_.choice((builder, other or builder))
        when = f"round {number} by {program}"
        expect(f"status of {when}", 0, says(program, folder)[2])
        if all(lines):
            right(when, folder)
            if program == builder:
                expect(f"the build after {when}", NOTHING, says(builder, folder))


def right(when: str, folder: pathlib.Path) -> None:
    """Checks the outputs of the random edges."""
    for number in range(3):
        text = (folder / "s").read_text() + (folder / f"h{number}").read_text()
        expect(f"o{number} of {when}", text, (folder / f"o{number}").read_text())


def by_both(case: Callable[[str, pathlib.Path], None], builder: str, folder: pathlib.Path) -> None:
    """Runs a case with each program."""
    for name, program in (("own", builder), ("other", shutil.which("ninja"))):
        if program:
            (folder / name).mkdir()
            case(program, folder / name)


BOTH: Tuple[Tuple[str, Callable[[str, pathlib.Path], None]], ...] = (
    ("depfile is added", functools.partial(added, DEPFILE)),
    ("depfile with deps is added", functools.partial(added, DEPS)),
    ("removed depfile is added", functools.partial(added_later, pathlib.Path.unlink)),
    ("emptied depfile is added", functools.partial(added_later, lambda path: os.truncate(path, 0))),
    ("generator gains a depfile", functools.partial(gained, DEPFILE)),
    ("generator gains a depfile with deps", functools.partial(gained, DEPS)),
    ("depfile is removed", removed),
    ("depfile is emptied", emptied),
    ("no depfile is written", functools.partial(never_written, "")),
    ("empty depfile is written", functools.partial(never_written, "; : > o.d")),
    ("no depfile is written with deps", not_written),
    ("depfile names nothing", functools.partial(named_nothing, DEPFILE)),
    ("depfile with deps names nothing", functools.partial(named_nothing, DEPS)),
    ("depfile by hand", by_hand),
    ("depfile of another edge", by_another_edge),
    ("depfile is written no more", functools.partial(written_no_more, "")),
    ("depfile is written no more, with restat", functools.partial(written_no_more, "  restat = 1\n")),
    ("depfile is written if it changes", written_if_changed),
    ("depfile is removed once it was read", removed_once_read),
    ("command fails", functools.partial(fails, "exit 1", 1)),
    ("command fails twice", functools.partial(fails, "exit 1", 2)),
    ("command removes its depfile and fails", functools.partial(fails, "{ rm -f o.d; exit 1; }", 2)))


def cases(setting: Setting) -> Iterator[Case]:
    """Yields the cases of both programs, and those of plan_build alone."""
    builder = programs.front(setting.program)
    for name, case in BOTH:
        yield Case(name, functools.partial(by_both, case, builder))
    yield Case("touched depfile", functools.partial(touched, builder))
    yield Case("reasons", functools.partial(explained, builder))
    yield Case("generated header is a source", functools.partial(committed, builder))
    yield Case("depfile that names nothing is not dead", functools.partial(not_dead, builder))
    yield Case("compaction by the tool", functools.partial(compacted, ("-t", "recompact"), builder))
    yield Case("compaction by a build", functools.partial(compacted, ("p",), builder))
    for name, case in (("needed depfile", needed), ("shared depfile", shared), ("link", linked),
                       ("malformed depfile", malformed), ("entry that isn't kept", not_kept),
                       ("failed command reads more", reads_more), ("entry that was ended", ended),
                       ("output of another branch", branches), ("dry build after a failure", dry_list),
                       ("dry build removes no depfile", dry_builds)):
        yield Case(name, functools.partial(case, builder))
    yield Case("stopped builder", functools.partial(fails, "{ kill -9 $$PPID; sleep 1; }", 1, builder))
    for seed in range(setting.seed, setting.seed + 3):
        yield Case(f"random readers {seed}", functools.partial(readers, setting.counted(ROUNDS), seed, builder))
    for seed in range(setting.seed, setting.seed + 3):
        yield Case(f"random depfiles {seed}", functools.partial(rounds, setting.counted(ROUNDS), seed, builder))
