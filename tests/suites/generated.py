"""Builds trees in which edges make headers that only depfiles name.

From the second build on, an object waits for the edges that make the headers which its last command read. So after an
edit of a header's source, one build makes the header and then the object, with any number of jobs, and the build after
that has nothing to do. The same must hold if the last command failed, if the record was removed, or if ninja compiled
the object with `deps`, and so removed its depfile.
"""
from __future__ import annotations

import functools
import pathlib
import random
import shutil
import time
from collections.abc import Iterator
from typing import Dict, List, Sequence, Tuple

from lib import programs
from lib.place import expect
from lib.suite import Case, LeftOut, Setting
from suites.progress import TICK, Edge, says, write

NOTHING = ("ninja: no work to do.\n", "", 0)
RESTAT = "  restat = 1\n"
DEPFILE = "  depfile = $out.d\n"
DEPS = "  deps = gcc\n"
ROUNDS = 12  # of random edits, in each tree


def compiled(name: str, headers: str, more: str = "", inputs: str = "") -> Edge:
    """Returns the edge of an object that reads these headers after a moment, and writes a depfile."""
    command = f"sleep 0.05; cat {name}.c {headers} > {name}.o; echo {name}.o: {headers} > {name}.o.d"
    return Edge(f"{name}.o", command, f"{name}.c {inputs}".strip(), DEPFILE + more)


def copied(header: str, source: str, more: str = "") -> Edge:
    """Returns the edge of a header, which takes longer than the command that reads it."""
    command = f"sleep 0.2; cat {source} > {header}.new; cmp -s {header}.new {header} || cp {header}.new {header}"
    return Edge(header, command, source, more)


def builds(what: str, builder: str, folder: pathlib.Path, texts: Dict[str, str], *words: str) -> str:
    """Builds, and checks what files have, and that the build after it has nothing to do. Returns what was printed."""
    printed, errors, status = says(builder, folder, *words)
    expect(f"errors and status of {what}", ("", 0), (errors, status))
    for name, text in texts.items():
        expect(f"{name} after {what}", text, (folder / name).read_text())
    expect(f"the build after {what}", NOTHING, says(builder, folder))
    return printed


def begun(builder: str, folder: pathlib.Path, edges: Sequence[Edge], files: Dict[str, str], *headers: str) -> None:
    """Writes a tree, makes its headers one after the other, and builds the rest twice."""
    programs.write(files, folder)
    write(folder, edges)
    for header in headers:
        expect(f"status of {header}", 0, says(builder, folder, header)[2])
    expect("status of the first build", 0, says(builder, folder)[2])
    expect("the second build", NOTHING, says(builder, folder))
    time.sleep(TICK)


def edited(jobs: str, more: str, builder: str, folder: pathlib.Path) -> None:
    """The source of a header is edited, then also that of the object."""
    files = {"a.c": "a\n", "h.in": "one\n"}
    begun(builder, folder, (compiled("a", "h"), copied("h", "h.in", more)), files, "h")
    (folder / "h.in").write_text("two\n")
    builds("the edit", builder, folder, {"a.o": "a\ntwo\n"}, jobs)
    time.sleep(TICK)
    programs.write({"a.c": "b\n", "h.in": "three\n"}, folder)
    builds("both edits", builder, folder, {"a.o": "b\nthree\n"}, jobs)


def target(builder: str, folder: pathlib.Path) -> None:
    """Only the object is asked for: its header is made too."""
    files = {"a.c": "a\n", "h.in": "one\n", "x.in": "x\n"}
    begun(builder, folder, (compiled("a", "h"), copied("h", "h.in"), copied("x", "x.in")), files, "h")
    programs.write({"h.in": "two\n", "x.in": "y\n"}, folder)
    printed, errors, status = says(builder, folder, "a.o")
    expect("what was built", ("[1/2] h\n[2/2] a.o\n", "", 0), (printed, errors, status))
    expect("object", "a\ntwo\n", (folder / "a.o").read_text())


def removed(name: str, builder: str, folder: pathlib.Path) -> None:
    """A file that an edge makes is removed: it is made again, and so is what reads it."""
    files = {"a.c": "a\n", "h.in": "one\n"}
    begun(builder, folder, (compiled("a", "h"), copied("h", "h.in")), files, "h")
    (folder / name).unlink()
    builds("the removal", builder, folder, {"a.o": "a\none\n", "h": "one\n"}, "-j4", "a.o")


def through(edges: Sequence[Edge], builder: str, folder: pathlib.Path) -> None:
    """A header is made of another one, of which one is known only by a depfile too."""
    files = {"a.c": "a\n", "g.in": "one\n", "h.in": "h\n"}
    begun(builder, folder, edges, files, "g", "h")
    (folder / "g.in").write_text("two\n")
    builds("the edit", builder, folder, {"a.o": "a\nh\ntwo\n"}, "-j4")


# Headers of headers: by inputs, by a depfile, and behind a phony.
CHAINS: Dict[str, Tuple[Edge, ...]] = {
    "header of a header": (compiled("a", "h"), Edge("h", "sleep 0.1; cat h.in g > h", "h.in g"), copied("g", "g.in")),
    "header whose depfile names a header": (
        compiled("a", "h"),
        Edge("h", "sleep 0.1; cat h.in g > h; echo h: g > h.d", "h.in", DEPFILE), copied("g", "g.in")),
}


def failed(builder: str, folder: pathlib.Path) -> None:
    """The last command of the object failed, so its entry has ended. Its depfile says what it read before."""
    files = {"a.c": "a\n", "h.in": "one\n", "ok": ""}
    command = "test -e ok && sleep 0.05 && cat a.c h > a.o && echo a.o: h > a.o.d"
    begun(builder, folder, (Edge("a.o", command, "a.c", DEPFILE), copied("h", "h.in")), files, "h")
    (folder / "ok").unlink()
    (folder / "a.c").write_text("b\n")
    expect("status of the failure", 1, says(builder, folder)[2])
    time.sleep(TICK)
    programs.write({"ok": "", "h.in": "two\n"}, folder)
    builds("the failure", builder, folder, {"a.o": "b\ntwo\n"}, "-j4")


def lost(builder: str, folder: pathlib.Path) -> None:
    """The record is removed. The object waits for what its depfile names."""
    files = {"a.c": "a\n", "h.in": "one\n"}
    begun(builder, folder, (compiled("a", "h"), copied("h", "h.in")), files, "h")
    (folder / ".plan_record").unlink()
    (folder / "h.in").write_text("two\n")
    builds("the loss", builder, folder, {"a.o": "a\ntwo\n"}, "-j4")


def other_depfile(builder: str, folder: pathlib.Path) -> None:
    """A hand writes another header into the depfile. The object waits for the headers of its entry only."""
    files = {"a.c": "a\n", "g.in": "g\n", "h.in": "one\n"}
    begun(builder, folder, (compiled("a", "h"), copied("g", "g.in"), copied("h", "h.in")), files, "h")
    (folder / "a.o.d").write_text("a.o: g\n")
    (folder / "g").unlink()
    (folder / "h.in").write_text("two\n")
    printed, errors, status = says(builder, folder, "-j4", "a.o")
    expect("what was built", ("[1/2] h\n[2/2] a.o\n", "", 0), (printed, errors, status))
    expect("object", "a\ntwo\n", (folder / "a.o").read_text())


def turned_chain(builder: str, folder: pathlib.Path) -> None:
    """Each object read the one before it. In a new manifest each one is an input of the one before: many cycles."""
    count = 30
    last, first = f"o{count}.o", "o1.o"
    texts = {f"o{at}.c": f"{at}\n" for at in range(1, count + 1)}
    edges = [compiled("o1", ""), *(compiled(f"o{at}", f"o{at - 1}.o") for at in range(2, count + 1))]
    begun(builder, folder, edges, texts, *(f"o{at}.o" for at in range(1, count + 1)))
    expect("last object", "".join(reversed([*texts.values()])), (folder / last).read_text())
    turned = [compiled(f"o{at}", f"o{at + 1}.o", "", f"o{at + 1}.o") for at in range(1, count)]
    write(folder, [*turned, compiled(f"o{count}", "")])
    builds("the turn", builder, folder, {last: texts[f"o{count}.c"], first: "".join(texts.values())}, "-j4")


def cycle(builder: str, folder: pathlib.Path) -> None:
    """The record names a file that is now made of the object: the object is built first, once, and then the rest."""
    files = {"a.c": "a\n", "g.in": "g\n", "h.in": "h\n"}
    begun(builder, folder, (compiled("a", "g h"), copied("g", "g.in"), copied("h", "h.in")), files, "g", "h")
    turned = (compiled("a", "h"), Edge("g", "cat a.o > g", "a.o"), copied("h", "h.in"))
    write(folder, turned)
    (folder / "h.in").write_text("i\n")
    builds("the turn", builder, folder, {"a.o": "a\ni\n", "g": "a\ni\n"}, "-j4")


def declared(builder: str, folder: pathlib.Path) -> None:
    """A header is also named in the manifest, through a phony: the object waits for it in the first build too."""
    edges = (compiled("a", "h", inputs="|| headers"), copied("h", "h.in"))
    programs.write({"a.c": "a\n", "h.in": "one\n"}, folder)
    write(folder, edges)
    with open(folder / "build.ninja", "a", encoding="utf-8") as manifest:
        manifest.write("build headers: phony h\n")
    builds("the first build", builder, folder, {"a.o": "a\none\n"}, "-j4")
    time.sleep(TICK)
    (folder / "h.in").write_text("two\n")
    builds("the edit", builder, folder, {"a.o": "a\ntwo\n"}, "-j4")


def listed(more: str, builder: str, folder: pathlib.Path) -> None:
    """A dry build lists the header and its object, but no object of another header. Reasons name the header."""
    files = {"a.c": "a\n", "b.c": "b\n", "g.in": "g\n", "h.in": "one\n"}
    edges = (compiled("a", "h"), compiled("b", "g"), copied("g", "g.in", more), copied("h", "h.in", more))
    begun(builder, folder, edges, files, "g", "h")
    (folder / "h.in").write_text("two\n")
    printed, _, status = says(builder, folder, "-n")
    expect("dry build", (["h", "a.o"], 0), ([line.split()[-1] for line in printed.splitlines()], status))
    expect("text of the object", "a\none\n", (folder / "a.o").read_text())
    printed, errors, status = says(builder, folder, "-t", "explain", "a.o")
    expect("reason before the build", "ninja explain: a.o: h is made again by a command before this one",
           (printed + errors).splitlines()[-1])
    printed, errors, status = says(builder, folder, "-d", "explain", "a.o")
    expect("what was built", ("[1/2] h\n[2/2] a.o\n", 0), (printed, status))
    expect("reason", "ninja explain: a.o: input h is newer than output a.o", errors.splitlines()[-1])
    expect("the dry build after it", NOTHING, says(builder, folder, "-n"))


def ninja() -> str:
    """Returns the path of ninja."""
    found = shutil.which("ninja")
    if not found:
        raise LeftOut("ninja isn't installed")
    return found


def after_ninja(words: Tuple[str, ...], builder: str, folder: pathlib.Path) -> None:
    """ninja built all. After a build of some targets, the source of the header is edited."""
    files = {"a.c": "a\n", "h.in": "one\n", "x.in": "x\n"}
    begun(ninja(), folder, (compiled("a", "h", DEPS), copied("h", "h.in"), copied("x", "x.in")), files, "h")
    if words:
        expect("status of the other targets", 0, says(builder, folder, *words)[2])
        time.sleep(TICK)
    (folder / "h.in").write_text("two\n")
    expect("dry build", ["h", "a.o"],
           [line.split()[-1] for line in says(builder, folder, "-n", "a.o")[0].splitlines()])
    builds("the edit", builder, folder, {"a.o": "a\ntwo\n"}, "-j4")


def read_for_ninja(more: str, builder: str, folder: pathlib.Path) -> None:
    """Both programs built the object, and since then ninja's command reads another header."""
    files = {"a.c": "a\n", "g.in": "g\n", "h.in": "one\n", "which": "g\n"}
    reads = Edge("a.o", "cat a.c $$(cat which) > a.o; echo a.o: $$(cat which) > a.o.d", "a.c", DEPFILE + DEPS + more)
    begun(builder, folder, (reads, copied("g", "g.in"), copied("h", "h.in")), files, "g", "h")
    programs.write({"a.c": "b\n", "which": "h\n"}, folder)
    expect("status of ninja", 0, says(ninja(), folder)[2])
    expect("object of ninja", "b\none\n", (folder / "a.o").read_text())
    time.sleep(TICK)
    (folder / "h.in").write_text("two\n")
    builds("the edit", builder, folder, {"a.o": "b\ntwo\n"}, "-j4")


def failed_after_ninja(builder: str, folder: pathlib.Path) -> None:
    """ninja built all. The next command of the object fails, so it has a start entry. Then the header changes."""
    files = {"a.c": "a\n", "h.in": "one\n", "ok": ""}
    command = "test -e ok && cat a.c h > a.o && echo a.o: h > a.o.d"
    begun(ninja(), folder, (Edge("a.o", command, "a.c", DEPFILE + DEPS), copied("h", "h.in")), files, "h")
    (folder / "ok").unlink()
    expect("status of the failure", 1, says(builder, folder)[2])
    time.sleep(TICK)
    programs.write({"ok": "", "h.in": "two\n"}, folder)
    builds("the failure", builder, folder, {"a.o": "a\ntwo\n"}, "-j4")


def spoilt(builder: str, folder: pathlib.Path) -> None:
    """What ninja recorded is cut, or one of its bytes is another one: a build ends, and the object is right then."""
    files = {"a.c": "a\n", "h.in": "one\n"}
    begun(ninja(), folder, (compiled("a", "h", DEPS), copied("h", "h.in")), files, "h")
    whole = (folder / ".ninja_deps").read_bytes()
    for number in range(len(whole)):
        changed = whole[:number] if number % 2 else whole[:number] + b"\xff" + whole[number + 1:]
        (folder / ".ninja_deps").write_bytes(changed)
        (folder / ".plan_record").unlink(missing_ok=True)
        printed, errors, status = says(builder, folder)
        expect(f"errors and status after byte {number}", ("", 0), (errors, status))
        expect(f"commands after byte {number}", ["a.o", "h"], sorted(line.split()[-1] for line in printed.splitlines()))
        expect(f"object after byte {number}", "a\none\n", (folder / "a.o").read_text())


def generator_by_ninja(builder: str, folder: pathlib.Path) -> None:
    """ninja ran a generator with `deps`, which reads another source now. An edit of that source is seen."""
    files = {"a": "a\n", "b": "b\n", "which": "a\n", "s": "s\n"}
    command = "cat s $$(cat which) > out; echo out: $$(cat which) > out.d"
    begun(builder, folder, (Edge("out", command, "s", DEPFILE + DEPS + "  generator = 1\n"),), files)
    programs.write({"s": "t\n", "which": "b\n"}, folder)
    expect("status of ninja", 0, says(ninja(), folder)[2])
    expect("output of ninja", "t\nb\n", (folder / "out").read_text())
    time.sleep(TICK)
    (folder / "b").write_text("c\n")
    builds("the edit", builder, folder, {"out": "t\nc\n"})


class Tree:
    """Headers that edges make, some of other headers, and objects that name their headers in depfiles only."""

    headers, objects = 6, 8
    made_of = {2: 1, 5: 4}  # headers that are made of another one, too

    def __init__(self, folder: pathlib.Path, seed: int, more: str = "") -> None:
        self.folder = folder
        self.more = more  # lines of the objects' rules
        self.any = random.Random(seed)
        self.edits = 0
        self.read: List[List[int]] = []
        for number in range(self.headers):
            self.edit(number)
        for number in range(self.objects):
            self.read.append(sorted(self.any.sample(range(self.headers), self.any.randint(1, 4))))
            self.edit_object(number)
        write(folder, [self.header_edge(number) for number in range(self.headers)]
              + [self.object_edge(number) for number in range(self.objects)])

    def header_edge(self, number: int) -> Edge:
        """Returns the edge of a header. Every second one has `restat`, and keeps the header if it is the same."""
        other = f" h{self.made_of[number]}" if number in self.made_of else ""
        if number % 2 == 0:
            return Edge(f"h{number}", f"sleep 0.0{self.any.randint(0, 8)}; cat $in > $out", f"i{number}{other}")
        return Edge(f"h{number}", "sleep 0.02; cat $in > $out.t; cmp -s $out.t $out || cp $out.t $out",
                    f"i{number}{other}", RESTAT)

    def object_edge(self, number: int) -> Edge:
        """Returns the edge of an object. Its source lists the headers that it reads."""
        command = "hs=$$(cat $in); cat $$hs > $out; echo $out: $$hs > $out.d"
        return Edge(f"o{number}", command, f"c{number}", DEPFILE + self.more)

    def edit(self, number: int) -> None:
        """Writes a new text into the source of a header."""
        self.edits += 1
        (self.folder / f"i{number}").write_text(f"{self.edits}\n")

    def edit_object(self, number: int) -> None:
        """Writes the source of an object."""
        (self.folder / f"c{number}").write_text(" ".join(f"h{header}" for header in self.read[number]) + "\n")

    def text(self, number: int) -> str:
        """Returns what a header must have."""
        own = (self.folder / f"i{number}").read_text()
        return own + self.text(self.made_of[number]) if number in self.made_of else own

    def change(self) -> None:
        """Edits or removes some files."""
        for number in range(self.headers):
            if self.any.random() < 0.3:
                self.edit(number)
            elif self.any.random() < 0.1 and (self.folder / f"h{number}").exists():
                (self.folder / f"h{number}").unlink()
        for number in range(self.objects):
            if self.any.random() < 0.2:
                if len(self.read[number]) > 1 and self.any.random() < 0.3:
                    self.read[number].pop(0)
                self.edit_object(number)
            elif self.any.random() < 0.1 and (self.folder / f"o{number}").exists():
                (self.folder / f"o{number}").unlink()

    def objects_are_right(self, what: str) -> None:
        """Checks that each object has the headers of now."""
        for number, headers in enumerate(self.read):
            expect(f"o{number} after {what}", "".join(self.text(header) for header in headers),
                   (self.folder / f"o{number}").read_text())


def rounds(count: int, seed: int, builder: str, folder: pathlib.Path) -> None:
    """After random edits and removals, each object has its headers of now, and then there is nothing to do."""
    tree = Tree(folder, seed)
    headers = [f"h{number}" for number in range(tree.headers)]
    expect("status of the headers", 0, says(builder, folder, *headers)[2])
    expect("status of the first build", 0, says(builder, folder)[2])
    for number in range(count):
        time.sleep(0.012)
        tree.change()
        printed, errors, status = says(builder, folder, f"-j{tree.any.randint(1, 8)}")
        expect(f"errors and status of round {number}", ("", 0), (errors, status))
        tree.objects_are_right(f"round {number}: {printed}")
        expect(f"the build after round {number}", NOTHING, says(builder, folder))


def turns(count: int, seed: int, builder: str, folder: pathlib.Path) -> None:
    """Both programs build in turns, after random edits and removals. Each build by plan_build is right."""
    other = ninja()
    tree = Tree(folder, seed, DEPS)
    expect("status of the headers", 0, says(other, folder, *(f"h{number}" for number in range(tree.headers)))[2])
    expect("status of the first build", 0, says(other, folder)[2])
    for number in range(count):
        time.sleep(0.012)
        tree.change()
        program = tree.any.choice((builder, other))
        targets = tree.any.choice(((), (), ("o0", "o1", "o2")))
        printed, errors, status = says(program, folder, f"-j{tree.any.randint(1, 8)}", *targets)
        expect(f"errors and status of round {number}", ("", 0), (errors, status))
        if program == builder and not targets:
            tree.objects_are_right(f"round {number}: {printed}")
            expect(f"the build after round {number}", NOTHING, says(builder, folder))


def cases(setting: Setting) -> Iterator[Case]:
    """Yields the edits, the removals, old entries, builds after ninja's, and random trees."""
    builder = programs.front(setting.program)
    for jobs in ("-j1", "-j2", "-j8"):
        yield Case(f"edited source, {jobs}", functools.partial(edited, jobs, "", builder))
        yield Case(f"edited source of a restat edge, {jobs}", functools.partial(edited, jobs, RESTAT, builder))
    yield Case("one target", functools.partial(target, builder))
    for name in ("h", "a.o"):
        yield Case(f"removed {name}", functools.partial(removed, name, builder))
    for name, edges in CHAINS.items():
        yield Case(name, functools.partial(through, edges, builder))
    yield Case("failed command", functools.partial(failed, builder))
    yield Case("lost record", functools.partial(lost, builder))
    yield Case("another depfile", functools.partial(other_depfile, builder))
    yield Case("turned chain", functools.partial(turned_chain, builder))
    yield Case("cycle of an old entry", functools.partial(cycle, builder))
    yield Case("declared header", functools.partial(declared, builder))
    for more in ("", RESTAT):
        yield Case(f"listed commands{', restat' if more else ''}", functools.partial(listed, more, builder))
    yield Case("after ninja", functools.partial(after_ninja, (), builder))
    yield Case("after ninja and another target", functools.partial(after_ninja, ("x",), builder))
    for more in ("", RESTAT):
        yield Case(f"header of ninja's command{', restat' if more else ''}",
                   functools.partial(read_for_ninja, more, builder))
    yield Case("failed command after ninja", functools.partial(failed_after_ninja, builder))
    yield Case("spoilt record of ninja", functools.partial(spoilt, builder))
    yield Case("generator by ninja", functools.partial(generator_by_ninja, builder))
    for seed in range(setting.seed, setting.seed + 4):
        yield Case(f"random edits {seed}", functools.partial(rounds, setting.counted(ROUNDS), seed, builder))
        yield Case(f"random turns {seed}", functools.partial(turns, setting.counted(ROUNDS), seed, builder))
