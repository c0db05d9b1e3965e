"""Changes outputs between two builds in other ways than by the commands of plan_build.

An output that was written after the record belongs to somebody else: a hand, another program, or ninja with other
command lines. Its command runs in the next build, and the build after that has nothing to do. Generators, folders,
links and what `-t restat` took as made are exempt, but folders and links of edges with `deps` are not. A generator with
a depfile and without an entry runs. If ninja and plan_build build one folder in turns, each build is right.
"""
from __future__ import annotations

import functools
import itertools
import os
import pathlib
import random
import shutil
import subprocess
import time
from collections.abc import Iterator, Mapping, Sequence
from typing import NamedTuple, Tuple

from lib import programs
from lib.place import expect
from lib.suite import Case, LeftOut, Setting, check
from suites.progress import TICK, Edge, says, write

NOTHING = ("ninja: no work to do.\n", "", 0)
RESTAT = "  restat = 1\n"
GENERATOR = "  generator = 1\n"
ROUNDS = 12  # of builds by both programs, in each tree
WORDS = 6  # that mixed edges write
TURNS = 6  # of builds, each by one of the programs with one of two command lines
DEPFILE = "  depfile = $out.d\n"
DEPS = DEPFILE + "  deps = gcc\n"
DEPS_INSIDE = "  depfile = $out/d\n  deps = gcc\n"
TREE = (Edge("p | q", "cp in p; cp in q", "in"), Edge("r", "cp p r", "p"), Edge("s", "cp in s", "in", RESTAT))


SOURCES = {"in": "in\n"}


def begun(builder: str, folder: pathlib.Path, edges: Sequence[Edge] = TREE,
          sources: Mapping[str, str] = SOURCES) -> None:
    """Writes a tree and builds it."""
    programs.write(sources, folder)
    write(folder, edges)
    expect("status of the first build", 0, says(builder, folder)[2])
    expect("the second build", NOTHING, says(builder, folder))
    time.sleep(TICK)


def settled(builder: str, folder: pathlib.Path, labels: str) -> None:
    """Checks that the next build runs just these commands, in any order, and the one after it none."""
    printed, errors, status = says(builder, folder)
    expect("errors and status", ("", 0), (errors, status))
    expect("commands", sorted(labels.split()), sorted(line.split()[-1] for line in printed.splitlines()))
    expect("the build after it", NOTHING, says(builder, folder))
    for name in ("p", "q", "r", "s"):
        if (folder / name).is_file():
            expect(name, "in\n", (folder / name).read_text())


def by_hand(name: str, labels: str, builder: str, folder: pathlib.Path) -> None:
    """A hand writes an output."""
    begun(builder, folder)
    (folder / name).write_text("by hand\n")
    errors = says(builder, folder, "-n", "-d", "explain")[1]
    edge = "p" if name == "q" else name
    expect("reason", f"ninja explain: {edge}: {name} was changed after its command made it", errors.splitlines()[0])
    settled(builder, folder, labels)


def touched(builder: str, folder: pathlib.Path) -> None:
    """An output is touched: it can't be told from one that was written."""
    begun(builder, folder)
    os.utime(folder / "r")
    settled(builder, folder, "r")


def one_wanted(builder: str, folder: pathlib.Path) -> None:
    """A hand writes two outputs, of which the next build makes one only."""
    begun(builder, folder)
    for name in ("p", "s"):
        (folder / name).write_text("by hand\n")
    printed, errors, status = says(builder, folder, "s")
    expect("build of one target", ("[1/1] s\n", "", 0), (printed, errors, status))
    time.sleep(TICK)
    settled(builder, folder, "p r")


def one_reached(builder: str, folder: pathlib.Path) -> None:
    """A hand writes two outputs. The command of one fails in the next build, so the other one isn't reached."""
    edges = (Edge("r", "test -e ok && cp in r", "in"), Edge("s", "cp in s", "in"))
    programs.write({"ok": ""}, folder)
    begun(builder, folder, edges)
    for name in ("r", "s"):
        (folder / name).write_text("by hand\n")
    (folder / "ok").unlink()
    expect("status of the failed build", 1, says(builder, folder, "-j", "1")[2])
    (folder / "ok").touch()
    settled(builder, folder, "r s")


def dated_ahead(builder: str, folder: pathlib.Path) -> None:
    """A command dates its output in the future. It runs again once that time has come. No other command does."""
    write(folder, (Edge("r", "cp in r && touch -d '+2 seconds' r", "in"), Edge("s", "cp in s", "in")))
    programs.write({"in": "in\n"}, folder)
    expect("status of the first build", 0, says(builder, folder)[2])
    expect("the build after it", NOTHING, says(builder, folder))
    (folder / "s").write_text("by hand\n")
    expect("the build after a hand", ("[1/1] s\n", "", 0), says(builder, folder))
    time.sleep(2)
    expect("the build after that time", ("[1/1] r\n", "", 0), says(builder, folder))


def taken(builder: str, folder: pathlib.Path) -> None:
    """`-t restat` takes what is there as made."""
    begun(builder, folder)
    (folder / "r").write_text("by hand\n")
    expect("status of the tool", 0, says(builder, folder, "-t", "restat")[2])
    expect("the build after it", NOTHING, says(builder, folder))


def folders(builder: str, folder: pathlib.Path) -> None:
    """An output is a folder in which a hand creates a file."""
    edges = (Edge("d", "mkdir -p d && cp in d/f", "in"),)
    begun(builder, folder, edges)
    (folder / "d" / "g").write_text("by hand\n")
    expect("the build after it", NOTHING, says(builder, folder))


class Kind(NamedTuple):
    """What a command makes: the command, which reads the file that `which` names, and the output's file."""

    command: str
    variables: str
    file: str


READS = "cat $$(cat which)"
SAYS = "echo $out: $$(cat which) >"
KINDS = {
    "link": Kind(f"{READS} > t; ln -sf t $out; {SAYS} $out.d", DEPS, "o"),
    "link to a source": Kind(f"{READS} > t; ln -sf s $out; {SAYS} $out.d", DEPS, "t"),
    "folder": Kind(f"rm -rf $out; mkdir $out; {READS} > $out/f; {SAYS} $out.d", DEPS, "o/f"),
    "folder of a depfile": Kind(f"rm -rf $out; mkdir $out; {READS} > $out/f; {SAYS} $out/d", DEPS_INSIDE, "o/f"),
    "file of its input's date": Kind(f"{READS} > $out; touch -r s $out; {SAYS} $out.d", DEPS, "o"),
    "depfile of its input's date": Kind(f"{READS} > $out; {SAYS} $out.d; touch -r s $out $out.d", DEPFILE, "o"),
}
HANDS = ("link", "folder", "folder of a depfile")  # of which a file is written, or a file is created in a folder


def made_otherwise(kind: str, by: str, builder: str, folder: pathlib.Path) -> None:
    """ninja or a hand makes an output with `deps` again, from another file, which is edited then."""
    other = ninja() if by == "ninja" else None
    command, variables, file = KINDS[kind]
    programs.write({"h0": "old\n", "h1": "other\n", "which": "h0\n"}, folder)
    time.sleep(0.02)
    begun(builder, folder, (Edge("o", command, "s", variables),), {"s": "s\n"})
    subprocess.run(["rm", "-r", "o"], cwd=folder, check=True)
    (folder / "which").write_text("h1\n")
    if other:
        expect("status of ninja", 0, built(other, folder)[2])
    else:
        by_shell = command.replace("$out", "o").replace("$$", "$")
        subprocess.run(["sh", "-c", by_shell], cwd=folder, check=True)
    time.sleep(TICK)
    (folder / "h1").write_text("new\n")
    expect("errors and status", ("", 0), built(builder, folder)[1:])
    expect("output", "new\n", (folder / file).read_text())
    if "date" not in kind and kind != "link to a source":  # else the output stays older than what it was made from
        expect("the build after it", NOTHING, says(builder, folder))


COMMANDS = {
    "link": Edge("o", "echo {word} > {word}; ln -sf {word} o", "s"),
    "folder": Edge("o", "rm -rf o; mkdir o; echo {word} > o/f", "s"),
    "file of its input's date": Edge("o", "echo {word} > o; touch -r s o", "s"),
    "second output": Edge("p | o", "echo {word} > p; echo {word} > {word}; ln -sf {word} o; touch -r s p", "s"),
    "implicit output": Edge("| o", "echo {word} > o; touch -r s o", "s", RESTAT),
}


def run_otherwise(kind: str, builder: str, folder: pathlib.Path) -> None:
    """ninja makes an output by another command line, whose stamp doesn't show it."""
    other, edge = ninja(), COMMANDS[kind]
    edges = {word: (edge._replace(command=edge.command.format(word=word)),) for word in ("one", "two")}
    begun(builder, folder, edges["one"], {"s": "s\n"})
    file = "o/f" if kind == "folder" else "o"
    for program, word in ((other, "two"), (builder, "one"), (other, "two"), (builder, "two"), (builder, "one")):
        write(folder, edges[word])
        listed = says(builder, folder, "-n") if program == builder else None
        said = built(program, folder)
        expect(f"errors and status, {word}", ("", 0), said[1:])
        if listed:
            expect("what a dry build lists", listed, said)
        expect("output", f"{word}\n", (folder / file).read_text())
        expect("the build after it", NOTHING, built(program, folder))
    (folder / "s").write_text("new\n")
    expect("status of ninja", 0, built(other, folder)[2])
    expect("the build after it", 0, built(builder, folder)[2])
    expect("the build after that", NOTHING, says(builder, folder))


def generator_otherwise(builder: str, folder: pathlib.Path) -> None:
    """ninja runs a generator by another command line: it counts as made."""
    other = ninja()
    edge = COMMANDS["link"]._replace(more=GENERATOR)
    begun(builder, folder, (edge._replace(command=edge.command.format(word="one")),), {"s": "s\n"})
    (folder / "o").unlink()
    write(folder, (edge._replace(command=edge.command.format(word="two")),))
    expect("status of ninja", 0, built(other, folder)[2])
    expect("the build after it", NOTHING, says(builder, folder))


def folder_in_use(builder: str, folder: pathlib.Path) -> None:
    """Another command writes in a folder that an edge with `deps` makes: that one doesn't run again."""
    command, variables, _ = KINDS["folder of a depfile"]
    edges = (Edge("o", command, "s", variables), Edge("o/x", "cp in o/x.new && mv o/x.new o/x", "in || o"))
    begun(builder, folder, edges, {"s": "s\n", "in": "in\n", "h0": "old\n", "which": "h0\n"})
    (folder / "in").write_text("new\n")
    expect("the build after an edit", ("[1/1] o/x\n", "", 0), says(builder, folder))
    expect("the build after it", NOTHING, says(builder, folder))


def folder_with_deps(builder: str, folder: pathlib.Path) -> None:
    """A hand creates a file in a folder that an edge with `deps` makes: its command runs again, once, as for ninja."""
    command, variables, _ = KINDS["folder"]
    begun(builder, folder, (Edge("o", command, "s", variables),), {"s": "s\n", "h0": "old\n", "which": "h0\n"})
    (folder / "o" / "g").write_text("by hand\n")
    expect("the build after it", ("[1/1] o\n", "", 0), says(builder, folder))
    expect("the build after that", NOTHING, says(builder, folder))


def generators(builder: str, folder: pathlib.Path) -> None:
    """A generator was run by hand."""
    edges = (Edge("g", "cp in g", "in", GENERATOR),)
    begun(builder, folder, edges)
    (folder / "g").write_text("by hand\n")
    expect("the build after it", NOTHING, says(builder, folder))


def generator_reads(builder: str, folder: pathlib.Path) -> None:
    """A folder was generated by hand. What only the generator's depfile names is edited: it is generated again."""
    script = ("{ echo 'rule gn'; echo '  command = sh gen.sh'; echo '  generator = 1'\n"
              "echo '  depfile = build.ninja.d'\n"
              "echo 'build build.ninja: gn'; echo 'rule say'; echo \"  command = echo $(cat BUILD.gn) > \\$out\"\n"
              "echo 'build out: say'; } > build.ninja\necho 'build.ninja: BUILD.gn' > build.ninja.d\n")
    programs.write({"BUILD.gn": "one\n", "gen.sh": script}, folder)
    subprocess.run(["sh", "gen.sh"], cwd=folder, check=True)
    expect("status of the first build", 0, says(builder, folder)[2])
    time.sleep(TICK)
    (folder / "BUILD.gn").write_text("two\n")
    expect("status after the edit", 0, says(builder, folder)[2])
    expect("output", "two\n", (folder / "out").read_text())
    expect("the build after it", NOTHING, says(builder, folder))


def remade(builder: str, folder: pathlib.Path) -> None:
    """The command that makes the manifest, and one that it needs, run in this build: their outputs are its own."""
    text = ("rule t\n  command = cp in tool\nrule g\n  command = cp next build.ninja && touch build.ninja\n"
            "  generator = 1\nbuild tool: t in\nbuild build.ninja: g next tool\nrule c\n  command = cp tool out\n"
            "build out: c tool\n")
    programs.write({"in": "in\n", "next": text, "build.ninja": text}, folder)
    expect("status of the first build", 0, says(builder, folder)[2])
    expect("the second build", NOTHING, says(builder, folder))
    time.sleep(TICK)
    (folder / "in").write_text("new\n")
    printed, errors, status = says(builder, folder, "-v")
    expect("status", 0, status)
    for command in ("cp in tool", "cp next build.ninja && touch build.ninja", "cp tool out"):
        expect(f"runs of {command}", 1, printed.count(f"] {command}\n"))
    expect("the build after it", NOTHING, says(builder, folder))


def joined(builder: str, folder: pathlib.Path) -> None:
    """An output that had an edge of its own becomes a second output of another edge."""
    edges = (Edge("p", "echo new > p; echo new > q", "in"), Edge("q", "echo old > q", "in || p"))
    begun(builder, folder, edges)
    write(folder, (Edge("p q", "echo new > p; echo new > q", "in"),))
    expect("status", 0, says(builder, folder)[2])
    expect("second output", "new\n", (folder / "q").read_text())
    expect("the build after it", NOTHING, says(builder, folder))


def copied(words: Tuple[str, ...], builder: str, folder: pathlib.Path) -> None:
    """A folder that is copied or restored with its stamps has nothing to do."""
    old = folder / "old"
    old.mkdir()
    begun(builder, old)
    subprocess.run(["sh", "-c", *words], cwd=folder, check=True)
    expect("the copy", NOTHING, says(builder, folder / "new"))


def built(program: str, folder: pathlib.Path) -> Tuple[str, str, int]:
    """Builds with one of the programs, after the clock of files has moved on."""
    time.sleep(0.02)
    return says(program, folder)


def ninja() -> str:
    """Returns the path of ninja."""
    found = shutil.which("ninja")
    if not found:
        raise LeftOut("ninja isn't installed")
    return found


def by_ninja(builder: str, folder: pathlib.Path) -> None:
    """Both programs build the folder in turns, with other command lines."""
    other = ninja()
    (folder / "in").write_text("in\n")
    turns = list(itertools.product((builder, other), ("one", "two")))
    any_ = random.Random(1)
    for number in range(len(turns) * TURNS):
        program, word = any_.choice(turns)
        write(folder, (Edge("o", f"echo {word} > o", "in"), Edge("app", "cp o app", "o")))
        expect(f"errors and status of build {number}", ("", 0), built(program, folder)[1:])
        expect(f"program of build {number}", f"{word}\n", (folder / "app").read_text())
        if program == builder:
            expect(f"the build after build {number}", NOTHING, says(builder, folder))


def known_to_ninja(builder: str, folder: pathlib.Path) -> None:
    """ninja has nothing to do after plan_build, also for a generator, and runs what a failed build has left."""
    other = ninja()
    edges = [Edge("p | q", "cp in p; cp in q", "in"), Edge("g", "cp in g", "in", GENERATOR),
             Edge("s", "cp in s", "in", RESTAT)]
    programs.write({"in": "in\n"}, folder)
    write(folder, edges)
    expect("status of ninja", 0, built(other, folder)[2])
    (folder / "in").write_text("new\n")
    expect("status of plan_build", 0, built(builder, folder)[2])
    expect("ninja after it", NOTHING, built(other, folder))
    (folder / "in").write_text("newer\n")
    write(folder, (edges[0]._replace(command="cp in p; false"), *edges[1:]))
    expect("status of plan_build", 1, built(builder, folder)[2])
    write(folder, edges)
    expect("status of ninja", 0, built(other, folder)[2])
    for name in ("p", "q", "g", "s"):
        expect(name, "newer\n", (folder / name).read_text())


def torn(builder: str, folder: pathlib.Path) -> None:
    """ninja was killed while it wrote a line of its log."""
    other = ninja()
    (folder / "in").write_text("in\n")
    for word, program in (("two", other), ("one", builder), ("two", other)):
        write(folder, (Edge("o", f"echo {word} > o", "in"),))
        expect("status", 0, built(program, folder)[2])
        expect("output", f"{word}\n", (folder / "o").read_text())
        with open(folder / ".ninja_log", "a", encoding="utf-8") as log:
            log.write("0\t1\t2\tx")


def mixed_edges(words: Sequence[str], names: Sequence[str]) -> Tuple[Edge, ...]:
    """Returns edges that write words and copy sources: with two outputs, with restat, and with depfiles.

    The source of `f`, and so its depfile, depends on another source. `g` and `k` are links, `h` is a folder, and `m`
    and `n` have the date of their source. The file `other`, of which the manifest doesn't know, says what `g` and `h`
    read.
    """
    first, second, third, fourth, fifth, sixth = words
    reads = "cat {source} > $out; echo $out: {source} > $out.d; echo {word} >> $out"
    return (
        Edge("o | p", f"(echo {first}; cat i0) > o; cp o p", "i0"),
        Edge("r", f"(echo {second}; head -c 1 i1) > r.new; cmp -s r.new r || cp r.new r", "i1", RESTAT),
        Edge("d", reads.format(source=names[0], word=third), "i2", DEPFILE),
        Edge("e", reads.format(source=names[1], word=fourth), "i2", DEPS),
        Edge("f", "cat $$(cat which) > f.new; cmp -s f.new f || cp f.new f; echo f: $$(cat which) > f.d", "which",
             DEPS + RESTAT),
        Edge("g", "cat $$(cat other) > t; ln -sf t g; echo g: $$(cat other) > g.d", "i2", DEPS),
        Edge("h", "rm -rf h; mkdir h; cat $$(cat other) > h/f; echo h: $$(cat other) > h/d", "i2", DEPS_INSIDE),
        Edge("k", f"echo {fifth} > k.{fifth}; ln -sf k.{fifth} k", "i0"),
        Edge("m | n", f"echo {sixth} > m; echo {sixth} > n; touch -r i0 m n", "i0"),
        Edge("all", "cat o p r d e f g h/f k m n > all", "o p r d e f g h k m n"))


def mixed_text(words: Sequence[str], names: Sequence[str], folder: pathlib.Path) -> str:
    """Returns what these edges write together."""
    sources = [(folder / name).read_text() for name in ("i0", "i1", *names, (folder / "which").read_text().strip())]
    first = f"{words[0]}\n{sources[0]}"
    other = (folder / (folder / "other").read_text().strip()).read_text()
    return (first * 2 + f"{words[1]}\n{sources[1][:1]}" + f"{sources[2]}{words[2]}\n" + f"{sources[3]}{words[3]}\n"
            + sources[4] + other * 2 + f"{words[4]}\n" + f"{words[5]}\n" * 2)


def mixed(count: int, seed: int, builder: str, folder: pathlib.Path) -> None:
    """Both programs build in turns, after random edits of sources and command lines, and without some outputs."""
    programs_ = (builder, ninja())
    any_ = random.Random(seed)
    words, names = ["a"] * WORDS, ["h0", "h1"]
    sources = ("i0", "i1", "i2", "h0", "h1")
    for name in sources:
        (folder / name).write_text("0\n")
    for name in ("which", "other"):
        (folder / name).write_text("h0\n")
    for number in range(count):
        time.sleep(0.02)
        if any_.random() < 0.3:
            (folder / "which").write_text(any_.choice(("h0\n", "h1\n")))
        if any_.random() < 0.3:
            (folder / "other").write_text(any_.choice(("h0\n", "h1\n")))
            subprocess.run(["rm", "-rf", "g", "h"], cwd=folder, check=True)
        for name in sources:
            if any_.random() < 0.2:
                (folder / name).write_text(f"{number // 4}\n")
        for chosen, among in ((words, "ab"), (names, ("h0", "h1"))):
            at = any_.randrange(len(chosen))
            chosen[at] = any_.choice(among)
        if any_.random() < 0.3:
            (folder / any_.choice("opredf")).unlink(missing_ok=True)
        write(folder, mixed_edges(words, names))
        program = any_.choice(programs_)
        expect(f"errors and status of round {number}", ("", 0), built(program, folder)[1:])
        expect(f"outputs of round {number}", mixed_text(words, names, folder), (folder / "all").read_text())
        if program == builder:
            expect(f"the build after round {number}", NOTHING, says(builder, folder))


def rounds(count: int, seed: int, builder: str, folder: pathlib.Path) -> None:
    """Random edits of sources, outputs and command lines: each build is right, and the next one has nothing to do."""
    any_ = random.Random(seed)
    words = ["a", "b", "c"]
    for number in range(3):
        (folder / f"i{number}").write_text("0\n")
    for number in range(count):
        time.sleep(0.02)
        for at in range(3):
            if any_.random() < 0.3:
                (folder / f"i{at}").write_text(f"{number}\n")
            if any_.random() < 0.2:
                words[at] = any_.choice("abc")
            for name in (f"o{at}", f"p{at}"):
                if any_.random() < 0.2:
                    (folder / name).write_text("by hand\n")
        edges = [Edge(f"o{at} | p{at}", f"(echo {words[at]}; cat i{at}) > o{at}; cp o{at} p{at}", f"i{at}")
                 for at in range(3)]
        write(folder, (*edges, Edge("all", "cat o0 p1 o2 > all", "o0 p1 o2")))
        printed, errors, status = says(builder, folder)
        expect(f"errors and status of round {number}", ("", 0), (errors, status))
        right = "".join(f"{words[at]}\n" + (folder / f"i{at}").read_text() for at in range(3))
        expect(f"output of round {number}", right, (folder / "all").read_text())
        expect(f"the build after round {number}", NOTHING, says(builder, folder))


def cases(setting: Setting) -> Iterator[Case]:
    """Yields the changes by hand, the exempt files, copies, and builds by ninja."""
    builder = programs.front(setting.program)
    for name, labels in (("p", "p r"), ("q", "p r"), ("r", "r"), ("s", "s")):
        yield Case(f"{name} by hand", functools.partial(by_hand, name, labels, builder))
    yield Case("one output is wanted", functools.partial(one_wanted, builder))
    yield Case("one output is reached", functools.partial(one_reached, builder))
    yield Case("touched output", functools.partial(touched, builder))
    yield Case("output of the future", functools.partial(dated_ahead, builder))
    yield Case("restat takes what is there", functools.partial(taken, builder))
    yield Case("output folder", functools.partial(folders, builder))
    yield Case("output folder in use", functools.partial(folder_in_use, builder))
    yield Case("output folder with deps", functools.partial(folder_with_deps, builder))
    for kind, by in itertools.product(KINDS, ("ninja", "a hand")):
        if by == "ninja" or kind in HANDS:
            yield Case(f"{kind} by {by}", functools.partial(made_otherwise, kind, by, builder))
    for kind in COMMANDS:
        yield Case(f"{kind} by another command", functools.partial(run_otherwise, kind, builder))
    yield Case("generator by another command", functools.partial(generator_otherwise, builder))
    yield Case("generator by hand", functools.partial(generators, builder))
    yield Case("generator with a depfile", functools.partial(generator_reads, builder))
    yield Case("remade manifest", functools.partial(remade, builder))
    yield Case("joined output", functools.partial(joined, builder))
    yield Case("copy", functools.partial(copied, ("cp -a old new",), builder))
    yield Case("archive", functools.partial(copied, ("tar cf t old && rm -r old && tar xf t && mv old new",), builder))
    yield Case("ninja in between", functools.partial(by_ninja, builder))
    yield Case("nothing to do for ninja", functools.partial(known_to_ninja, builder))
    yield Case("torn log of ninja", functools.partial(torn, builder))
    for seed in range(setting.seed, setting.seed + 3):
        yield Case(f"random changes {seed}", functools.partial(rounds, setting.counted(ROUNDS), seed, builder))
        yield Case(f"mixed rounds {seed}", functools.partial(mixed, setting.counted(2 * ROUNDS), seed, builder))
