"""Builds trees with plan_build, and compares all that it prints with the text that plan_progress defines (BuildLines).

Each line `[n/m] LABEL` comes right before the output of its command, whatever runs at the same time. If ninja is
installed, the lines of a build after one change must be ninja's, and so must the text before labels by NINJA_STATUS, in
a pipe and on a terminal.
"""
from __future__ import annotations

import fcntl
import functools
import os
import pathlib
import pty
import re
import shutil
import struct
import subprocess
import sys
import termios
import time
from collections.abc import Iterator, Sequence
from typing import Callable, List, NamedTuple, Tuple

from lib import programs
from lib.place import PATIENCE, expect
from lib.screen import Screen
from lib.suite import Case, LeftOut, Setting, check

ALONE = True
STOPPED = "ninja: build stopped: subcommand failed.\n"
LOST_OUTPUT = "ninja: error: standard output can't be written [133 FileFault]\n"
TICK = 0.05  # seconds: longer than the clock of files needs to move on
LARGE = 1_000_000  # bytes of a large output
LABEL = re.compile(rb"\[(\d+)/(\d+)\] (.*)\n")


class Edge(NamedTuple):
    """A build statement with a rule of its own. Its label is its first output."""

    outputs: str
    command: str
    inputs: str = ""
    more: str = ""  # lines of its rule

    def name(self) -> str:
        """Returns the first output."""
        return self.outputs.split()[0]


def write(folder: pathlib.Path, edges: Sequence[Edge]) -> None:
    """Writes a manifest."""
    text = ""
    for number, edge in enumerate(edges):
        rule = f"rule r{number}\n  command = {edge.command}\n  description = {edge.name()}\n{edge.more}"
        text += f"{rule}build {edge.outputs}: r{number} {edge.inputs}\n"
    programs.write({"build.ninja": text}, folder)


def says(builder: str, folder: pathlib.Path, *words: str) -> Tuple[str, str, int]:
    """Builds, and returns what was printed, the errors, and the status."""
    done = programs.run([builder, *words], folder)
    return done.stdout.decode(), done.stderr.decode(), done.returncode


# ---- outputs come after their labels

def blocks(printed: bytes, outputs: dict[str, bytes], end: bytes = b"") -> None:
    """Checks that a text is a label for each output, in any order, with just this output after it, and then `end`."""
    left, at, count = dict(outputs), 0, len(outputs)
    for number in range(1, count + 1):
        label = LABEL.match(printed, at)
        check(label, f"no label at {at}: {printed[at:at + 200]!r}")
        assert label
        expect("numbers", (number, count), (int(label[1]), int(label[2])))
        wanted = left.pop(label[3].decode(), None)
        check(wanted is not None, f"a label that isn't expected: {label[0]!r}")
        assert wanted is not None
        at = label.end() + len(wanted)
        check(printed[label.end():at] == wanted, f"after {label[0]!r}: {printed[label.end():label.end() + 200]!r}")
    expect("after the last output", end, printed[at:])


def parallel(count: int, jobs: str, builder: str, folder: pathlib.Path) -> None:
    """Commands that run side by side print two lines each, the second one later."""
    edges = [Edge(f"out{number}", f"echo one $out; sleep 0.0{number % 7}; echo two $out >&2; touch $out")
             for number in range(count)]
    write(folder, edges)
    done = programs.run([builder, "-j", jobs], folder)
    expect("status and errors", (0, b""), (done.returncode, done.stderr))
    blocks(done.stdout, {edge.name(): f"one {edge.name()}\ntwo {edge.name()}\n".encode() for edge in edges})


def failures_side_by_side(builder: str, folder: pathlib.Path) -> None:
    """Commands that run side by side fail. Each failure is a block of its own."""
    edges = [Edge(f"out{number} more{number}", f"echo one; sleep 0.0{number % 7}; echo two >&2; exit {number}")
             for number in range(1, 61)]
    write(folder, edges)
    done = programs.run([builder, "-j", "8", "-k", "0"], folder)
    expect("status and errors", (1, b""), (done.returncode, done.stderr))
    texts = {edge.name(): f"FAILED: [code={number}] {edge.outputs} \n{edge.command}\none\ntwo\n".encode()
             for number, edge in enumerate(edges, 1)}
    blocks(done.stdout, texts, b"ninja: build stopped: cannot make progress due to previous errors.\n")


def while_the_console_is_used(builder: str, folder: pathlib.Path) -> None:
    """The label of a console command comes before its output. Labels and outputs of others wait until it has ended."""
    gated = "touch begun; while ! [ -e b ]; do sleep 0.02; done; sleep 0.3; echo asked; touch $out"
    write(folder, [Edge("a", gated, more="  pool = console\n"),
                   Edge("b", "while ! [ -e begun ]; do sleep 0.02; done; echo text; touch $out")])
    expect("said", ("[0/2] a\nasked\n[1/2] b\ntext\n", "", 0), says(builder, folder, "-j", "2"))


def label_before_a_console_command(builder: str, folder: pathlib.Path) -> None:
    """What belongs before a console command is printed before it, however soon it starts; so does ninja."""
    ninja = shutil.which("ninja")
    edges = [Edge("a", "echo warning; touch $out"), Edge("b", "echo another; touch $out", "a"),
             Edge("c", "echo question; touch $out", "b", "  pool = console\n"), Edge("d", "echo end; touch $out", "c")]
    said = ("[1/4] a\nwarning\n[2/4] b\nanother\n[2/4] c\nquestion\n[4/4] d\nend\n", "", 0)
    for program in [builder] * 10 + [ninja] * (ninja is not None):
        for jobs in ("1", "4"):
            for edge in edges:
                (folder / edge.name()).unlink(missing_ok=True)
            write(folder, edges)
            expect(f"{program} said at -j {jobs}", said, says(program, folder, "-j", jobs))


def manifest_made_again(builder: str, folder: pathlib.Path) -> None:
    """The run that makes the manifest and the run for the targets each count from 1."""
    write(folder, [Edge("build.ninja", "echo text; cp new build.ninja", "new", "  generator = 1\n"), *CHAIN])
    time.sleep(TICK)
    (folder / "new").write_bytes((folder / "build.ninja").read_bytes())
    expect("said", ("[1/1] build.ninja\ntext\n[1/2] a\ntext\n[2/2] b\n", "", 0), says(builder, folder, "b"))


def large(builder: str, folder: pathlib.Path) -> None:
    """Twenty commands side by side print a million bytes each, without a line feed at the end."""
    edges = [Edge(f"out{number}", f"yes $out | head -c {LARGE}; touch $out") for number in range(20)]
    write(folder, edges)
    done = programs.run([builder, "-j", "8"], folder)
    expect("status and errors", (0, b""), (done.returncode, done.stderr))
    texts = {edge.name(): f"{edge.name()}\n".encode() for edge in edges}
    whole = {name: (text * (LARGE // len(text) + 1))[:LARGE] for name, text in texts.items()}
    blocks(done.stdout, {name: text if text.endswith(b"\n") else text + b"\n" for name, text in whole.items()})


# ---- outputs that wait

# Runs a program and writes its greatest size to a file. A child counts the size of the process that started it, so a
# small process starts it, and not the one that has run all suites.
SIZED = """import resource, subprocess, sys
status = subprocess.call(sys.argv[2:], stdin=subprocess.DEVNULL, stderr=subprocess.DEVNULL)
with open(sys.argv[1], "w") as size:
    size.write(str(resource.getrusage(resource.RUSAGE_CHILDREN).ru_maxrss))
sys.exit(status)
"""


def greatest_size(words: Sequence[str], folder: pathlib.Path, late: float, full: bool) -> Tuple[int, int]:
    """Builds, and returns the status and the greatest size of the builder in bytes.

    Nobody reads its output for `late` seconds, or each write of it fails.
    """
    size = folder / "size"
    sized = [sys.executable, "-c", SIZED, str(size), *words]
    if full:
        with open("/dev/full", "wb") as out:
            status = subprocess.call(sized, cwd=folder, stdin=subprocess.DEVNULL, stdout=out)
    else:
        child = subprocess.Popen(sized, cwd=folder, stdin=subprocess.DEVNULL, stdout=subprocess.PIPE)
        assert child.stdout
        time.sleep(late)
        while child.stdout.read(1 << 20):
            pass
        child.stdout.close()
        status = child.wait()
    return status, int(size.read_text()) * 1024


def outputs_are_limited(builder: str, folder: pathlib.Path) -> None:
    """Outputs of 400 MB that wait to be printed take less than 320 MB.

    64 MiB of them are held, in buffers of up to twice their size. Other commands end meanwhile, and a text is printed.
    """
    write(folder, [Edge(f"out{number}", "head -c 4000000 /dev/zero; touch $out") for number in range(100)])
    status, size = greatest_size([builder, "-j", "4"], folder, 4, False)
    expect("status", 0, status)
    check(size < 320_000_000, f"the builder took {size} bytes")


def lost_outputs_are_dropped(builder: str, folder: pathlib.Path) -> None:
    """After a write has failed, outputs aren't kept."""
    write(folder, [Edge(f"out{number}", "head -c 4000000 /dev/zero; touch $out") for number in range(50)])
    status, size = greatest_size([builder, "-j", "4"], folder, 0, True)
    expect("status", 1, status)
    check(size < 80_000_000, f"the builder took {size} bytes")


def ended_edges_take_little(builder: str, folder: pathlib.Path) -> None:
    """A first build of 10,000 edges takes less than 18 MB: an edge that has ended has no stack, which is 1 KB."""
    statements = "".join(f"build out{number}: t\n" for number in range(10_000))
    programs.write({"build.ninja": f"rule t\n  command = : > $out\n{statements}"}, folder)
    status, size = greatest_size([builder, "-j", "4"], folder, 0, False)
    expect("status", 0, status)
    check(size < 18_000_000, f"the builder took {size} bytes")


# ---- texts, word for word

class Text(NamedTuple):
    """A build: its edges, the words, what must be printed, and the status. Files src and in are there."""

    edges: Sequence[Edge]
    printed: str
    status: int = 0
    words: str = "-j1"


BOTH = "echo a; echo b >&2; echo c; printf d >&2"
CHAIN = (Edge("a", "echo text; touch $out"), Edge("b", "touch $out", "a"))
FAILING = (Edge("a also", "echo text; exit 3"),)
TEXTS = {
    "both streams in their order": Text((Edge("a", f"{BOTH}; touch $out"), *CHAIN[1:]),
                                        "[1/2] a\na\nb\nc\nd\n[2/2] b\n"),
    "a blank line": Text((Edge("a", "echo; touch $out"), *CHAIN[1:]), "[1/2] a\n\n[2/2] b\n"),
    "no output": Text((Edge("a", "touch $out"), *CHAIN[1:]), "[1/2] a\n[2/2] b\n"),
    "an output that looks like a label": Text((Edge("a", "echo '[7/9] x'; touch $out"), *CHAIN[1:]),
                                              "[1/2] a\n[7/9] x\n[2/2] b\n"),
    "no description": Text((Edge("a", "touch $out", more="  description =\n"),), "[1/1] touch a\n"),
    "console": Text((Edge("a", "echo text; touch $out", more="  pool = console\n"),), "[0/1] a\ntext\n"),
    "console, failure": Text((Edge("a", "echo text; exit 3", more="  pool = console\n"),),
                             f"[0/1] a\ntext\nFAILED: [code=3] a \necho text; exit 3\n{STOPPED}", 1),
    "console, --quiet": Text((Edge("a", "echo text; touch $out", more="  pool = console\n"),), "text\n",
                             words="--quiet"),
    "failure": Text(FAILING, f"[1/1] a\nFAILED: [code=3] a also \necho text; exit 3\ntext\n{STOPPED}", 1),
    "failure without a line feed": Text((Edge("a", "printf text; exit 1"),), "[1/1] a\nFAILED: [code=1] a \n"
                                        f"printf text; exit 1\ntext\n{STOPPED}", 1),
    "failure without an output": Text((Edge("a", "exit 255"),),
                                      f"[1/1] a\nFAILED: [code=255] a \nexit 255\n{STOPPED}", 1),
    "implicit outputs": Text((Edge("a | b c", "exit 1"),), f"[1/1] a\nFAILED: [code=1] a b c \nexit 1\n{STOPPED}", 1),
    "signal": Text((Edge("a", "echo text; kill -9 $$$$"),),
                   f"[1/1] a\nFAILED: [signal] a \necho text; kill -9 $$\ntext\nended by SIGKILL\n{STOPPED}", 1),
    "signal without an output": Text((Edge("a", "kill -SEGV $$$$"),), "[1/1] a\nFAILED: [signal] a \nkill -SEGV $$\n"
                                     f"ended by SIGSEGV\n{STOPPED}", 1),
    "signal of a command of the shell": Text((Edge("a", "sh -c 'kill -9 $$$$' 2> /dev/null; exit 7"),),
                                             "[1/1] a\nFAILED: [code=7] a \nsh -c 'kill -9 $$' 2> /dev/null; exit 7\n"
                                             f"{STOPPED}", 1),
    "malformed depfile": Text((Edge("a", "echo text; echo a > d; touch $out", more="  depfile = d\n"),),
                              "[1/1] a\nFAILED: [depfile malformed 90 at 0] a \necho text; echo a > d; touch a\ntext\n"
                              f"{STOPPED}", 1),
    "one edge skipped": Text((Edge("a", "exit 1"), *CHAIN[1:]),
                             f"[1/2] a\nFAILED: [code=1] a \nexit 1\n1 skipped\n{STOPPED}", 1),
    "one edge not started": Text((Edge("a", "exit 1"), Edge("b", "touch $out")),
                                 f"[1/2] a\nFAILED: [code=1] a \nexit 1\n1 not started\n{STOPPED}", 1),
    "one that needs an edge not started": Text((Edge("a", "exit 1"), Edge("b", "touch $out", "c"), Edge("c", "true"),
                                                Edge("d", "touch $out", "a")),
                                               "[1/4] a\nFAILED: [code=1] a \nexit 1\n2 skipped, 1 not started\n"
                                               f"{STOPPED}", 1),
    "long chains first": Text((Edge("a", "touch $out"), Edge("b", "touch $out"), Edge("c", "touch $out"),
                               Edge("d", "touch $out", "c"), Edge("e", "touch $out", "d"),
                               Edge("f", "touch $out", "b")),
                              "".join(f"[{number}/6] {name}\n" for number, name in enumerate("cbdaef", 1)),
                              words="-j1"),
    "skipped with -k 2": Text((Edge("a", "exit 1"), Edge("b", "touch $out"), Edge("c", "touch $out", "a")),
                              "[1/3] a\nFAILED: [code=1] a \nexit 1\n[2/3] b\n1 skipped\n"
                              "ninja: build stopped: cannot make progress due to previous errors.\n", 1, "-j1 -k2"),
    "two failures with -k 2": Text((Edge("a", "exit 1"), Edge("b", "exit 2"), Edge("c", "touch $out", "a b")),
                                   "[1/3] a\nFAILED: [code=1] a \nexit 1\n[2/3] b\nFAILED: [code=2] b \nexit 2\n"
                                   "1 skipped\nninja: build stopped: subcommands failed.\n", 1, "-j1 -k2"),
    "-v": Text((Edge("a", f"{BOTH}; touch $out"), *CHAIN[1:]),
               f"[1/2] {BOTH}; touch a\na\nb\nc\nd\n[2/2] touch b\n", words="-j1 -v"),
    "-v, failure": Text(FAILING, "[1/1] echo text; exit 3\nFAILED: [code=3] a also \necho text; exit 3\ntext\n"
                        f"{STOPPED}", 1, "-v"),
    "-n": Text(CHAIN, "[1/2] a\n[2/2] b\n", words="-n"),
    "-n -v": Text(CHAIN, "[1/2] echo text; touch a\n[2/2] touch b\n", words="-n -v"),
    "--quiet": Text(CHAIN, "", words="--quiet"),
    "--quiet, failure": Text((*CHAIN, Edge("c", "echo text; exit 3", "b")),
                             f"FAILED: [code=3] c \necho text; exit 3\ntext\n{STOPPED}", 1, "--quiet"),
    "--quiet, skipped": Text((Edge("a", "exit 1"), *CHAIN[1:]),
                             f"FAILED: [code=1] a \nexit 1\n1 skipped\n{STOPPED}", 1, "--quiet"),
    "-v --quiet": Text(CHAIN, "", words="-v --quiet"),
    "--quiet -v": Text(CHAIN, "[1/2] echo text; touch a\ntext\n[2/2] touch b\n", words="-j1 --quiet -v"),
}


def text_is(text: Text, builder: str, folder: pathlib.Path) -> None:
    """A build prints just this text."""
    write(folder, text.edges)
    expect("printed, errors, status", (text.printed, "", text.status), says(builder, folder, *text.words.split()))


# ---- numbers

def failure_among_many(builder: str, folder: pathlib.Path) -> None:
    """One of 200 commands fails while three others run. 100 edges need it, and 96 need another one."""
    begun = "while ! [ -e begun0 -a -e begun1 -a -e begun2 ]; do sleep 0.02; done"
    gated = "while ! [ -e failed ]; do sleep 0.02; done; sleep 0.5; echo text; touch $out"
    edges = [Edge("bad also", f"{begun}; touch failed; echo first; echo second >&2; exit 3"),
             *(Edge(f"good{number}", f"touch begun{number}; {gated}") for number in range(3)),
             *(Edge(f"needs_bad{number}", "touch $out", "bad") for number in range(100)),
             *(Edge(f"needs_good{number}", "touch $out", f"good{number % 3}") for number in range(96))]
    write(folder, edges)
    printed, error, status = says(builder, folder, "-j", "4")
    lines = printed.splitlines()
    expect("errors and status", ("", 1), (error, status))
    expect("lines of the failure", ["[1/200] bad", "FAILED: [code=3] bad also ", edges[0].command, "first", "second"],
           lines[:5])
    expect("labels after it", ["[2/200] good", "text", "[3/200] good", "text", "[4/200] good", "text"],
           [line.rstrip("012") if line.startswith("[") else line for line in lines[5:11]])
    expect("the end", ["100 skipped, 96 not started", STOPPED.strip()], lines[11:])


def tree() -> List[Edge]:
    """Returns fifty edges: objects, libraries of eight objects, and two programs of three libraries."""
    objects = [Edge(f"o{number}", "sleep 0.3; touch $out", f"s{number}") for number in range(42)]
    names = [edge.name() for edge in objects]
    libraries = [Edge(f"l{number}", "touch $out", " ".join(names[number * 7:number * 7 + 7])) for number in range(6)]
    return [*objects, *libraries, Edge("p0", "touch $out", "l0 l1 l2"), Edge("p1", "touch $out", "l3 l4 l5")]


def one_change(jobs: str, builder: str, folder: pathlib.Path) -> None:
    """After one source is touched, m is the number of commands that run, as with ninja.

    With several lanes another one may find out later that an edge is clean. The last line has the number in any case.
    """
    programs.write({f"s{number}": "" for number in range(42)}, folder)
    write(folder, tree())
    expect("status of the first build", 0, says(builder, folder, "-j", "64")[2])
    time.sleep(TICK)
    (folder / "s10").touch()
    printed, error, status = says(builder, folder, "-j", jobs)
    expect("errors and status", ("", 0), (error, status))
    total = "3" if jobs == "1" else r"\d+"
    said = re.fullmatch(rf"\[1/{total}\] o10\n\[2/{total}\] l1\n\[3/3\] p0\n", printed)
    check(said is not None, f"it said {printed!r}")


def labels_before_commands(builder: str, folder: pathlib.Path) -> None:
    """At -j 1 the label of a command is printed while the next one runs: each command waits for the label before."""
    log = folder / "log"
    waits = "for i in $$(seq 600); do grep -q ' {before}$$' log && exec touch $out; sleep 0.05; done; exit 1"
    names = [f"a{number}" for number in range(9)]
    write(folder, [Edge(names[0], "touch $out"),
                   *(Edge(name, waits.format(before=before)) for before, name in zip(names, names[1:]))])
    with log.open("wb") as out:
        done = subprocess.run([builder, "-j", "1"], cwd=folder, stdin=subprocess.DEVNULL, stdout=out)
    lines = "".join(f"[{number}/9] {name}\n" for number, name in enumerate(names, 1))
    expect("status and log", (0, lines), (done.returncode, log.read_text()))


def clean_after_a_restat(builder: str, folder: pathlib.Path) -> None:
    """A command leaves its output as it was. The edges that need it turn out to be clean, and m shrinks."""
    edges = [Edge("a", "test -e a || touch a", "src", "  restat = 1\n"), Edge("b", "touch $out", "a"),
             Edge("c", "touch $out", "b"), Edge("d", "touch $out", "in || c")]
    programs.write({"src": "", "in": ""}, folder)
    write(folder, edges)
    expect("first", ("[1/4] a\n[2/4] b\n[3/4] c\n[4/4] d\n", "", 0), says(builder, folder))
    time.sleep(TICK)
    for name in ("src", "in"):
        (folder / name).touch()
    expect("second", ("[1/4] a\n[2/2] d\n", "", 0), says(builder, folder, "-j", "1"))


# ---- sources that a command removes

SENTENCE = "ninja: error: 'src', needed by 'out', missing and no known rule to make it\n"
REMOVED = [Edge("first", "rm -f src; touch $out"), Edge("out", "touch $out", "src || first"),
           Edge("a", "touch $out", "out"), Edge("b", "touch $out", "a")]


def missing_with_others(builder: str, folder: pathlib.Path) -> None:
    """A source that is missing when its edge begins has ninja's sentence. The edges that need the edge are counted."""
    write(folder, REMOVED)
    (folder / "src").touch()
    stopped = "ninja: build stopped: cannot make progress due to previous errors.\n"
    expect("said", (f"[1/2] first\n{SENTENCE}2 skipped\n{stopped}", "", 1),
           (lambda said: (re.sub(r"\[\d/\d\]", "[1/2]", said[0]), *said[1:]))(says(builder, folder, "-k", "0")))


# ---- standard output that can't be written

def lost(redirection: str, builder: str, folder: pathlib.Path) -> None:
    """Everything is built, but the status is 1."""
    write(folder, CHAIN)
    done = subprocess.run(["sh", "-c", f'"$0" {redirection}', builder], cwd=folder, stdin=subprocess.DEVNULL,
                          stderr=subprocess.PIPE, timeout=programs.SECONDS)
    expect("said", (LOST_OUTPUT.encode(), 1), (done.stderr, done.returncode))
    check((folder / "b").exists(), "b isn't built")


def closed_pipe(words: Sequence[str], builder: str, folder: pathlib.Path) -> None:
    """If nobody reads the output any more, commands that run are waited for, and no further one begins."""
    write(folder, [Edge(f"out{number}", "sleep 0.02; touch $out") for number in range(200)])
    child = subprocess.Popen([builder, "-j", "2", *words], cwd=folder, stdin=subprocess.DEVNULL, stdout=subprocess.PIPE,
                             stderr=subprocess.PIPE)
    assert child.stdout and child.stderr
    expect("first line", b"[1/200] ", child.stdout.readline()[:8])
    child.stdout.close()
    said = child.stderr.read()
    child.stderr.close()
    expect("status and end", (1, True), (child.wait(timeout=PATIENCE), said.endswith(LOST_OUTPUT.encode())))
    made = sum(1 for name in os.listdir(folder) if name.startswith("out"))
    check(made < 100, f"{made} commands ran")
    expect("next", 0, programs.run([builder], folder).returncode)


# ---- ninja

def ninja_counts(folder: pathlib.Path) -> None:
    """ninja prints the lines of `one_change` too."""
    ninja = shutil.which("ninja")
    if not ninja:
        raise LeftOut("ninja is missing")
    one_change("4", ninja, folder)


# ---- on a terminal

def on_terminal(builder: str, folder: pathlib.Path, kind: str, *words: str, columns: int = 0,
                **more: str) -> tuple[bytes, int]:
    """Builds with standard output on a terminal of this kind, and returns what was written to it, and the status.

    The terminal doesn't know its width if `columns` is 0. `more` are variables of the environment.
    """
    terminal, other = pty.openpty()
    fcntl.ioctl(other, termios.TIOCSWINSZ, struct.pack("HHHH", 24 if columns else 0, columns, 0, 0))
    done = subprocess.Popen([builder, *words], cwd=folder, stdin=subprocess.DEVNULL, stdout=other, stderr=other,
                            env={"PATH": "/usr/bin:/bin", "TERM": kind, **more})
    os.close(other)
    shown = b""
    while True:
        try:
            some = os.read(terminal, 65536)
        except OSError:  # the other end is closed
            some = b""
        if not some:
            break
        shown += some
    os.close(terminal)
    return shown, done.wait(timeout=PATIENCE)


LONG = "x" * 100
RED = b"\x1b[31mFAILED: \x1b[0m"
FIRST = Edge("a", "touch $out")
SHOWN = (  # each edge needs the one before, so that they end in their order
    ("nothing printed", [FIRST, Edge(f"b{LONG}", "touch $out", "a")], (), 0, [f"[2/2] b{LONG}"[:80]]),
    ("an output", [FIRST, Edge("b", "echo warning; touch $out", "a"), Edge("c", "touch $out", "b")], (), 0,
     ["[2/3] b", "warning", "[3/3] c"]),
    ("an output at the end", [FIRST, Edge("b", "printf end; touch $out", "a")], (), 0, ["[2/2] b", "end"]),
    ("a failure", [FIRST, Edge("b", "echo bad; exit 3", "a"), Edge("c", "touch $out", "b")], (), 1,
     ["[2/3] b", "FAILED: [code=3] b ", "echo bad; exit 3", "bad", "1 skipped", STOPPED.strip()]),
    ("a console command", [Edge("a", "echo warning; touch $out"),
                           Edge("b", "echo question; touch $out", "a", "  pool = console\n"),
                           Edge("c", "touch $out", "b")], (), 0,
     ["[1/3] a", "warning", "[1/3] b", "question", "[3/3] c"]),
    ("commands", [FIRST], ("-v",), 0, ["[1/1] touch a"]),
    ("only failures", [Edge("a", "echo loud; touch $out"), Edge("b", "false", "a")], ("--quiet",), 1,
     ["FAILED: [code=1] b ", "false", STOPPED.strip()]),
)


def screen_is(edges: Sequence[Edge], words: Sequence[str], status: int, rows: Sequence[str], builder: str,
              folder: pathlib.Path) -> None:
    """A line is written over in place, and all other text has lines of its own."""
    write(folder, edges)
    shown, ended = on_terminal(builder, folder, "xterm", "-j", "1", *words)
    expect("status", status, ended)
    expect("screen", [row.encode() for row in rows] + [b""], Screen(shown).rows)
    if not words:
        check(f"[0/{len(edges)}] a".encode() in shown, f"no line for a command that starts: {shown!r}")


def failed_in_red(builder: str, folder: pathlib.Path) -> None:
    """`FAILED:` is red if escape sequences are wanted, as with ninja."""
    ninja = shutil.which("ninja")
    write(folder, [Edge("a", "exit 3")])
    for program in [builder] + [ninja] * (ninja is not None):
        for kind, wanted in (("xterm", True), ("dumb", False)):
            shown, status = on_terminal(program, folder, kind)
            expect("status", 1, status)
            expect(f"{program} showed red on {kind}", (wanted, not wanted),
                   (RED in shown, b"FAILED: " in shown.replace(RED, b"")))
        for forced, wanted in (("1", True), ("0", False)):
            done = subprocess.run([program], cwd=folder, stdin=subprocess.DEVNULL, capture_output=True,
                                  timeout=programs.SECONDS, env={**os.environ, "CLICOLOR_FORCE": forced})
            expect(f"{program} printed red with CLICOLOR_FORCE={forced}", wanted, RED in done.stdout)


# The label, and what is shown of it by the columns of the terminal.
LABEL_OF_42 = "abcdefghijklmnopqrstuvwxyz0123456789"
CUT = {20: "[1/1] ab...23456789", 21: "[1/1] abc...123456789", 41: "[1/1] abcdefghijklm...rstuvwxyz0123456789",
       42: f"[1/1] {LABEL_OF_42}", 3: "..."}


def last_line(builder: str, folder: pathlib.Path, label: str, columns: int, **more: str) -> str:
    """Builds on a terminal with this number of columns, and returns the last line without escape sequences."""
    folder.mkdir()
    programs.write({"build.ninja": f"rule r\n  command = touch $out\n  description = {label}\nbuild a: r\n"}, folder)
    shown, status = on_terminal(builder, folder, "xterm", columns=columns, **more)
    expect("status", 0, status)
    return re.sub(rb"\x1b\[[?0-9]*[a-zA-Z]", b"", shown).strip().split(b"\r")[-1].decode()


def cut_in_the_middle(builder: str, folder: pathlib.Path) -> None:
    """A line that is too long for the terminal is cut in its middle, as by ninja, so that its end is shown."""
    ninja = shutil.which("ninja")
    for program in [builder] + [ninja] * (ninja is not None):
        for columns, wanted in CUT.items():
            place = folder / f"{pathlib.Path(program).name}{columns}"
            expect(f"{program} on {columns} columns", wanted, last_line(program, place, LABEL_OF_42, columns))
    expect("by COLUMNS", CUT[20], last_line(builder, folder / "set", LABEL_OF_42, 0, COLUMNS="20"))
    expect("unknown width", CUT[42], last_line(builder, folder / "unset", LABEL_OF_42, 0, COLUMNS="wide"))
    expect("other characters", f"[1/1] {'ä' * 40}", last_line(builder, folder / "other", "ä" * 40, 20))


def dumb_terminal(builder: str, folder: pathlib.Path) -> None:
    """On a terminal without escape sequences each command has a line."""
    write(folder, [FIRST, Edge("b", "touch $out", "a")])
    expect("shown", (b"[1/2] a\r\n[2/2] b\r\n", 0), on_terminal(builder, folder, "dumb", "-j", "1"))


# ---- the text before a label

SIDE_BY_SIDE = (Edge("a", "while ! [ -e gate ]; do sleep 0.02; done; sleep 0.2; touch $out"),
                Edge("b", "sleep 0.2; touch gate $out"), Edge("c", "touch $out", "a b"))
NUMBERS = "%s/%t %p %r %u %f%%: "
TEMPLATES = {
    "numbers": (NUMBERS, ["1/3  33% 1 2 1%: a", "2/3  66% 1 1 2%: b", "3/3 100% 1 0 3%: c"]),
    "no text": ("", ["a", "b", "c"]),
    "text only": ("» 100%%s ", ["» 100%s a", "» 100%s b", "» 100%s c"]),
    "predicted percentage": ("%P ", [" 33% a", " 66% b", "100% c"]),
}
IN_ORDER = (Edge("a", "touch $out"), Edge("b", "touch $out", "a"), Edge("c", "touch $out", "b"))
REFUSED = {"%f %x": "x", "%": "\0", "%f %%%": "\0", "%y": "y"}


def with_template(template: str, builder: str, folder: pathlib.Path, *words: str) -> Tuple[str, str, int]:
    """Builds with this NINJA_STATUS, and returns what was printed, the errors, and the status."""
    done = subprocess.run([builder, *words], cwd=folder, stdin=subprocess.DEVNULL, capture_output=True,
                          timeout=programs.SECONDS, env={**os.environ, "NINJA_STATUS": template})
    return done.stdout.decode(), done.stderr.decode(), done.returncode


def template_is_shown(template: str, lines: Sequence[str], builder: str, folder: pathlib.Path) -> None:
    """Each label comes after the text of the template, as with ninja if ninja 1.11 knows all placeholders."""
    write(folder, IN_ORDER)
    said = ("".join(f"{line}\n" for line in lines), "", 0)
    expect("said", said, with_template(template, builder, folder, "-j", "1"))
    ninja = shutil.which("ninja")
    if ninja and "%P" not in template:
        for edge in IN_ORDER:
            (folder / edge.name()).unlink()
        expect("ninja said", said, with_template(template, ninja, folder, "-j", "1"))


def numbers_side_by_side(builder: str, folder: pathlib.Path) -> None:
    """Two commands run at once. The first one that ends still counts as one that runs, as with ninja."""
    ninja = shutil.which("ninja")
    for program in [builder] + [ninja] * (ninja is not None):
        place = folder / pathlib.Path(program).name
        place.mkdir()
        write(place, SIDE_BY_SIDE)
        said = "2/3  33% 2 1 1%: b\n2/3  66% 1 1 2%: a\n3/3 100% 1 0 3%: c\n"
        expect(f"{program} said", (said, "", 0), with_template(NUMBERS, program, place, "-j", "2"))


def missing_source_has_started(builder: str, folder: pathlib.Path) -> None:
    """An edge with a missing source counts as started, so the number of commands that run stays right."""
    write(folder, [*REMOVED[:2], Edge("b", "touch $out", "|| first"), Edge("c", "touch $out", "b")])
    (folder / "src").touch()
    printed, error, status = with_template(NUMBERS, builder, folder, "-j", "1", "-k", "0")
    expect("errors and status", ("", 1), (error, status))
    expect("last label", "4/4 100% 1 0 4%: c", [line for line in printed.splitlines() if "%: " in line][-1])


def times(builder: str, folder: pathlib.Path) -> None:
    """`%e` is the time since the build began, and `%o` the number of commands that have finished, divided by it."""
    ninja = shutil.which("ninja")
    for program in [builder] + [ninja] * (ninja is not None):
        place = folder / pathlib.Path(program).name
        place.mkdir()
        write(place, [Edge("a", "sleep 0.3; touch $out"), Edge("b", "sleep 0.3; touch $out", "a")])
        begun = time.monotonic()
        printed, error, status = with_template("%f %e %o ", program, place)
        whole = time.monotonic() - begun
        expect("errors and status", ("", 0), (error, status))
        for number, line in enumerate(printed.splitlines(), 1):
            said = re.fullmatch(rf"{number} (\d+\.\d\d\d) (\d+\.\d) [ab]", line)
            check(said is not None, f"{program} said {line!r}")
            assert said
            passed, rate = float(said[1]), float(said[2])
            check(0.29 * number <= passed <= whole, f"{program} said {line!r} of a build of {whole} seconds")
            check(abs(rate - number / passed) <= 0.06, f"{program} said {line!r}")


def time_left(builder: str, folder: pathlib.Path) -> None:
    """`%E` is the time so far when half of the commands have finished, and 0 at the end. ninja 1.11 doesn't have it."""
    write(folder, [Edge("a", "sleep 0.3; touch $out"), Edge("b", "touch $out", "a")])
    printed, error, status = with_template("%e %E %w %W ", builder, folder, "-j", "1")
    expect("errors and status", ("", 0), (error, status))
    said = re.fullmatch(r"(\d+\.\d{3}) \1 (00:\d\d) \2 a\n\d+\.\d{3} 0\.000 00:\d\d 00:00 b\n", printed)
    check(said is not None, f"{builder} said {printed!r}")


def rate_of_the_last(builder: str, folder: pathlib.Path) -> None:
    """`%c` isn't known when the first command has finished. Then it is 2, divided by the time between both ends."""
    ninja = shutil.which("ninja")
    for program in [builder] + [ninja] * (ninja is not None):
        place = folder / pathlib.Path(program).name
        place.mkdir()
        write(place, [Edge("a", "touch $out"), Edge("b", "sleep 0.3; touch $out", "a")])
        printed, error, status = with_template("%e %c ", program, place, "-j", "8")
        expect("errors and status", ("", 0), (error, status))
        said = re.fullmatch(r"(\d+\.\d{3}) \? a\n(\d+\.\d{3}) (\d+\.\d) b\n", printed)
        check(said is not None, f"{program} said {printed!r}")
        assert said
        between = float(said[2]) - float(said[1])
        check(abs(float(said[3]) - 2 / between) <= 0.06, f"{program} said {printed!r}")


def only_command_on_terminal(builder: str, folder: pathlib.Path) -> None:
    """The command that still runs when all others have ended is shown after their text."""
    write(folder, [Edge("a", "while ! [ -e b ]; do sleep 0.02; done; sleep 0.3; touch $out"),
                   Edge("b", "while ! [ -e c ]; do sleep 0.02; done; sleep 0.3; echo text; touch $out"),
                   Edge("c", "touch $out")])
    shown, status = on_terminal(builder, folder, "xterm", "-j", "3")
    lines = [re.sub(rb"\x1b\[[?0-9]*[a-zA-Z]", b"", line).strip() for line in shown.split(b"\r")]
    wanted = [b"[1/3] c", b"[2/3] b", b"text", b"[2/3] a", b"[3/3] a"]
    expect("shown", (wanted, 0), ([line for line in lines if line][-len(wanted):], status))


def numbers_on_terminal(builder: str, folder: pathlib.Path) -> None:
    """A command that starts shows numbers too, and so does ninja."""
    ninja = shutil.which("ninja")
    wanted = ["1/2   0% 1 1 0%: a", "1/2  50% 1 1 1%: a", "2/2  50% 1 0 1%: b", "2/2 100% 1 0 2%: b"]
    for program in [builder] + [ninja] * (ninja is not None):
        place = folder / pathlib.Path(program).name
        place.mkdir()
        write(place, IN_ORDER[:2])
        shown, status = on_terminal(program, place, "xterm", "-j", "1", NINJA_STATUS=NUMBERS)
        lines = [re.sub(rb"\x1b\[[?0-9]*[a-zA-Z]", b"", line).strip().decode() for line in shown.split(b"\r")]
        expect(f"{program} showed", (wanted, 0), ([line for line in lines if line], status))


def unknown_placeholder(template: str, byte: str, builder: str, folder: pathlib.Path) -> None:
    """A template with an unknown placeholder is refused before a command runs, in ninja's words."""
    write(folder, IN_ORDER)
    error = f"ninja: fatal: unknown placeholder '%{byte}' in $NINJA_STATUS\n"
    expect("said", ("", error, 1), with_template(template, builder, folder))
    check(not (folder / "a").exists(), "a command ran")
    expect("errors and status of a tool", ("", 0), with_template(template, builder, folder, "-t", "targets")[1:])
    ninja = shutil.which("ninja")
    if ninja:
        expect("ninja said", ("", error, 1), with_template(template, ninja, folder))


def cases(setting: Setting) -> Iterator[Case]:
    """Yields builds whose commands run side by side, then texts, and numbers."""
    builder = programs.front(setting.program)
    for count, jobs in ((60, "8"), (300, "64"), (60, "2")):
        yield Case(f"{count} commands at -j {jobs}", functools.partial(parallel, count, jobs, builder))
    for name, text in TEXTS.items():
        yield Case(name, functools.partial(text_is, text, builder))
    for jobs in ("1", "2", "4"):
        yield Case(f"one change at -j {jobs}", functools.partial(one_change, jobs, builder))
    yield Case("labels before commands", functools.partial(labels_before_commands, builder))
    for redirection in (">&-", ">/dev/full"):
        yield Case(f"output {redirection}", functools.partial(lost, redirection, builder))
    for words in ((), ("-k", "0")):
        yield Case(f"closed pipe {' '.join(words)}", functools.partial(closed_pipe, words, builder))
    for name, edges, words, status, rows in SHOWN:
        yield Case(f"terminal {name}", functools.partial(screen_is, edges, words, status, rows, builder))
    for name, (template, lines) in TEMPLATES.items():
        yield Case(f"template {name}", functools.partial(template_is_shown, template, lines, builder))
    for template, byte in REFUSED.items():
        yield Case(f"template {template}", functools.partial(unknown_placeholder, template, byte, builder))
    yield Case("dumb terminal", functools.partial(dumb_terminal, builder))
    yield Case("ninja's counts", ninja_counts)
    trials: Tuple[Callable[[str, pathlib.Path], None], ...] = (
        failures_side_by_side, while_the_console_is_used, manifest_made_again, large, failure_among_many,
        clean_after_a_restat, missing_with_others, numbers_side_by_side, missing_source_has_started,
        times, time_left, rate_of_the_last, only_command_on_terminal, numbers_on_terminal, failed_in_red,
        cut_in_the_middle, label_before_a_console_command, outputs_are_limited, lost_outputs_are_dropped,
        ended_edges_take_little)
    for trial in trials:
        yield Case(trial.__name__.replace("_", " "), functools.partial(trial, builder))
