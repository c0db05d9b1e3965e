"""Reads the status lines of the program while its commands run.

A command waits at a gate, a FIFO, that opens after the line of another was read: a program that prints its lines at the
end never gets there. Standard output also fails or is closed, and a console command runs at the same time.
"""
from __future__ import annotations

import functools
import os
import pathlib
import select
import subprocess
from collections.abc import Iterator
from typing import Callable, List

from lib import programs
from lib.suite import PATIENCE, Case, Setting, Wrong, until

ALONE = True


class Tree:
    """A manifest of edges, its image, and a gate for each that is named."""

    def __init__(self, program: str, folder: pathlib.Path, jobs: int) -> None:
        self.program, self.folder, self.jobs = program, folder, jobs
        self.manifest = ""
        self.gates: list[int] = []

    def edge(self, name: str, command: str, needs: str = "", says: str = "", pool: str = "") -> None:
        self.manifest += f"rule r{name}\n  command = {command}\n  description = {says or name}\n  pool = {pool}\n"
        self.manifest += f"build {name}: r{name} {needs}\n"

    def gate(self, name: str) -> str:
        """Creates a gate; returns a command that waits until it is opened."""
        os.mkfifo(self.folder / name)
        return f"read word < {name}"

    def open(self, name: str) -> None:
        """Opens a gate."""
        gate = os.open(self.folder / name, os.O_RDWR)
        self.gates.append(gate)
        os.write(gate, b"go\n")

    def start(self, words: tuple[str, ...] = (), stdout: int = subprocess.PIPE) -> Run:
        """Compiles the manifest, and starts a run of the image."""
        programs.write({"build.ninja": self.manifest}, self.folder)
        programs.printed_lines([self.program, "compile", "build.ninja", "-o", "plan.img"], self.folder)
        words = ("-j", str(self.jobs), *words, "--trace", "plan.trace")
        return Run([self.program, "run", *words, "plan.img"], self.folder, stdout)

    def replays(self, status: int, *lines: str) -> None:
        """Checks that the trace is whole: its status lines are these."""
        wanted = (status, "".join(f"{line}\n" for line in lines).encode())
        found = programs.replayed(self.program, self.folder)
        if found != wanted:
            raise Wrong(f"replay gives {found!r}, not {wanted!r}")

    def until(self, name: str) -> None:
        """Waits until a command has written a file."""
        until((self.folder / name).exists, f"{name} isn't written")

    def done(self) -> None:
        """Closes the gates."""
        for gate in self.gates:
            os.close(gate)


class Run:
    """A program that runs, what it printed that wasn't read, and how it ends."""

    def __init__(self, words: list[str], folder: pathlib.Path, stdout: int) -> None:
        self.child = subprocess.Popen(words, cwd=folder, stdin=subprocess.DEVNULL, stdout=stdout,
                                      stderr=subprocess.PIPE)
        self.unread = b""

    def more(self) -> bool:
        """Reads what comes next; returns False at the end."""
        assert self.child.stdout
        if not select.select([self.child.stdout], [], [], PATIENCE)[0]:
            raise Wrong(f"nothing comes after {self.unread!r}")
        piece = os.read(self.child.stdout.fileno(), 65_536)
        self.unread += piece
        return piece != b""

    def line(self) -> bytes:
        """Returns the next line."""
        while b"\n" not in self.unread:
            if not self.more():
                raise Wrong(f"it ends at {self.unread!r}")
        found, _, self.unread = self.unread.partition(b"\n")
        return found

    def reads(self, *wanted: str) -> None:
        """Checks that the next lines are these."""
        for line in wanted:
            found = self.line()
            if found != line.encode():
                raise Wrong(f"it printed {found!r}, not {line!r}")

    def ends(self, status: int, said: bytes = b"") -> None:
        """Checks that it prints nothing more, and ends with this status and this standard error."""
        if self.child.stdout:
            while self.more():
                pass
        errors = self.child.communicate(timeout=PATIENCE)[1]
        if (self.unread, self.child.returncode, errors) != (b"", status, said):
            raise Wrong(f"it ended with {self.child.returncode}, printed {self.unread!r}, and said {errors!r}")

    def kill(self) -> None:
        """Kills the program if it still runs."""
        if self.child.poll() is None:
            self.child.kill()
            self.child.communicate()


Trial = Callable[[Tree, List[Run]], None]


def chain_of_gates(tree: Tree, runs: list[Run]) -> None:
    """Each command waits until the line of the one before it was read."""
    tree.edge("a", "touch a")
    for name, before in ("b", "a"), ("c", "b"), ("d", "c"):
        tree.edge(name, f"{tree.gate('gate' + name)} && touch {name}", before)
    runs.append(tree.start())
    for number, name in enumerate("abc", 1):
        runs[-1].reads(f"[{number}/4] {name}")
        tree.open("gate" + "bcd"[number - 1])
    runs[-1].reads("[4/4] d")
    runs[-1].ends(0)
    tree.replays(0, "[1/4] a", "[2/4] b", "[3/4] c", "[4/4] d")


def failures_and_skips(tree: Tree, runs: list[Run]) -> None:
    """Lines of other sorts come too, while another command waits."""
    tree.edge("a", "exit 3")
    tree.edge("b", "touch b", "a")
    tree.edge("c", "touch c")
    tree.edge("d", f"{tree.gate('gate')} && touch d", "c")
    runs.append(tree.start(("-k", "0")))
    seen = [runs[-1].line() for _ in range(3)]
    told = sorted(line for line in seen if not line.startswith(b"["))
    if told != [b"FAILED a: exit 3", b"SKIPPED b: needs a"] or not any(line.endswith(b"/4] c") for line in seen):
        raise Wrong(f"it printed {seen!r}")
    tree.open("gate")
    runs[-1].reads("[4/4] d")
    runs[-1].ends(1)
    tree.replays(1, *(line.decode() for line in seen), "[4/4] d")


def text_and_line(tree: Tree, runs: list[Run]) -> None:
    """What a command prints comes before its line."""
    tree.edge("a", "echo text; touch a")
    tree.edge("b", f"{tree.gate('gate')} && touch b", "a")
    runs.append(tree.start())
    runs[-1].reads("text", "[1/2] a")
    tree.open("gate")
    runs[-1].reads("[2/2] b")
    runs[-1].ends(0)


def nobody_reads(tree: Tree, runs: list[Run]) -> None:
    """All is built while no line is taken; then all lines come, each once and in their order."""
    names = [f"n{number:03}" for number in range(700)]
    for name in names:
        tree.edge(name, f"touch {name}", says=name + "." * 200)
    tree.edge("last", "touch last", " ".join(names))
    runs.append(tree.start())
    tree.until("last")
    found = [runs[-1].line() for _ in range(701)]
    if [line.partition(b"]")[0] for line in found] != [b"[%d/701" % number for number in range(1, 702)]:
        raise Wrong("the lines aren't in their order")
    if sorted(line.partition(b"] ")[2].rstrip(b".").decode() for line in found) != sorted([*names, "last"]):
        raise Wrong("lines are missing")
    runs[-1].ends(0)


def other_lines_wait(tree: Tree, runs: list[Run]) -> None:
    """While a console command runs, the lines of others wait."""
    console = f"echo begun; {tree.gate('end')}; echo done; touch con"
    tree.jobs = max(tree.jobs, 2)
    tree.edge("con", console, pool="console")
    tree.edge("other", f"{tree.gate('gate')} && touch other && echo text")
    tree.edge("behind", "touch behind", "other")
    runs.append(tree.start())
    runs[-1].reads("begun")
    tree.open("gate")
    tree.until("other")
    tree.open("end")
    runs[-1].reads("done")
    while runs[-1].more():
        pass
    found = sorted(line.partition(b"] ")[2] or line for line in runs[-1].unread.splitlines())
    runs[-1].unread = b""
    if found != [b"behind", b"con", b"other", b"text"]:
        raise Wrong(f"after the console command it printed {found!r}")
    runs[-1].ends(0)


def reader_goes_away(tree: Tree, runs: list[Run]) -> None:
    """If nobody reads more than the first line, all is built, the fault is printed, and the trace is whole."""
    tree.edge("a", "touch a")
    tree.edge("b", f"{tree.gate('gate')} && touch b", "a")
    tree.edge("c", "touch c", "b")
    runs.append(tree.start())
    runs[-1].reads("[1/3] a")
    assert runs[-1].child.stdout
    runs[-1].child.stdout.close()
    runs[-1].child.stdout = None
    tree.open("gate")
    runs[-1].ends(2, b"plan: 133 FileFault -\n")
    tree.until("c")
    tree.replays(0, "[1/3] a", "[2/3] b", "[3/3] c")


def full_device(tree: Tree, runs: list[Run]) -> None:
    """If nothing can be written, all is built, the fault is printed, and the trace is whole."""
    for name, before in ("a", ""), ("b", "a"), ("c", "b"):
        tree.edge(name, f"touch {name}", before)
    full = os.open("/dev/full", os.O_WRONLY)
    runs.append(tree.start(stdout=full))
    os.close(full)
    runs[-1].ends(2, b"plan: 133 FileFault -\n")
    tree.until("c")
    tree.replays(0, "[1/3] a", "[2/3] b", "[3/3] c")


TRIALS: tuple[Trial, ...] = (chain_of_gates, failures_and_skips, text_and_line, nobody_reads,
                             other_lines_wait, reader_goes_away, full_device)


def check(program: str, trial: Trial, jobs: int, folder: pathlib.Path) -> None:
    """Does a trial, and ends what it started."""
    runs: list[Run] = []
    tree = Tree(program, folder, jobs)
    try:
        trial(tree, runs)
    finally:
        for run in runs:
            run.kill()
        tree.done()


def cases(setting: Setting) -> Iterator[Case]:
    """Yields the trials, each with several numbers of jobs."""
    for trial in TRIALS:
        for jobs in (1, 2, 8):
            yield Case(f"{trial.__name__} -j {jobs}", functools.partial(check, setting.program, trial, jobs))
