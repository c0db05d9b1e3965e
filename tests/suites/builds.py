"""Builds small trees with the program, changes them, builds them again, and does the same with ninja.

The cases are in tests/builds; lib/build_cases.py has their form. At each `run` both must have run the same commands,
and left the same files, unless ninja does something else there. Each run writes its trace too, except those with their
own `--trace`: `replay` must print the run's status lines and end with its status, and a refused run leaves no trace.
"""
from __future__ import annotations

import functools
import os
import pathlib
import re
import shlex
import shutil
import subprocess
import time
from collections.abc import Iterator

from lib import build_cases, programs
from lib.build_cases import Build, Step
from lib.suite import Case, LeftOut, Setting, Wrong

TICK = 0.012  # seconds: longer than the clock of files needs to move on
OWN = {"plan.img", ".plan_record", "plan.trace"}  # and the locks of records
NINJAS = {".ninja_log", ".ninja_deps"}
LINE = re.compile(rb"\[(\d+)/(\d+)\] (.*)")


def change(step: Step, folder: pathlib.Path) -> None:
    """Does a step that changes files."""
    path = folder / step.words
    if step.name == "delete":
        path.unlink()
    elif step.name == "folder":
        path.mkdir(parents=True)
    elif step.name == "touch":
        os.utime(path)
    else:
        path.parent.mkdir(parents=True, exist_ok=True)
        with path.open("ab" if step.name == "append" else "wb") as file:
            file.write(step.text())
        if step.name == "executable":
            path.chmod(0o755)


def files(folder: pathlib.Path) -> dict[str, bytes]:
    """Returns the files below a folder, except those that only one of the two builders writes."""
    found = {str(path.relative_to(folder)): path for path in folder.rglob("*") if path.is_file()}
    return {name: path.read_bytes() for name, path in found.items()
            if name not in OWN | NINJAS and not name.endswith(".lock")}


def fits(wanted: list[bytes], found: list[bytes]) -> bool:
    """Checks whether lines are those that are wanted."""
    if not any(line.startswith(b"[*/") for line in wanted):
        return wanted == found
    numbers = [int(line[1]) for line in map(LINE.fullmatch, found) if line]
    left = [line for line in found if line not in wanted]
    loose = [LINE.sub(rb"[*/\2] \3", line) for line in left]
    return sorted(line for line in wanted if line not in found) == sorted(loose) and numbers == sorted(set(numbers))


class Trial:
    """A case in its two folders."""

    def __init__(self, program: str, ninja: str | None, folder: pathlib.Path) -> None:
        self.program, self.ninja = program, ninja
        self.ours, self.theirs = folder / "ours", folder / "theirs"
        self.ours.mkdir()
        self.theirs.mkdir()
        self.done: subprocess.CompletedProcess[bytes] | None = None

    def ran(self, words: list[str], place: str) -> None:
        """Compiles the manifest as it is now, and runs the image."""
        self.done = programs.run([self.program, "compile", "build.ninja", "-o", "plan.img"], self.ours)
        if self.done.returncode == 0:
            traced = [] if "--trace" in words else ["--trace", "plan.trace"]
            self.done = programs.run([self.program, "run", "plan.img", *traced, *words], self.ours)
            if traced:
                self.replayed(place)

    def replayed(self, place: str) -> None:
        """Checks that the trace tells the same of the run; a refused run has none."""
        trace = self.ours / "plan.trace"
        assert self.done
        self.expect("trace of a run that wasn't refused", self.done.returncode != 2, trace.exists(), place)
        if trace.exists():
            status, lines = programs.replayed(self.program, self.ours)
            trace.unlink()
            self.expect("replayed status", self.done.returncode, status, place)
            printed = self.done.stdout[-len(lines):] if lines else b""
            self.expect("replayed lines", printed, lines, place)

    def compare(self, words: list[str], place: str) -> None:
        """Runs ninja, and compares the commands and the files."""
        assert self.ninja and self.done
        theirs = programs.run([self.ninja, "-v", "-d", "keepdepfile", *words], self.theirs)
        if (theirs.returncode == 0) != (self.done.returncode == 0):
            said = theirs.stdout.decode()
            raise Wrong(f"{place}: status {self.done.returncode}, ninja's {theirs.returncode}\n{said}")
        commands = sorted(line[3] for line in map(LINE.fullmatch, theirs.stdout.splitlines()) if line)
        ours = [line[3] for line in map(LINE.fullmatch, self.done.stdout.splitlines()) if line]
        failed = [line for line in self.done.stdout.splitlines() if line.startswith(b"FAILED ") and b": exit " in line]
        if len(ours) + len(failed) != len(commands) or (not failed and sorted(ours) != commands):
            raise Wrong(f"{place}: ninja ran {b', '.join(commands).decode()}")
        one, other = files(self.ours), files(self.theirs)
        if one != other:
            differ = sorted(name for name in one.keys() | other.keys() if one.get(name) != other.get(name))
            raise Wrong(f"{place}: other files than ninja's: {', '.join(differ)}")

    def expect(self, what: str, wanted: object, found: object, place: str) -> None:
        if wanted != found:
            raise Wrong(f"{place}: {what} {found!r}, not {wanted!r}")

    def need(self, tool: str) -> None:
        """Leaves the case out if there is no program of this name."""
        if shutil.which(tool) is None:
            raise LeftOut(f"no {tool}")

    def judge(self, step: Step, after: list[Step]) -> None:
        """Runs, and checks what was printed, the status, and standard error."""
        words = shlex.split(step.words) or ["-j", "1"]
        self.ran(words, step.place)
        assert self.done
        told = [one for one in after if one.name in ("status", "says")]
        status = next((int(one.words) for one in told if one.name == "status"), 0)
        said = b"".join(one.words.encode() + b"\n" for one in told if one.name == "says")
        if not fits(step.text().splitlines(), self.done.stdout.splitlines()):
            raise Wrong(f"{step.place}: printed\n{self.done.stdout.decode()}{self.done.stderr.decode()}")
        self.expect("said", said, self.done.stderr, step.place)
        self.expect("status", status, self.done.returncode, step.place)
        if self.ninja:
            self.compare(words, step.place)

    def do(self, build: Build) -> None:
        """Does the steps of a case."""
        for number, step in enumerate(build.steps):
            if step.name == "run":
                after = build.steps[number + 1:]
                ends = next((at for at, one in enumerate(after) if one.name not in ("status", "says")), len(after))
                self.judge(step, after[:ends])
            elif step.name == "alone":
                self.ninja = None
            elif step.name == "needs":
                self.need(step.words)
            elif step.name == "left":
                self.expect("left", step.text(), (self.ours / step.words).read_bytes(), step.place)
            elif step.name == "gone":
                self.expect("there", False, (self.ours / step.words).exists(), step.place)
            elif step.name not in ("status", "says"):
                time.sleep(TICK)
                change(step, self.ours)
                if self.ninja:
                    change(step, self.theirs)


def check(program: str, ninja: str | None, build: Build, folder: pathlib.Path) -> None:
    """Checks a case."""
    Trial(program, ninja, folder).do(build)


def cases(setting: Setting) -> Iterator[Case]:
    """Yields the cases of tests/builds."""
    ninja = shutil.which("ninja")
    if ninja is None:
        print("builds: no ninja, only the program is run")
    for build in build_cases.builds():
        yield Case(build.name, functools.partial(check, setting.program, ninja, build))
