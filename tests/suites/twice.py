"""Builds real projects at -j 1 and at -j 8 from the same state, and compares the traces of these runs.

The projects are two of tests/real, by CMake. Each is built twice from scratch in the same folder, with the same bytes
and stamps. One of them is then built twice more with nothing to do. A trace of a run of one job is also one of a run of
eight, so its first line is replaced by that of the other. From scratch, every edge must have the same outcome, the
replies must be the same except for stamps, and `replay IMG TRACE TRACE2` must print `different`, since outputs have
other stamps. With the stamps of one run instead of the other's it must print `same`. If there is nothing to do, it must
print `same` at once.
"""
from __future__ import annotations

import functools
import pathlib
import shutil
from collections.abc import Iterator
from typing import Dict, List

from lib import programs
from lib.suite import Case, LeftOut, Setting, check
from real import buildable, trees

ALONE = True
# Whether a second build has nothing to do: a target of the first always runs.
PROJECTS = {"cmake built": False, "cmake many": True}
JOBS = (1, 8)
Replies = Dict[str, List[List[str]]]


class Project:
    """A project that is configured, with the image of its manifest."""

    def __init__(self, program: str, build: pathlib.Path, top: pathlib.Path) -> None:
        self.program, self.build, self.top = program, build, top
        self.saved = top.with_name("saved")

    def save(self) -> None:
        """Keeps the state that both runs begin from."""
        shutil.rmtree(self.saved, ignore_errors=True)
        shutil.copytree(self.top, self.saved, symlinks=True)

    def restore(self) -> None:
        """Restores that state."""
        shutil.rmtree(self.top)
        shutil.copytree(self.saved, self.top, symlinks=True)

    def traced(self, jobs: int, name: str) -> tuple[list[str], str]:
        """Runs the image; returns the trace's lines, and what `replay` prints of it except for the status lines."""
        trace = self.top.with_name(name)
        words = ["run", "plan.img", "-j", str(jobs), "-k", "0", "--trace", str(trace)]
        ran = programs.run([self.program, *words], self.build)
        check(ran.returncode == 0, f"-j {jobs}: {ran.stderr.decode()}{ran.stdout.decode()}")
        told = programs.run([self.program, "replay", "plan.img", str(trace)], self.build)
        check(told.returncode == 0, f"replay of -j {jobs}: {told.stderr.decode()}")
        ends = [line for line in told.stdout.decode().splitlines() if line[:1].isdigit()]
        return trace.read_text().splitlines(), "\n".join(ends)

    def compared(self, first: list[str], second: list[str]) -> str:
        """Returns what the program says of two traces."""
        names = [self.top.with_name(name) for name in ("first", "second")]
        for name, lines in zip(names, (first, second)):
            name.write_text("".join(f"{line}\n" for line in lines))
        done = programs.run([self.program, "replay", "plan.img", *map(str, names)], self.build)
        return (done.stdout + done.stderr).decode().strip()


def replies(lines: list[str]) -> Replies:
    """Returns the words after `reply E` of each edge, in order."""
    found: Replies = {}
    for words in map(str.split, lines):
        if words[0] == "reply":
            found.setdefault(words[1], []).append(words[2:])
    return found


def without_stamps(found: Replies) -> Replies:
    """Returns replies without the numbers of stamps."""
    return {edge: [words[:1] if words[0] == "stamp" else words for words in heard] for edge, heard in found.items()}


def with_replies(lines: list[str], found: Replies) -> list[str]:
    """Returns a trace with these replies instead of its own."""
    left = {edge: iter(heard) for edge, heard in found.items()}
    split = [line.split() for line in lines]
    return [" ".join(["reply", words[1], *next(left[words[1]])]) if words[0] == "reply" else " ".join(words)
            for words in split]


def from_scratch(project: Project) -> None:
    """Builds all twice, and checks that only stamps differ."""
    project.save()
    one, ends = project.traced(JOBS[0], "one.trace")
    project.restore()
    other, others = project.traced(JOBS[1], "other.trace")
    check(ends == others, f"the edges have other outcomes:\n{ends}\n{others}")
    check(project.compared(one, other) == "plan: 134 TracesDiffer", "the first lines differ, and no 134 was printed")
    one[0] = other[0]
    check(without_stamps(replies(one)) == without_stamps(replies(other)), "other replies than stamps differ")
    check(replies(one) != replies(other), "no stamp differs")
    check(project.compared(one, other) == "different", "outputs have other stamps, and the answer isn't `different`")
    alike = with_replies(other, replies(one))
    check(project.compared(one, alike) == "same", "the replies are the same, and the answer isn't `same`")


def nothing_to_do(project: Project) -> None:
    """Builds twice with nothing to do, and checks that nothing differs."""
    project.save()
    one, _ = project.traced(JOBS[0], "one.trace")
    project.restore()
    other, _ = project.traced(JOBS[1], "other.trace")
    one[0] = other[0]
    check(replies(one) == replies(other), "the replies differ")
    check(project.compared(one, other) == "same", "the answer isn't `same`")


def try_project(program: str, tree: trees.Tree, folder: pathlib.Path) -> None:
    """Configures a project, and compares its runs."""
    lacking = trees.lacking(tree)
    if lacking:
        raise LeftOut(f"no {', no '.join(lacking)}")
    top = folder / "project"
    build = trees.configured(tree, top)
    programs.printed_lines([program, "compile", "build.ninja", "-o", "plan.img"], build)
    project = Project(program, build, top)
    from_scratch(project)
    if PROJECTS[tree.name]:
        nothing_to_do(project)


def cases(setting: Setting) -> Iterator[Case]:
    """Yields the projects."""
    for tree in buildable.TREES:
        if tree.name in PROJECTS:
            yield Case(tree.name, functools.partial(try_project, setting.program, tree))
