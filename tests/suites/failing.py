"""Runs a chain of two commands while one of its calls to the system fails, and then without a failure.

The calls are those for a file's times, for a command's start, for a write to the record, for a thread, and for memory
(lib/failing.c, which is preloaded). A run in which one of the first three fails must end with status 1, and say which
edge failed and why; only a path of a depfile may be asked about again, and then nothing has failed. A thread that can't
be started is done without; if none can, that is 121. A run that is short of memory succeeds, or says of an edge that it
failed, or is refused by a fault of memory after some of its lines. Each run that began must leave its whole trace, even
if it is refused later: `replay` prints exactly the lines that were printed. Only if memory is refused to the lines
themselves, they may be a prefix of these. The next run must always make both files right, and the run after it has
nothing to do. Some runs begin with a record that has grown: if it can't be
compacted, the run goes on with it as it is.
"""
from __future__ import annotations

import functools
import pathlib
import re
import subprocess
from collections.abc import Iterator
from typing import NamedTuple

from lib import programs, records
from lib.suite import Case, LeftOut, Setting, check

SECONDS = 60
TREE = {
    "build.ninja": "rule gen\n  command = sh gen.sh\n  depfile = mid.d\n  restat = 1\n"
                   "rule use\n  command = cat $in > $out\nbuild mid: gen src\nbuild out: use mid\n",
    "gen.sh": "cmp -s src mid || cp src mid\necho mid: header > mid.d\n",
    "src": "one\n",
    "header": "two\n",
}
LINES = ("[1/2] sh gen.sh\n", "[2/2] cat mid > out\n")
WHOLE = "".join(LINES)
FRONTS = ("", LINES[0], WHOLE)
# The sorts of calls, each with the jobs of a run in which one fails, and whether its record has grown before.
SORTS = (("stat", "1", False), ("spawn", "1", False), ("write", "1", False), ("thread", "2", False),
         ("memory", "1", False), ("memory", "2", False), ("write", "1", True), ("memory", "1", True))
OLD = 150  # entries of an output that no edge has any more
# What it writes to standard error then, and what it may say of an edge.
NO_PROCESS, NO_SPACE = (r"Resource temporarily unavailable \(os error 11\)", r"No space left on device \(os error 28\)")
REASONS = {"stat": "", "spawn": rf"plan_ninja: can't start the command of (mid|out): {NO_PROCESS}\n",
           "write": (rf"(plan_ninja: can't write /.*/\.plan_record: {NO_SPACE}\n"
                     r"plan_ninja: can't start the command|plan_ninja: can't keep the entry)"
                     rf" of (mid|out): {NO_SPACE}\n"),
           "memory": ""}
CAUSES = {"stat": ("stat fault",), "spawn": ("not started",), "write": ("not started", "record fault"), "thread": (),
          "memory": ("not started", "record fault")}
REFUSALS = {f"plan: {number}\n" for number in ("22 Memory", "66 Memory", "86 Memory", "111 Memory", "120 NoMemory",
                                               "121 NoLane", "131 Memory")}
# Refusals that come before a run is begun, and 131 also after it.
BEFORE = {f"plan: {number} Memory\n" for number in (22, 66, 86, 111, 131)}
# What a run says in which one call fails: mid failed and out was skipped, or out failed after mid.
FIRST = re.compile(r"FAILED mid: (.+)\nSKIPPED out: needs mid\n")
SECOND = re.compile(r"\[1/2\] sh gen\.sh\nFAILED out: (.+)\n")


class Ended(NamedTuple):
    """How a run ended, what it said, and how many calls of the sort it made."""

    status: int
    printed: str
    errors: str
    calls: int


def run(program: str, folder: pathlib.Path, library: pathlib.Path, sort: str, jobs: str, failing: int) -> Ended:
    """Runs the tree while a call of this number and sort fails; none if it is 0, each if it is -1."""
    calls = folder / "calls"
    calls.unlink(missing_ok=True)
    env = {"PATH": "/usr/bin:/bin", "LD_PRELOAD": str(library), "FAILED_SORT": sort, "FAILED_CALL": str(failing),
           "CALLS_FILE": str(calls)}
    words = ["run", "plan.img", "-j", jobs, "-k", "0", "--trace", "plan.trace"]
    done = subprocess.run([program, *words], cwd=folder, env=env, timeout=SECONDS, stdin=subprocess.DEVNULL,
                          capture_output=True, encoding="utf-8")
    return Ended(done.returncode, done.stdout, done.stderr, len(calls.read_bytes()) if calls.exists() else 0)


def begin(program: str, folder: pathlib.Path, grown: bool) -> None:
    """Writes a tree in which nothing was built, maybe with a record that has grown."""
    programs.write(TREE, folder)
    if grown:
        (folder / ".plan_record").write_bytes(records.spelled(b"old") * OLD)
    programs.printed_lines([program, "compile", "build.ninja", "-o", "plan.img"], folder)


def is_told(sort: str, grown: bool, failing: int, done: Ended) -> bool:
    """Checks whether a run says what it must if this call fails."""
    if grown and done[:3] == (0, WHOLE, ""):
        return True
    if sort == "thread":
        said = (2, "", "plan: 121 NoLane\n") if failing < 0 else (0, WHOLE, "")
        return done[:3] == said
    if sort == "memory" and done.status != 1:
        return done[:3] == (0, WHOLE, "") or (
            done.status == 2 and done.errors in REFUSALS and done.printed in FRONTS)
    said = FIRST.fullmatch(done.printed) or SECOND.fullmatch(done.printed)
    is_explained = re.fullmatch(REASONS[sort], done.errors) is not None
    return done.status == 1 and is_explained and said is not None and said[1] in CAUSES[sort]


def is_asked_again(program: str, library: pathlib.Path, jobs: str, done: Ended, folder: pathlib.Path) -> bool:
    """Checks whether a run whose call for a file's times failed succeeded after one more such call than it needs."""
    other = folder / "other"
    other.mkdir()
    begin(program, other, False)
    return done[:3] == (0, WHOLE, "") and done.calls == run(program, other, library, "stat", jobs, 0).calls + 1


def trace_fault(program: str, folder: pathlib.Path, done: Ended) -> str:
    """Returns what is wrong with the trace of a run, or an empty text."""
    if not (folder / "plan.trace").exists():
        was_begun = done.errors not in BEFORE or done.printed
        return f"there is no trace, and it ended so: {done}" if was_begun else ""
    status, told = programs.replayed(program, folder)
    if status != (0 if done.status == 0 else 1) and done.errors != "plan: 131 Memory\n":
        return f"replay ended with {status}, and the run so: {done}"
    lines = told.decode()
    lacks_lines = done.errors == "plan: 131 Memory\n" and lines == WHOLE and WHOLE.startswith(done.printed)
    if lines == done.printed or lacks_lines:
        return ""
    return f"replay printed {lines!r}, and the run ended so: {done}"


def fault(program: str, library: pathlib.Path, sort: str, jobs: str, grown: bool, failing: int,
          folder: pathlib.Path) -> str:
    """Returns what is wrong if this call fails, or an empty text."""
    begin(program, folder, grown)
    done = run(program, folder, library, sort, jobs, failing)
    if not is_told(sort, grown, failing, done):
        if sort != "stat" or not is_asked_again(program, library, jobs, done, folder):
            return f"it ended so: {done}"
    if said := trace_fault(program, folder, done):
        return said
    again = programs.run([program, "run", "plan.img"], folder)
    if again.returncode != 0 or any((folder / name).read_text() != "one\n" for name in ("mid", "out")):
        return f"the next run ended with {again.returncode} and printed {again.stdout!r}"
    last = programs.run([program, "run", "plan.img"], folder)
    return f"it ran once more: {last.stdout!r}" if last.stdout or last.returncode else ""


def calls(setting: Setting, library: pathlib.Path, sort: str, jobs: str, grown: bool) -> list[int]:
    """Returns the numbers of the calls of a sort, as a run without a failure makes them; -1 stands for all of them."""
    folder = setting.home / named(sort, jobs, grown)
    begin(setting.program, folder, grown)
    whole = run(setting.program, folder, library, sort, jobs, 0)
    check(whole[:3] == (0, WHOLE, "") and whole.calls >= 2, f"{sort} -j {jobs} without a failure: {whole}")
    return list(range(1, whole.calls + 1)) + ([-1] if sort == "thread" else [])


def named(sort: str, jobs: str, grown: bool) -> str:
    """Returns the name of a run."""
    return f"{sort} -j {jobs}{', grown record' if grown else ''}"


def cases(setting: Setting) -> Iterator[Case]:
    """Yields the calls that fail."""
    library = programs.library("failing.c", setting.home)
    if library is None:
        raise LeftOut("no C compiler")
    for sort, jobs, grown in SORTS:
        for number in calls(setting, library, sort, jobs, grown):
            yield Case(f"{named(sort, jobs, grown)}, call {number}",
                       functools.partial(fault, setting.program, library, sort, jobs, grown, number))
