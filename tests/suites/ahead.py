"""Builds a tree whose record has more than 64 KiB with plan_build, which reads such a record in a thread.

The thread reads the record while the manifest is compiled. If the build has fewer jobs than there are processors, and
names no target, then other threads ask for stamps. None of this may change what a build does: each trial is done at
`-j 1`, `-j 2` and `-j 4`, and must run the commands, print the lines and leave the files of a build without threads. If
ninja is installed, it gets the same words in a copy of the tree: its status and commands must be those of plan_build.
"""
from __future__ import annotations

import contextlib
import fcntl
import functools
import os
import pathlib
import random
import re
import shutil
import signal
import subprocess
import time
from collections.abc import Iterator, Sequence
from typing import Callable, List, NamedTuple, Optional, Set, Tuple

from lib import locks, programs, records
from lib.place import Place, expect
from lib.suite import Case, Setting, alive, check, until

ALONE = True
JOBS = ("1", "2", "4")
EDGES, OF_EACH_LIBRARY, HEADERS, OF_EACH_OBJECT = 600, 100, 60, 6
LONG = 65_536  # bytes of a record that a thread reads
TICK = 0.02  # seconds: longer than the clock of files needs to move on
RECORD = ".plan_record"
BEGUN = b"/dev/null/begun"  # the only path of an entry that says that a command was begun
NO_RULE = "missing and no known rule to make it\n"
UNREADABLE = f"plan_ninja: can't open the record {RECORD}: Is a directory (os error 21)\n"
REFUSED_RECORD = f"ninja: error: can't read or write {RECORD} [133 FileFault]\n"
LACKS_RECORD = "[1/1] build.ninja\nFAILED: [record fault] build.ninja \ncp template build.ninja\n"
WAITING = f"plan_ninja: waiting for another build that uses {RECORD} (process {{}})\n"
LOST_OUTPUT = "ninja: error: standard output can't be written [133 FileFault]\n"
# The lines of commands that ran, and the line that counts edges that didn't run after a failure.
LINES = re.compile(r"\[\d+/\d+\] .*\n|\d+ skipped\n|\d+ not started\n|\d+ skipped, \d+ not started\n")
KILLS = 8
KEEPS = ("-d", "keepdepfile")  # the commands leave their depfiles as they are
RULES = """rule cc
  command = : > $out
  depfile = $out.d
  deps = gcc
  description = $out
rule ar
  command = : > $out
  description = $out
rule make
  command = cp template build.ninja
  generator = 1
  description = $out
build build.ninja: make template
"""


# ---- the tree

def part_of(number: int) -> str:
    return f"p{number // OF_EACH_LIBRARY}"


def object_of(number: int) -> str:
    return f"out/{part_of(number)}/f{number}.o"


def source_of(number: int) -> str:
    return f"src/{part_of(number)}/f{number}.c"


def library_of(number: int) -> str:
    return f"out/lib{number // OF_EACH_LIBRARY}.a"


def header(number: int) -> str:
    return f"include/header{number}.h"


def headers_of(number: int) -> List[str]:
    return [header((number * 7 + step * 11) % HEADERS) for step in range(OF_EACH_OBJECT)]


def with_libraries(numbers: Sequence[int]) -> Set[str]:
    """Returns these objects, and the libraries of them."""
    return {object_of(number) for number in numbers} | {library_of(number) for number in numbers}


def readers(wanted: int) -> Set[str]:
    """Returns the outputs that a header makes dirty: the objects that read it, and their libraries."""
    return with_libraries([number for number in range(EDGES) if header(wanted) in headers_of(number)])


ALL = with_libraries(range(EDGES))


def manifest() -> str:
    """Returns the text of the manifest, which is a copy of the file `template`."""
    lines = [f"build {object_of(number)}: cc {source_of(number)}\n" for number in range(EDGES)]
    for first in range(0, EDGES, OF_EACH_LIBRARY):
        objects = " ".join(map(object_of, range(first, first + OF_EACH_LIBRARY)))
        lines.append(f"build {library_of(first)}: ar {objects}\n")
    return RULES + "".join(lines)


def files() -> Iterator[Tuple[str, str]]:
    """Yields the files of the tree. The depfiles are there before the commands run, and don't name the sources.

    ninja takes a missing source that a depfile names for a header, and runs the command.
    """
    yield "template", manifest()
    for number in range(HEADERS):
        yield header(number), ""
    for number in range(EDGES):
        yield source_of(number), ""
        yield f"{object_of(number)}.d", f"{object_of(number)}: {' '.join(headers_of(number))}\n"


@functools.lru_cache(maxsize=None)
def grown(builder: str, home: pathlib.Path) -> pathlib.Path:
    """Builds the tree, and returns its folder, which is only copied then."""
    folder = home / pathlib.Path(builder).name
    programs.write(dict(files()), folder)
    time.sleep(TICK)
    shutil.copyfile(str(folder / "template"), str(folder / "build.ninja"))
    expect("lines of the first build", ALL, lines_of(ran(Place(builder, folder))))
    return folder


# ---- builders

class Builders(NamedTuple):
    """plan_build, ninja if there is one, and where their trees are."""

    ours: str
    theirs: Optional[str]
    home: pathlib.Path

    def places(self, folder: pathlib.Path) -> Tuple[Place, Optional[Place]]:
        """Returns the builders, each with its own copy of the tree."""
        ours = Place(self.ours, copied(grown(self.ours, self.home), folder / "ours"))
        length = (ours.folder / RECORD).stat().st_size
        check(length >= LONG, f"the record has only {length} bytes")
        if self.theirs is None:
            return ours, None
        return ours, Place(self.theirs, copied(grown(self.theirs, self.home), folder / "theirs"))


def copy(source: str, target: str) -> None:
    """Copies a file with its times. Source files and depfiles, which no trial changes, are only linked."""
    if source.endswith((".c", ".d")):
        os.link(source, target)
    else:
        shutil.copy2(source, target)


def copied(tree: pathlib.Path, folder: pathlib.Path) -> pathlib.Path:
    """Copies a tree."""
    shutil.copytree(str(tree), str(folder), copy_function=copy)
    return folder


def ran(place: Place, *words: str) -> subprocess.CompletedProcess[bytes]:
    """Runs a builder to its end."""
    return programs.run([place.builder, *KEEPS, *words], place.folder)


def lines_of(done: subprocess.CompletedProcess[bytes]) -> Set[str]:
    """Returns the outputs whose commands ran: none of them twice."""
    found = [line.partition("] ")[2] for line in done.stdout.decode().splitlines() if line.startswith("[")]
    expect("commands that ran twice", [], sorted({line for line in found if found.count(line) > 1}))
    return set(found)


class Wanted(NamedTuple):
    """The wanted results of a build: the outputs that are made, the status, other lines, and errors."""

    made: Set[str]
    status: int = 0
    printed: str = ""
    errors: str = ""


NOTHING = Wanted(set(), printed="ninja: no work to do.\n")


def builds(place: Place, wanted: Wanted, *words: str) -> None:
    """Builds, and compares the results with the wanted ones."""
    done = ran(place, *words)
    found = [line for line in done.stdout.decode().splitlines(True) if not LINES.fullmatch(line)]
    expect("outputs that were made", sorted(wanted.made), sorted(lines_of(done)))
    expect("what else was printed", wanted.printed, "".join(found))
    expect("errors", wanted.errors, done.stderr.decode())
    expect("status", wanted.status, done.returncode)


def does_as_well(place: Optional[Place], wanted: Wanted, *words: str) -> None:
    """Builds with ninja if there is one: its status and the outputs that are made must be as wanted."""
    if place is not None:
        done = ran(place, *words)
        expect("outputs that ninja made", sorted(wanted.made), sorted(lines_of(done)))
        expect("status of ninja", wanted.status, done.returncode)


def settled(place: Place, *words: str) -> None:
    """Builds when nothing is left to do."""
    builds(place, NOTHING, *words)


# ---- builds that are changed in both trees

def touched(folder: pathlib.Path, *names: str) -> None:
    """Gives files a time that is later than that of all others."""
    time.sleep(TICK)
    for name in names:
        os.utime(folder / name)


class Change(NamedTuple):
    """A change of a tree, the builds after it, each with its words, and whether they leave nothing to do."""

    make: Callable[[pathlib.Path], None]
    builds: Sequence[Tuple[Sequence[str], Wanted]]
    settles: bool = True


def template_has_one_more(folder: pathlib.Path) -> None:
    """Appends an edge to the template of the manifest."""
    time.sleep(TICK)
    with (folder / "template").open("a") as file:
        file.write("build out/more: ar\n")


def manifest_is_broken(folder: pathlib.Path) -> None:
    """Appends a line that is refused."""
    with (folder / "build.ninja").open("a") as file:
        file.write("build out/more: nosuch\n")


PART = {library_of(200), *map(object_of, range(200, 300))}
LAST_LINE = manifest().count("\n") + 1
REFUSED = Wanted(set(), 1, errors=f"ninja: error: build.ninja:{LAST_LINE}: unknown build rule 'nosuch' "
                                  "[31 UnknownRule]\nbuild out/more: nosuch\n                ^ near here\n")
CHANGES = {
    "nothing_to_do": Change(lambda folder: None, [((), NOTHING)]),
    "header_touched": Change(lambda folder: touched(folder, header(0)), [((), Wanted(readers(0)))]),
    "header_removed": Change(lambda folder: (folder / header(1)).unlink(), [((), Wanted(readers(1)))], False),
    "output_removed": Change(lambda folder: (folder / object_of(150)).unlink(), [((), Wanted(with_libraries([150])))]),
    "source_removed": Change(lambda folder: (folder / source_of(150)).unlink(), [
        ((), Wanted(set(), 1, errors=f"ninja: error: '{source_of(150)}', needed by '{object_of(150)}', {NO_RULE}"))],
        False),
    "manifest_made_again": Change(template_has_one_more, [((), Wanted({"build.ninja", "out/more"}))]),
    "named_target": Change(lambda folder: touched(folder, header(0)), [
        ((library_of(200),), Wanted(readers(0) & PART)),
        ((library_of(200),), NOTHING),
        ((), Wanted(readers(0) - PART))]),
    "dry_run": Change(lambda folder: touched(folder, header(0)), [
        (("-n",), Wanted(readers(0))), (("-n",), Wanted(readers(0))), ((), Wanted(readers(0)))]),
    "manifest_refused": Change(manifest_is_broken, [((), REFUSED)], False),
}


def changed(builders: Builders, change: Change, jobs: str, folder: pathlib.Path) -> None:
    """Changes both trees and builds them."""
    ours, theirs = builders.places(folder)
    for place in filter(None, (ours, theirs)):
        change.make(place.folder)
    for words, wanted in change.builds:
        builds(ours, wanted, "-j", jobs, *words)
        does_as_well(theirs, wanted, "-j", jobs, *words)
    if change.settles:
        settled(ours, "-j", jobs)
        does_as_well(theirs, NOTHING, "-j", jobs)


# ---- records that are damaged or locked

def folder_as_record(place: Place, jobs: str) -> None:
    """A folder with the record's name is refused before the build; no command runs."""
    touched(place.folder, header(0))
    record = place.folder / RECORD
    kept = record.read_bytes()
    record.unlink()
    record.mkdir()
    builds(place, Wanted(set(), 1, errors=UNREADABLE + REFUSED_RECORD), "-j", jobs)
    expect("files in the folder", [], os.listdir(record))
    record.rmdir()
    record.write_bytes(kept)
    builds(place, Wanted(readers(0)), "-j", jobs)


@contextlib.contextmanager
def locked(path: pathlib.Path) -> Iterator[None]:
    """Holds the lock of a file, as another builder does."""
    with path.open("ab") as file:
        fcntl.flock(file, fcntl.LOCK_EX)
        yield


def record_lost_while_waiting(place: Place, jobs: str) -> None:
    """The record becomes a folder while the builder waits for another one: its thread can't read it.

    The builder has seen that the record is long, so it is not read before the build. No command runs.
    """
    touched(place.folder, header(0))
    record, aside = place.folder / RECORD, place.folder / "aside"
    with locks.held(place.folder / f"{RECORD}.lock") as holder:
        child = place.started(*KEEPS, "-j", jobs)
        assert child.stdout
        expect("first line", WAITING.format(holder), child.stdout.readline().decode())
        record.rename(aside)
        record.mkdir()
    said = child.communicate(timeout=programs.SECONDS)[0].decode()
    lines = said.splitlines()
    expect("status", 1, child.returncode)
    expect("labels", ["[1/1] build.ninja"], [line for line in lines if line.startswith("[")])
    check(LACKS_RECORD in said, f"the first command isn't refused for the record: {said[:400]!r}")
    expect("lines that were printed twice", [], sorted({line for line in lines if lines.count(line) > 1}))
    check(UNREADABLE in said, f"it doesn't say why the record can't be opened: {said[-400:]!r}")
    check(said.endswith(REFUSED_RECORD), f"it doesn't end with the record's error: {said[-400:]!r}")
    record.rmdir()
    aside.rename(record)
    builds(place, Wanted(readers(0)), "-j", jobs)


def record_locked(place: Place, jobs: str) -> None:
    """While another process holds the record, nothing runs; then the build is as always."""
    touched(place.folder, header(0))
    with locked(place.folder / RECORD):
        child = place.started(*KEEPS, "-j", jobs)
        time.sleep(0.3)
        expect("it ended meanwhile", None, child.poll())
        check(not later(place, readers(0), header(0)), "a command ran without the record")
    said = child.communicate(timeout=programs.SECONDS)[0].decode().splitlines()
    expect("outputs", sorted(readers(0)), sorted(line.partition("] ")[2] for line in said))
    expect("status", 0, child.returncode)
    settled(place, "-j", jobs)


def refused_while_locked(place: Place, jobs: str) -> None:
    """A manifest that is refused while the record can't be read yet leaves the record as it is."""
    before = (place.folder / RECORD).read_bytes()
    manifest_is_broken(place.folder)
    with locked(place.folder / RECORD):
        child = place.started(*KEEPS, "-j", jobs)
        time.sleep(0.2)
    said = child.communicate(timeout=programs.SECONDS)[0].decode()
    expect("what it said", REFUSED.errors, said)
    expect("status", 1, child.returncode)
    check((place.folder / RECORD).read_bytes() == before, "the record was changed")


def kept_in(record: bytes) -> Set[str]:
    """Returns the outputs whose last entry says that the command ended. The record may be torn."""
    found = {}
    with contextlib.suppress(records.Broken):
        for entry in records.entries(record):
            found[entry.output.decode()] = entry.paths != [BEGUN]
    return {name for name, ended in found.items() if ended}


def torn_record(place: Place, jobs: str) -> None:
    """The record is cut in its middle, within an entry: the edges whose entries are lost run again.

    Libraries have no depfile, but an entry too. What is left is long enough to be read by the thread.
    """
    path = place.folder / RECORD
    record = path.read_bytes()
    cut = max(len(record) * 3 // 4, LONG + 100)
    while cut in ends_of(record):
        cut -= 1
    path.write_bytes(record[:cut])
    left = kept_in(record[:cut])
    lost = ALL - left
    check(lost and left, f"{len(lost)} entries were lost, and {len(left)} are left")
    lost |= {library_of(number) for number in range(EDGES) if object_of(number) in lost}
    builds(place, Wanted(lost), "-j", jobs)
    expect("entries", sorted(ALL), sorted(kept_in(path.read_bytes())))
    settled(place, "-j", jobs)


def ends_of(record: bytes) -> Set[int]:
    """Returns the offsets at which entries of a whole record end."""
    found, at = set(), 0
    while at < len(record):
        at = records.entry(record, at)[1]
        found.add(at)
    return found


# ---- builders that end early

def later(place: Place, names: Set[str], than: str) -> Set[str]:
    """Returns those of these files that are as late as another one, or later."""
    begin = (place.folder / than).stat().st_mtime_ns
    return {name for name in names if (place.folder / name).stat().st_mtime_ns >= begin}


def killed_at(place: Place, jobs: str, seconds: float) -> None:
    """Starts a build, and kills it and its commands after some time."""
    child = place.started(*KEEPS, "-j", jobs)
    time.sleep(seconds)
    with contextlib.suppress(ProcessLookupError):
        os.killpg(child.pid, signal.SIGKILL)
    child.communicate(timeout=programs.SECONDS)
    until(lambda: not alive(child.pid), "a command of the killed builder doesn't end")


def killed(place: Place, jobs: str) -> None:
    """Kills builds at random moments, most of them while the manifest is compiled. The next build must be right."""
    chance = random.Random(int(jobs))
    begin = time.monotonic()
    settled(place, "-j", jobs)
    took = time.monotonic() - begin
    for turn in range(KILLS):
        touched(place.folder, header(turn))
        killed_at(place, jobs, chance.random() * took * (1 if turn % 4 else 3))
        done = ran(place, "-j", jobs)
        expect(f"status of the build after kill {turn}", (0, b""), (done.returncode, done.stderr))
        lines_of(done)
        left = readers(turn) - later(place, readers(turn), header(turn))
        expect(f"old outputs after kill {turn}", [], sorted(left))
        settled(place, "-j", jobs)


def killed_before_the_record_is_read(place: Place, jobs: str) -> None:
    """A builder is killed while its thread waits for the record. It has changed nothing."""
    touched(place.folder, header(0))
    before = (place.folder / RECORD).read_bytes()
    with locked(place.folder / RECORD):
        killed_at(place, jobs, 0.1)
    check((place.folder / RECORD).read_bytes() == before, "the record was changed")
    check(not later(place, readers(0), header(0)), "a command ran without the record")
    builds(place, Wanted(readers(0)), "-j", jobs)
    settled(place, "-j", jobs)


def output_closed(place: Place, jobs: str) -> None:
    """Everything is built if standard output is closed, and the status is 1."""
    touched(place.folder, header(0))
    done = programs.run(["sh", "-c", '"$0" "$@" >&-', place.builder, *KEEPS, "-j", jobs], place.folder)
    expect("said", (LOST_OUTPUT, 1), (done.stderr.decode(), done.returncode))
    expect("old outputs", [], sorted(readers(0) - later(place, readers(0), header(0))))
    settled(place, "-j", jobs)


TRIALS: Tuple[Callable[[Place, str], None], ...] = (
    folder_as_record, record_lost_while_waiting, record_locked, refused_while_locked, torn_record, killed,
    killed_before_the_record_is_read, output_closed)


def tried(builders: Builders, trial: Callable[[Place, str], None], jobs: str, folder: pathlib.Path) -> None:
    """Does a trial in a copy of the tree, and ends what it started."""
    place = builders._replace(theirs=None).places(folder)[0]
    try:
        trial(place, jobs)
    finally:
        place.end()


def cases(setting: Setting) -> Iterator[Case]:
    """Yields the changes and the trials, each with its numbers of jobs."""
    builders = Builders(programs.front(setting.program), shutil.which("ninja"), setting.home)
    for jobs in JOBS:
        for name, change in CHANGES.items():
            yield Case(f"{name} -j {jobs}", functools.partial(changed, builders, change, jobs))
        for trial in TRIALS:
            yield Case(f"{trial.__name__} -j {jobs}", functools.partial(tried, builders, trial, jobs))
