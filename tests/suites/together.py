"""Runs several builders of one record: nested, one after the other, and at once, some of them killed.

Records that have grown are compacted as a builder opens them, also next to a nested builder that lost the lock of its
own builder, which was killed: that one then keeps nothing more. A builder that is killed meanwhile leaves the old
record or the new one. In a folder that may not be written a build with nothing to do ends well.

A nested builder, which a command of another one starts, must not wait for it; what it began and what it kept must count
in the next build. A builder that nobody's command started must wait, and say so, also for a command of a builder that
was killed; the suite `stopped` has more of these. In the rounds, two or three builders
run at once, as waiting ones or as nested ones, and some are killed at random moments: the next build must then make
everything right, and the one after it must have nothing to do. The case `rounds` plays 200 of them.
"""
from __future__ import annotations

import contextlib
import functools
import os
import pathlib
import random
import re
import signal
import subprocess
import time
from typing import Callable, Dict, Iterator, List, Optional

from lib import locks, programs, records
from lib.suite import PATIENCE, Case, LeftOut, Setting, Wrong, alive, check, until

ALONE = True
ROUNDS = 200
VARIABLE = "PLAN_NINJA_RECORDS"
WAITS = re.compile(rb"plan_ninja: waiting for another build that uses \.plan_record \(process \d+\)\n")
WAITS_FOR_COMMANDS = re.compile(
    rb"plan_ninja: waiting for commands of a build that was stopped and used \.plan_record \(process(es)? [\d, ]+\)\n")
Child = subprocess.Popen  # of bytes


def outputs(folder: pathlib.Path) -> List[bytes]:
    """Returns the outputs of the record's entries, in order. The record must be whole entries."""
    try:
        return [entry.output for entry in records.entries((folder / ".plan_record").read_bytes())]
    except records.Broken as broken:
        raise Wrong(str(broken)) from None


STARTED: List[Child] = []


def end_started() -> None:
    """Ends the builders that were started, and their commands."""
    while STARTED:
        child = STARTED.pop()
        with contextlib.suppress(ProcessLookupError):
            os.killpg(child.pid, signal.SIGKILL)
        child.communicate()


class Tree:
    """A folder with a manifest and its image."""

    def __init__(self, program: str, folder: pathlib.Path, manifest: str, files: Dict[str, str]) -> None:
        self.program, self.folder = program, folder
        programs.write({"build.ninja": manifest, **files}, folder)
        programs.printed_lines([program, "compile", "build.ninja", "-o", "plan.img"], folder)

    def start(self, *words: str, above: str = "") -> Child:
        """Starts a builder in a session of its own, below the builders whose locks are named."""
        environment = {**os.environ, VARIABLE: above} if above else None
        child = subprocess.Popen([self.program, "run", "plan.img", *words], cwd=self.folder, env=environment,
                                 stdin=subprocess.DEVNULL, stdout=subprocess.PIPE, stderr=subprocess.PIPE,
                                 start_new_session=True)
        STARTED.append(child)
        return child

    def run(self, *words: str) -> subprocess.CompletedProcess[bytes]:
        return programs.run([self.program, "run", "plan.img", *words], self.folder)

    def builds(self, status: int, lines: List[str], *words: str) -> None:
        """Runs a builder, which must end with this status and print these lines, in some order."""
        ran = self.run(*words)
        found = sorted(ran.stdout.decode().splitlines())
        check((ran.returncode, found, ran.stderr) == (status, sorted(lines), b""),
              f"it ended with {ran.returncode}, printed {found}, and said {ran.stderr!r}")

    def name(self, child: Child) -> str:
        """Returns the name that the commands of a builder have in their environment, or nothing if it has ended."""
        with contextlib.suppress(OSError):
            return locks.name_of(self.folder / ".plan_record.lock", child.pid)
        return ""

    def text(self, name: str) -> str:
        return (self.folder / name).read_text()


def ended(child: Child) -> bytes:
    """Waits for a builder, which must end well, and returns what it said on standard error."""
    said = child.communicate(timeout=PATIENCE)[1]
    check(child.returncode == 0, f"a builder ended with {child.returncode}: {said!r}")
    return said


# ---- nested builders

NESTED = """rule half
  command = printf half > $out; test -e ok && cat in > $out
rule nested
  command = {program} run plan.img data > log; touch $out
build data: half in
build check: nested
"""


def nested_failure(program: str, folder: pathlib.Path) -> None:
    """A nested builder's command fails after it wrote half of its output: it runs again the next time.

    The outer builder keeps the entry of its own command after that, as a test runner does that goes on after a failure.
    """
    tree = Tree(program, folder, NESTED.format(program=program), {"in": "first\n", "ok": ""})
    first = "[1/1] printf half > data; test -e ok && cat in > data"
    tree.builds(0, [first], "data")
    (folder / "ok").unlink()
    time.sleep(0.02)
    (folder / "in").write_text("second\n")
    tree.builds(0, [f"[1/1] {program} run plan.img data > log; touch check"], "check")
    check(tree.text("log") == "FAILED data: exit 1\n", f"the nested builder printed {tree.text('log')!r}")
    check(tree.text("data") == "half", "the command didn't write half")
    (folder / "ok").touch()
    tree.builds(0, [first], "data")
    check(tree.text("data") == "second\n", f"the output is {tree.text('data')!r}")


BOTH = """rule copy
  command = cat in > $out
rule nested
  command = {program} run plan.img a b > log && touch $out
build a: copy in
build b: copy in
build check: nested
build c: copy in | check
"""


def entries_of_both_survive(program: str, folder: pathlib.Path) -> None:
    """What the outer and the nested builder kept counts in the next build, and the record is whole."""
    tree = Tree(program, folder, BOTH.format(program=program), {"in": "text\n"})
    nested = f"{program} run plan.img a b > log && touch check"
    tree.builds(0, [f"[1/2] {nested}", "[2/2] cat in > c"], "c")
    check(sorted(tree.text("log").splitlines()) == ["[1/2] cat in > a", "[2/2] cat in > b"]
          or sorted(tree.text("log").splitlines()) == ["[1/2] cat in > b", "[2/2] cat in > a"], tree.text("log"))
    check(sorted(outputs(folder)) == [b"a", b"a", b"b", b"b", b"c", b"c", b"check", b"check"], f"{outputs(folder)}")
    tree.builds(0, [])


# ---- builders that wait

GATED = """rule gate
  command = touch begun; while ! [ -e go ]; do sleep 0.02; done; cat in > $out
build out: gate in
"""


def second_builder_waits(program: str, folder: pathlib.Path) -> None:
    """The second builder says once that it waits, and then has nothing to do."""
    tree = Tree(program, folder, GATED, {"in": "text\n"})
    first = tree.start()
    until((folder / "begun").exists, "the command doesn't begin")
    second = tree.start()
    time.sleep(2.5)
    check(second.poll() is None, "the second builder didn't wait")
    (folder / "go").touch()
    check(ended(first) == b"", "the first builder said something")
    printed, said = second.communicate(timeout=PATIENCE)
    check((second.returncode, printed) == (0, b"") and WAITS.fullmatch(said),
          f"{second.returncode}, {printed!r}, {said!r}")


def short_wait_is_silent(program: str, folder: pathlib.Path) -> None:
    """A builder that waits for less than a second says nothing."""
    tree = Tree(program, folder, GATED, {"in": "text\n"})
    first = tree.start()
    until((folder / "begun").exists, "the command doesn't begin")
    second = tree.start()
    time.sleep(0.2)
    (folder / "go").touch()
    check(ended(first) + ended(second) == b"", "a builder said something")


def command_of_a_killed_builder_is_waited_for(program: str, folder: pathlib.Path) -> None:
    """A builder waits for the command of a killed builder, says so, and runs the command again."""
    tree = Tree(program, folder, GATED, {"in": "text\n"})
    first = tree.start()
    until((folder / "begun").exists, "the command doesn't begin")
    first.kill()
    second = tree.start()
    assert second.stderr
    said = second.stderr.readline()
    check(WAITS_FOR_COMMANDS.fullmatch(said), f"it said {said!r}")
    check(second.poll() is None, "the second builder didn't wait")
    (folder / "in").write_text("changed\n")
    (folder / "go").touch()
    check(ended(second) == b"", "it said more")
    check(tree.text("out") == "changed\n", f"the output is {tree.text('out')!r}")
    tree.builds(0, [])


def other_records_are_free(program: str, folder: pathlib.Path) -> None:
    """A builder of another record in the same folder doesn't wait."""
    tree = Tree(program, folder, GATED, {"in": "text\n"})
    first = tree.start()
    until((folder / "begun").exists, "the command doesn't begin")
    second = tree.start("--record", "other")
    time.sleep(0.1)
    (folder / "go").touch()
    check(ended(first) + ended(second) == b"", "a builder said something")


# ---- records that have grown

OLD = records.spelled(b"old")
COPY = """rule copy
  command = cat in > $out
build out: copy in
"""


def grow(folder: pathlib.Path, count: int = 150) -> None:
    """Appends entries of one output to the record, so that it has grown."""
    with open(folder / ".plan_record", "ab") as record:
        record.write(OLD * count)


def grown_record_is_compacted(program: str, folder: pathlib.Path) -> None:
    """A build with nothing to do leaves one entry for each output, in order, and the next one changes nothing."""
    tree = Tree(program, folder, COPY, {"in": "text\n"})
    tree.builds(0, ["[1/1] cat in > out"])
    grow(folder, 98)
    tree.builds(0, [])
    check(len(outputs(folder)) == 100, "a record of 100 entries was compacted")
    grow(folder, 1)
    tree.builds(0, [])
    check(outputs(folder) == [b"out", b"old"], f"{outputs(folder)}")
    tree.builds(0, [])
    check(outputs(folder) == [b"out", b"old"], f"{outputs(folder)}")
    check(not (folder / ".plan_record.new").exists(), ".plan_record.new stays")


def compacted_before_a_nested_builder(program: str, folder: pathlib.Path) -> None:
    """The builder that compacted the record and its nested builder both keep their entries in the new one."""
    tree = Tree(program, folder, BOTH.format(program=program), {"in": "text\n"})
    grow(folder)
    nested = f"{program} run plan.img a b > log && touch check"
    tree.builds(0, [f"[1/2] {nested}", "[2/2] cat in > c"], "c")
    check(sorted(outputs(folder)) == [b"a", b"a", b"b", b"b", b"c", b"c", b"check", b"check", b"old"],
          f"{outputs(folder)}")
    tree.builds(0, [])


ORPHAN = """rule gate
  command = touch begun; while ! [ -e go ]; do sleep 0.02; done; cat in > $out
rule nested
  command = exec < /dev/null; {program} run plan.img inner > log 2> said; touch end
rule copy
  command = cat in > $out
build inner: gate in
build outer: nested
build side: copy in
"""


def compacted_next_to_a_nested_builder(program: str, folder: pathlib.Path) -> None:
    """A nested builder goes on after its own was killed, and another builder compacts the record.

    Its standard input is another file, so it doesn't hold the lock. What the nested builder has begun is in the new
    record, and it keeps nothing more. So its command runs again.
    """
    tree = Tree(program, folder, ORPHAN.format(program=program), {"in": "text\n"})
    first = tree.start("outer")
    until((folder / "begun").exists, "the command doesn't begin")
    first.kill()
    grow(folder)
    tree.builds(0, ["[1/1] cat in > side"], "side")
    check(outputs(folder) == [b"outer", b"inner", b"old", b"side", b"side"], f"{outputs(folder)}")
    (folder / "go").touch()
    until((folder / "end").exists, "the nested builder doesn't end")
    said = tree.text("said")
    check(said == "plan_ninja: can't keep the entry of inner: the build record was lost\n", f"it said {said!r}")
    tree.builds(0, ["[1/1] touch begun; while ! [ -e go ]; do sleep 0.02; done; cat in > inner"], "inner")
    tree.builds(0, [], "inner")


KILLS = 40


def killed_while_compacting(program: str, folder: pathlib.Path) -> None:
    """A builder that is killed as it compacts the record leaves the old record or the new one."""
    tree = Tree(program, folder, COPY, {"in": "text\n"})
    tree.builds(0, ["[1/1] cat in > out"])
    record = folder / ".plan_record"
    grow(folder, 50000)
    old = record.read_bytes()
    begin = time.monotonic()
    tree.builds(0, [])
    took = time.monotonic() - begin
    new = record.read_bytes()
    check(outputs(folder) == [b"out", b"old"], f"{outputs(folder)}")
    chance = random.Random(1)
    for _ in range(KILLS):
        record.write_bytes(old)
        child = tree.start()
        time.sleep(chance.random() * took)
        child.kill()
        child.communicate(timeout=PATIENCE)
        check(record.read_bytes() in (old, new), "the record is neither the old nor the new one")
    tree.builds(0, [])
    check(record.read_bytes() == new, "the record wasn't compacted after the kills")


# ---- folders that may not be written

NOBODY = 65534


def run_without_leave(tree: Tree) -> subprocess.CompletedProcess[bytes]:
    """Runs a builder that may not write into its folder, as another user if this one may write everywhere."""
    words = {"user": NOBODY, "group": NOBODY, "extra_groups": []} if os.geteuid() == 0 else {}
    try:
        return subprocess.run([tree.program, "run", "plan.img"], cwd=tree.folder, stdin=subprocess.DEVNULL,
                              capture_output=True, timeout=programs.SECONDS, **words)
    except PermissionError:
        raise LeftOut("another user may not run the program") from None


def allow(folder: pathlib.Path, writing: bool) -> None:
    """Lets everybody read a folder and its files, and lets their owner write them, or nobody."""
    for path in folder.iterdir():
        path.chmod(0o644 if writing else 0o444)
    folder.chmod(0o755 if writing else 0o555)


def read_only_folder(program: str, folder: pathlib.Path) -> None:
    """A build with nothing to do ends well, also with a torn record; another one says what is in its way."""
    tree = Tree(program, folder, COPY, {"in": "text\n"})
    tree.builds(0, ["[1/1] cat in > out"])
    record = folder / ".plan_record"
    for more in (b"", OLD * 150, OLD[:10]):
        record.write_bytes(record.read_bytes() + more)
        before = record.read_bytes()
        allow(folder, False)
        try:
            ran = run_without_leave(tree)
        finally:
            allow(folder, True)
        check((ran.returncode, ran.stdout, ran.stderr) == (0, b"", b""), f"with nothing to do: {ran}")
        check(record.read_bytes() == before, "the record was changed")
    time.sleep(0.02)
    (folder / "in").write_text("changed\n")
    allow(folder, False)
    try:
        ran = run_without_leave(tree)
    finally:
        allow(folder, True)
    check((ran.returncode, ran.stdout) == (1, b"FAILED out: not started\n"), f"with something to do: {ran}")
    told = (f"plan_ninja: can't write {folder.resolve()}/.plan_record: permission denied\n"
            "plan_ninja: can't start the command of out: permission denied\n")
    check(ran.stderr.decode() == told, f"it said {ran.stderr!r}")
    tree.builds(0, ["[1/1] cat in > out"])


# ---- builders at once

COUNT = 6
ROUND = "rule copy\n  command = cat $in > $out.$$$$ && sleep 0.00$wait && mv $out.$$$$ $out\n" + "".join(
    f"build out{number}: copy in{number} {f'out{number - 1}' if number % 3 else ''}\n  wait = {number}\n"
    for number in range(COUNT))


def wanted(words: List[str]) -> List[str]:
    """Returns what the outputs have to be, by the texts of the sources."""
    found: List[str] = []
    for number, word in enumerate(words):
        found.append(word + (found[-1] if number % 3 else ""))
    return found


def is_of_lost_record(said: bytes) -> bool:
    """Checks whether a builder only said that its record was replaced: another one compacted it."""
    return bool(said) and all(line.endswith(b": the build record was lost") for line in said.splitlines())


class Rounds:
    """Builders at once, round after round, in one folder."""

    def __init__(self, program: str, folder: pathlib.Path, seed: int) -> None:
        self.chance = random.Random(seed)
        self.words = [f"{number}\n" for number in range(COUNT)]
        sources = {f"in{number}": word for number, word in enumerate(self.words)}
        self.tree = Tree(program, folder, ROUND, sources)

    def change(self, turn: int) -> None:
        """Changes some of the sources."""
        for number in self.chance.sample(range(COUNT), self.chance.randint(1, COUNT)):
            self.words[number] = f"{number} in round {turn}\n"
            (self.tree.folder / f"in{number}").write_text(self.words[number])

    def started(self) -> List[Child]:
        """Starts two or three builders. Each but the first may be one that doesn't wait for the others."""
        found = [self.tree.start("-j", "4")]
        above: Optional[str] = None
        for _ in range(self.chance.randint(1, 2)):
            if self.chance.random() < 0.7:
                until((self.tree.folder / ".plan_record.lock").exists, "no lock")
                above = self.tree.name(found[0])
            found.append(self.tree.start("-j", "4", above=above or ""))
        return found

    def kill(self, children: List[Child]) -> None:
        """Kills some of the builders, alone or with their commands."""
        for child in self.chance.sample(children, self.chance.randint(0, len(children) - 1)):
            time.sleep(self.chance.random() * 0.03)
            if child.poll() is None:
                if self.chance.random() < 0.5:
                    child.kill()
                else:
                    os.killpg(child.pid, signal.SIGKILL)

    def play(self, turn: int) -> None:
        """Plays a round, and builds again."""
        self.change(turn)
        children = self.started()
        self.kill(children)
        for child in children:
            said = child.communicate(timeout=PATIENCE)[1]
            if child.returncode != 1 or child is children[0] or not is_of_lost_record(said):
                check(child.returncode in (0, -signal.SIGKILL), f"a builder ended with {child.returncode}: {said!r}")
                told = WAITS.fullmatch(said) or WAITS_FOR_COMMANDS.fullmatch(said)
                check(told or not said, f"a builder said {said!r}")
            until(lambda child=child: not alive(child.pid), "a command of a killed builder doesn't end")
        STARTED.clear()
        self.settle()

    def settle(self) -> None:
        """Builds twice, after all commands have ended: all must be right, and the second build has nothing to do."""
        ran = self.tree.run()
        check(ran.returncode == 0, f"the next build ended with {ran.returncode}: {ran.stderr!r}")
        found = [self.tree.text(f"out{number}") for number in range(COUNT)]
        check(found == wanted(self.words), f"the outputs are {found}, not {wanted(self.words)}")
        outputs(self.tree.folder)
        self.tree.builds(0, [])


def rounds(program: str, count: int, seed: int, folder: pathlib.Path) -> None:
    """Plays rounds of builders at once."""
    playing = Rounds(program, folder, seed)
    for turn in range(count):
        try:
            playing.play(turn)
        except Wrong as wrong:
            raise Wrong(f"round {turn} of seed {seed}: {wrong}") from None


TRIALS = (nested_failure, entries_of_both_survive, second_builder_waits, short_wait_is_silent,
          command_of_a_killed_builder_is_waited_for, other_records_are_free, grown_record_is_compacted,
          compacted_before_a_nested_builder, compacted_next_to_a_nested_builder, killed_while_compacting,
          read_only_folder)


def ending(trial: Callable[[pathlib.Path], None], folder: pathlib.Path) -> None:
    """Does a trial, and ends the builders that it started."""
    try:
        trial(folder)
    finally:
        end_started()


def cases(setting: Setting) -> Iterator[Case]:
    """Yields the trials, and the rounds."""
    for trial in TRIALS:
        yield Case(trial.__name__, functools.partial(ending, functools.partial(trial, setting.program)))
    playing = functools.partial(rounds, setting.program, setting.counted(ROUNDS), setting.seed)
    yield Case("rounds", functools.partial(ending, playing))
