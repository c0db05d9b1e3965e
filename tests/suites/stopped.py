"""Stops builders while their commands run, and builds again at once: no output may be old, then or later.

A command of a builder that ended early holds the lock of the record until it ends, and plan_build stops it. So a
command that writes late never writes over what the next build made. A command that a daemon left running keeps nothing.
A builder that a command started finds that out from its own parents or from its environment, and doesn't wait, also
with a cleared environment; a builder with the environment of an older build waits. Two folders whose builds call each
other end with a failure.

In the rounds a builder is stopped at a random moment by a random signal, alone or with its group; sources are edited,
and the next build begins at once. Some of the commands ignore signals.
"""
from __future__ import annotations

import contextlib
import functools
import os
import pathlib
import pty
import random
import re
import select
import signal
import subprocess
import sys
import time
from typing import Callable, Iterator, List

from lib import locks, programs
from lib.place import Place, expect, group_of
from lib.suite import PATIENCE, Case, Setting, check, until

ALONE = True
ROUNDS = 30
SIGNALS = (signal.SIGTERM, signal.SIGHUP, signal.SIGINT, signal.SIGKILL)
LATE = 0.5  # seconds: a command that writes late has written by then
NO_WORK = b"ninja: no work to do.\n"
WAITS = "plan_ninja: waiting for another build that uses .plan_record (process {})\n"
FOR_COMMANDS = re.compile(rb"plan_ninja: waiting for commands of a build that was stopped and used .plan_record "
                          rb"\(process(es)? [\d, ]+\)\n")
HELD = re.compile(rb"plan_ninja: .plan_record is free when these have ended, or were killed: process(es)? ([\d, ]+)\n")

# A command that reads its source at once, and writes what it read after a while.
SLOW = "touch begun$out; v=$$(cat in); {trap} sleep 0.4; echo $$v > $out"


class Images:
    """plan_ninja as a builder, which has no process that stops commands."""

    def __init__(self, program: str) -> None:
        self.program = program

    def words(self, folder: pathlib.Path) -> List[str]:
        programs.printed_lines([self.program, "compile", "build.ninja", "-o", "plan.img"], folder)
        return [self.program, "run", "plan.img"]


def begun(words: List[str], folder: pathlib.Path) -> subprocess.Popen[bytes]:
    """Starts a builder in a session of its own."""
    return subprocess.Popen(words, cwd=folder, stdin=subprocess.DEVNULL, stdout=subprocess.PIPE,
                            stderr=subprocess.STDOUT, start_new_session=True)


def end(child: subprocess.Popen[bytes]) -> None:
    """Ends a builder and its group, if they still run."""
    with contextlib.suppress(ProcessLookupError):
        os.killpg(child.pid, signal.SIGKILL)
    child.communicate()


def stop(child: subprocess.Popen[bytes], number: int, group: bool) -> None:
    """Sends a signal to a builder, alone or with its group, and waits until the builder has ended."""
    with contextlib.suppress(ProcessLookupError):
        (os.killpg if group else os.kill)(child.pid, number)
    child.wait(PATIENCE)


def late_command(number: int, group: bool, trap: str, image: bool, program: str, folder: pathlib.Path) -> None:
    """A builder is stopped while its command runs; the source is edited, and the next build begins at once."""
    manifest = f"rule c\n  command = {SLOW.format(trap=trap)}\nbuild out: c in\n"
    programs.write({"build.ninja": manifest, "in": "old\n"}, folder)
    words = Images(program).words(folder) if image else [programs.front(program)]
    child = begun(words, folder)
    try:
        until((folder / "begunout").exists, "the command doesn't begin")
        stop(child, number, group)
        (folder / "in").write_text("new\n")
        done = programs.run(words, folder)
        expect("status", 0, done.returncode)
        expect("output", "new\n", (folder / "out").read_text())
        time.sleep(LATE)
        expect("output later", "new\n", (folder / "out").read_text())
        done = programs.run(words, folder)
        expect("nothing is left to do", b"" if image else NO_WORK, done.stdout)
    finally:
        end(child)


# ---- the process that stops commands

def everything_below_is_stopped(place: Place) -> None:
    """Commands are stopped with what is below them, also with an empty environment. No output is made.

    The process with an empty environment is found by its parents, so it is there before the builder is stopped.
    """
    place.write(f"a env -i /bin/sh -c 'sleep 60 & touch begun$out; wait'; touch $out",
                f"b touch begun$out; (sleep 60; touch $out) & wait; touch $out")
    child = place.started("-j2")
    place.begun("a", "b")
    child.send_signal(signal.SIGTERM)
    expect("status", -signal.SIGTERM, child.wait(PATIENCE))
    until(lambda: not group_of(child.pid), "a command doesn't end")
    expect("made", False, place.has("a") or place.has("b"))


def other_builds_go_on(place: Place) -> None:
    """A nested builder is stopped: its commands end, and a command of the builder above it goes on."""
    place.write(f"inner touch begun$out; sleep 60; touch $out",
                f"nested '{place.builder}' inner > log & echo $$! > number; wait; touch $out",
                f"side touch begun$out; while ! [ -e go ]; do sleep 0.02; done; touch $out")
    child = place.started("-j2", "nested", "side")
    place.begun("inner", "side")
    os.kill(int((place.folder / "number").read_text()), signal.SIGTERM)
    until(lambda: place.has("nested"), "the outer command doesn't go on")
    time.sleep(0.3)
    (place.folder / "go").touch()
    child.communicate(timeout=PATIENCE)
    expect("status", 0, child.returncode)
    expect("made", (False, True), (place.has("inner"), place.has("side")))


def nobody_waits_for_the_watcher(place: Place) -> None:
    """A pipe that reads the output of a build ends with the build, and nothing of the build is left in its group."""
    place.write("a touch $out")
    child = place.started()
    expect("output", b"[1/1] a\n", child.communicate(timeout=PATIENCE)[0])
    until(lambda: not group_of(child.pid), "a process of the builder doesn't end")


# ---- what holds the lock

DAEMON = f"{sys.executable} -c 'import subprocess; subprocess.Popen([\"sleep\", \"{{}}\"], start_new_session=True, " \
         "stdout=subprocess.DEVNULL, stderr=subprocess.DEVNULL)'"


def daemon_keeps_nothing(place: Place) -> None:
    """A daemon that a command left keeps its standard input. The next build doesn't wait for it."""
    place.write(f"a {DAEMON.format(7)}; touch $out")
    expect("status", 0, place.done().returncode)
    begin = time.monotonic()
    expect("next", NO_WORK, place.done().stdout)
    check(time.monotonic() - begin < 5, "the next build waited for the daemon")


def holders_are_named(program: str, folder: pathlib.Path) -> None:
    """After ten seconds a builder names the processes that hold the lock. When they are killed, it goes on."""
    manifest = "rule c\n  command = touch begun; sleep 60; touch $out\nbuild out: c\n"
    programs.write({"build.ninja": manifest}, folder)
    words = Images(program).words(folder)
    first = begun(words, folder)
    second = None
    try:
        until((folder / "begun").exists, "the command doesn't begin")
        stop(first, signal.SIGKILL, False)
        (folder / "build.ninja").write_text("rule c\n  command = touch $out\nbuild out: c\n")
        second = begun(Images(program).words(folder), folder)
        assert second.stdout
        check(FOR_COMMANDS.fullmatch(second.stdout.readline()), "it doesn't say for what it waits")
        named = HELD.fullmatch(second.stdout.readline())
        check(named, "it doesn't name the processes")
        assert named
        for process in named[2].split(b", "):
            os.kill(int(process), signal.SIGKILL)
        said = second.communicate(timeout=PATIENCE)[0]
        expect("then", (b"[1/1] touch out\n", 0), (said, second.returncode))
    finally:
        end(first)
        if second:
            end(second)


# ---- nested builders

def nested(place: Place, how: str) -> None:
    """A command builds in its own folder. The nested builder doesn't wait, and its own commands read nothing."""
    place.write("a cat > $out", f"b {how.format(place.builder + ' a')} && touch $out")
    done = place.done("b")
    expect("status", (0, b""), (done.returncode, done.stderr))
    expect("made", b"", (place.folder / "a").read_bytes())
    expect("then", NO_WORK, place.done("a", "b").stdout)


NESTED = ("{}", "{} < /dev/null", "env -i {}", "setsid -w {}", "true | {}")
# The builder is a child of a process elsewhere, which a command asks to start it: only its environment names the lock.
ELSEWHERE = "(setsid {} > log 2>&1; touch done) & while ! [ -e done ]; do sleep 0.02; done"


def nested_of_a_killed_one(program: str, folder: pathlib.Path) -> None:
    """A command of a killed builder starts a builder in its own folder, which goes on; others wait for both."""
    manifest = ("rule late\n  command = touch begun; while ! [ -e go ]; do sleep 0.02; done; "
                f"env -i {program} run plan.img a\nrule t\n  command = touch $out\nbuild a: t\nbuild b: late\n")
    programs.write({"build.ninja": manifest}, folder)
    words = Images(program).words(folder)
    first = begun([*words, "b"], folder)
    second = None
    try:
        until((folder / "begun").exists, "the command doesn't begin")
        stop(first, signal.SIGKILL, False)
        second = begun([*words, "a"], folder)
        time.sleep(0.3)
        (folder / "go").touch()
        said = second.communicate(timeout=PATIENCE)[0]
        expect("second", (b"", 0), (said, second.returncode))
        check((folder / "a").exists(), "the nested builder didn't build")
    finally:
        end(first)
        if second:
            end(second)


def older_environment_waits(place: Place) -> None:
    """A builder has the environment of a command of an older build, as in a terminal that it opened. It waits."""
    place.write("a echo $$PLAN_NINJA_RECORDS > $out")
    expect("status", 0, place.done().returncode)
    older = (place.folder / "a").read_text().strip()
    check(re.fullmatch(r"\d+:\d+:\d+:\d+", older), f"the name is {older!r}")
    lock = place.folder / ".plan_record.lock"
    for names in (older, older.rpartition(":")[0], ":".join(older.split(":")[:2])):
        place.environment["PLAN_NINJA_RECORDS"] = names
        with locks.held(lock) as holder:
            child = place.started()
            assert child.stdout
            expect("said", WAITS.format(holder).encode(), child.stdout.readline())
        expect("then", (NO_WORK, 0), (child.communicate(timeout=PATIENCE)[0], child.returncode))


def waiting_is_shown_on_the_terminal(place: Place) -> None:
    """If standard error is a file, a builder also says on its terminal for whom it waits."""
    place.write("a touch $out")
    lock, shown = place.folder / ".plan_record.lock", b""
    with locks.held(lock) as holder:
        child, terminal = pty.fork()
        if child == 0:
            os.chdir(place.folder)
            os.execvp("sh", ["sh", "-c", f"'{place.builder}' > said 2>&1"])
        try:
            said = WAITS.format(holder).encode()
            until(lambda: (place.folder / "said").exists(), "the builder doesn't begin")
            while said.strip() not in shown:
                check(select.select([terminal], [], [], PATIENCE)[0], f"the terminal shows {shown!r}")
                shown += os.read(terminal, 4096)
        finally:
            os.kill(child, signal.SIGHUP)
            os.waitpid(child, 0)
            os.close(terminal)
    expect("said", said, (place.folder / "said").read_bytes())


CALLS = """rule call
  command = touch begun; while ! [ -e ../{other}/begun ]; do sleep 0.02; done; {builder} -C ../{other} lib
rule t
  command = touch $out
build app: call
build lib: t
"""


def folders_that_call_each_other(place: Place) -> None:
    """Two folders whose builds call each other: at least one of the builds fails, and both end."""
    for own, other in ("xy", "yx"):
        (place.folder / own).mkdir()
        text = CALLS.format(builder=place.builder, other=other)
        (place.folder / own / "build.ninja").write_text(text)
    children = [place.started("-C", own, "app") for own in "xy"]
    said = [child.communicate(timeout=PATIENCE)[0] for child in children]
    check(any(child.returncode == 1 for child in children), f"no build failed: {said}")
    check(any(b"the build that uses it waits for this one" in text for text in said), f"{said}")
    for own in "xy":
        (place.folder / own / "begun").unlink()
        expect("lib", 0, place.done("-C", own, "lib").returncode)


# ---- the lock's file

def linked_lock_is_refused(place: Place) -> None:
    """A lock that is a symbolic link is refused, and nothing is created where it points."""
    place.write("a touch $out")
    lock = place.folder / ".plan_record.lock"
    for target in ("elsewhere", "build.ninja"):
        lock.symlink_to(target)
        done = place.done()
        expect("status", 1, done.returncode)
        said = b"plan_ninja: can't open the record .plan_record: its lock is a symbolic link\n"
        check(done.stderr.startswith(said), f"it said {done.stderr!r}")
        expect("made", False, place.has("elsewhere") or place.has("a"))
        lock.unlink()
    expect("then", 0, place.done().returncode)


def commands_read_nothing(place: Place) -> None:
    """The standard input of a command has no bytes, also if the lock's file has some, which stay."""
    place.write("a cat > $out", "b cat > $out", "c read line || echo none > $out")
    lock = place.folder / ".plan_record.lock"
    lock.write_bytes(b"some text\n")
    expect("status", 0, place.done().returncode)
    expect("read", (b"", b"", b"none\n"), tuple((place.folder / name).read_bytes() for name in "abc"))
    expect("lock", b"some text\n", lock.read_bytes())


# ---- random moments

COUNT = 6
ROUND = """rule c
  command = v=$$(cat $in); case $$v in ign*) trap '' INT TERM HUP;; esac; sleep 0.{some}; echo $$v > $out.t; $
    sleep 0.0{few}; mv $out.t $out
rule all
  command = cat $in > $out
"""


class Rounds:
    """Builders that are stopped, round after round, in one folder."""

    def __init__(self, program: str, image: bool, folder: pathlib.Path, seed: int) -> None:
        self.chance, self.folder, self.turn = random.Random(seed), folder, 0
        edges = "".join(f"build o{number}: c{number} s{number}\n" for number in range(COUNT))
        rules = "".join(ROUND.format(some=number % 3, few=number).replace("rule c\n", f"rule c{number}\n")
                        .replace("rule all\n", f"rule all{number}\n") for number in range(COUNT))
        joined = " ".join(f"o{number}" for number in range(COUNT))
        programs.write({"build.ninja": f"{rules}{edges}build all: all0 {joined}\n"}, folder)
        for number in range(COUNT):
            self.edit(number)
        words = Images(program).words(folder) if image else [programs.front(program)]
        self.words = [*words[:2], *words[2:], "-j", "4"]

    def edit(self, number: int) -> None:
        """Changes a source. Some commands ignore signals."""
        self.turn += 1
        word = "ign" if self.chance.random() < 0.2 else "v"
        (self.folder / f"s{number}").write_text(f"{word}{self.turn}\n")

    def edit_some(self) -> None:
        for number in range(COUNT):
            if self.chance.random() < 0.5:
                self.edit(number)

    def check_outputs(self, when: str) -> None:
        """Checks that no output is old."""
        for number in range(COUNT):
            expect(f"o{number} {when}", (self.folder / f"s{number}").read_text(),
                   (self.folder / f"o{number}").read_text())

    def play(self) -> None:
        """Stops a builder at a random moment, edits some sources, and builds again."""
        self.edit_some()
        child = begun(self.words, self.folder)
        try:
            time.sleep(self.chance.random() * 0.4)
            stop(child, self.chance.choice(SIGNALS), self.chance.random() < 0.4)
            self.edit_some()
            done = programs.run(self.words, self.folder)
            expect("status", 0, done.returncode)
            self.check_outputs("after the build")
            time.sleep(LATE / 2)
            self.check_outputs("later")
        finally:
            end(child)


def rounds(program: str, count: int, seed: int, image: bool, folder: pathlib.Path) -> None:
    """Plays rounds of builders that are stopped."""
    playing = Rounds(program, image, folder, seed)
    for turn in range(count):
        try:
            playing.play()
        except Exception as error:
            raise type(error)(f"round {turn} of seed {seed}: {error}") from None


TRIALS = (everything_below_is_stopped, other_builds_go_on, nobody_waits_for_the_watcher, daemon_keeps_nothing,
          older_environment_waits, waiting_is_shown_on_the_terminal, folders_that_call_each_other,
          linked_lock_is_refused, commands_read_nothing)


def tried(builder: str, trial: Callable[[Place], None], folder: pathlib.Path) -> None:
    """Does a trial in a fresh build folder, and ends what it started."""
    place = Place(builder, folder)
    try:
        trial(place)
    finally:
        place.end()


def cases(setting: Setting) -> Iterator[Case]:
    """Yields the signals, the trials, and the rounds."""
    program, builder = setting.program, programs.front(setting.program)
    for number in SIGNALS:
        for group in (False, True):
            for image in (False, True):
                name = f"{'plan_ninja' if image else 'plan_build'} {number.name}{' to the group' if group else ''}"
                yield Case(name, functools.partial(late_command, number, group, "", image, program))
                ignores = functools.partial(late_command, number, group, "trap '' INT TERM HUP;", image, program)
                yield Case(f"{name}, ignored", ignores)
    for trial in TRIALS:
        yield Case(trial.__name__, functools.partial(tried, builder, trial))
    for how in (*NESTED, ELSEWHERE):
        yield Case(f"nested {how}", functools.partial(tried, builder, functools.partial(nested, how=how)))
    yield Case("nested_of_a_killed_one", functools.partial(nested_of_a_killed_one, program))
    yield Case("holders_are_named", functools.partial(holders_are_named, program))
    for image in (False, True):
        playing = functools.partial(rounds, program, setting.counted(ROUNDS), setting.seed, image)
        yield Case(f"rounds of {'plan_ninja' if image else 'plan_build'}", playing)
