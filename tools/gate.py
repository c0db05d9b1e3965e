#!/usr/bin/env python3
"""Runs the gate, as much of it side by side as there are processors.

Proofs take longest, and those of the upper crates wait for each other, so that processors are idle. Meanwhile these
checks run at a lower priority: the unit tests, the bodies that unit tests refuse, calls with refused memory, and the
must-fail edits of each crate once it is proved. The tests of the programs come last. The output of a check is printed
when it has ended, that of the proofs and of the programs' tests at once, and that of the proofs to gate.log, too. If a
name in the documents doesn't exist, an edit doesn't fit, or a function has too many calls, nothing else is run.
Otherwise all checks are run, whichever fail. The line before the last says how long the gate took, and how many minutes
of a processor. The last line is `N passed, M failed`, of checks.
"""
from __future__ import annotations

import argparse
import concurrent.futures
import os
import pathlib
import resource
import shutil
import signal
import subprocess
import sys
import tempfile
import threading
import time
from typing import NamedTuple

import edits
import over_sources
import prove_all
import tests_path  # noqa: F401: it makes lib known
from lib import programs

ROOT = pathlib.Path(__file__).resolve().parent.parent
PROCESSORS = len(os.sched_getaffinity(0))
FIRST = {"names in the documents": ["tools/manifest_names.py"],
         "edits that fit": ["tools/edits.py", "--fit", *over_sources.crates()],
         "calls of functions": ["tools/calls_of_functions.py"]}
MEANWHILE = {"calls with refused memory": ["tests/run.py", "-j", "1", "calls"],
             "wrong bodies": ["tools/wrong_bodies.py", "--gate", "--tests-passed"],
             "unit tests": ["tools/unit_tests.py", "--jobs", "1"]}  # the last one begins first


class Check(NamedTuple):
    name: str
    passed: bool
    minutes: float  # of a processor


def waited(check: subprocess.Popen[bytes]) -> float:
    """Waits for a check, and returns how many minutes of a processor it took, with all that it waited for."""
    _, status, used = os.wait4(check.pid, 0)
    check.returncode = -(status & 127) if status & 127 else status >> 8
    return (used.ru_utime + used.ru_stime) / 60


class Checks:
    """Runs checks side by side: on half of the processors while crates are proved, and on all of them afterwards."""

    def __init__(self) -> None:
        self.pool = concurrent.futures.ThreadPoolExecutor(PROCESSORS)
        self.free = threading.Semaphore(max(1, PROCESSORS // 2))
        self.begun: list[concurrent.futures.Future[Check]] = []
        self.running: set[subprocess.Popen[bytes]] = set()
        self.printing = threading.Lock()

    def begin(self, name: str, words: list[str]) -> None:
        """Runs a check of this name as soon as a processor is free."""
        self.begun.append(self.pool.submit(self.run, name, words))

    def run(self, name: str, words: list[str]) -> Check:
        """Runs a check, and prints what it said when it has ended."""
        with self.free:
            begun = time.monotonic()
            check = subprocess.Popen(["nice", sys.executable, *words], cwd=ROOT, stdin=subprocess.DEVNULL,
                                     stdout=subprocess.PIPE, stderr=subprocess.STDOUT)
            self.running.add(check)
            with check.stdout or open(os.devnull, "rb") as output:
                said = output.read()
            minutes = waited(check)
            self.running.discard(check)
        with self.printing:
            how = "passed" if check.returncode == 0 else "FAILED"
            print(f"== {name}: {how}, {time.monotonic() - begun:.0f} s", flush=True)
            print(said.decode(errors="replace"), end="", flush=True)
        return Check(name, check.returncode == 0, minutes)

    def run_all(self, named: dict[str, list[str]]) -> list[Check]:
        """Runs some checks side by side, and waits for them."""
        return list(self.pool.map(self.run, named, named.values()))

    def show(self, name: str, words: list[str]) -> Check:
        """Runs a check alone, and lets it print what it says."""
        check = subprocess.Popen(words, cwd=ROOT, stdin=subprocess.DEVNULL)
        self.running.add(check)
        minutes = waited(check)
        self.running.discard(check)
        return Check(name, check.returncode == 0, minutes)

    def widen(self) -> None:
        """Gives the checks all processors."""
        for _ in range(PROCESSORS - max(1, PROCESSORS // 2)):
            self.free.release()

    def ended(self) -> list[Check]:
        """Waits for all checks."""
        return [check.result() for check in self.begun]

    def stop(self) -> None:
        """Ends the checks that are running, and leaves out the others."""
        for check in self.begun:
            check.cancel()
        for running in list(self.running):
            running.terminate()


def link_library(out: pathlib.Path, libraries: pathlib.Path) -> None:
    """Puts the library of a crate that was proved into a folder, without a copy of its files."""
    for library in (out / "rlib").glob("*.rlib"):
        shutil.copytree(library, libraries / library.name, copy_function=os.link, dirs_exist_ok=True)


class Starter:
    """Begins checks while crates are proved."""

    def __init__(self, checks: Checks, libraries: pathlib.Path) -> None:
        self.checks, self.libraries, self.left = checks, libraries, dict(MEANWHILE)

    def begin(self) -> None:
        """Begins the checks that need no proof."""
        while self.left:
            self.checks.begin(*self.left.popitem())

    def proved(self, crate: str, out: pathlib.Path) -> None:
        """Begins the must-fail edits of a crate that is proved.

        The other checks begin with the first crate, and not before: `rt ci` measures once, when it starts, how much
        memory is free, and gives proofs fewer processors if there is little.
        """
        self.begin()
        link_library(out, self.libraries)
        if edits.edits_of(crate, (edits.GATE,)):
            words = ["tools/edits.py", "--gate", "--jobs", "1", "--proved", str(self.libraries), crate]
            self.checks.begin(f"edits of {crate}", words)


def minutes_of_all() -> float:
    """Returns how many minutes of a processor this process and all that it waited for have taken."""
    own, others = (resource.getrusage(whose) for whose in (resource.RUSAGE_SELF, resource.RUSAGE_CHILDREN))
    return (own.ru_utime + own.ru_stime + others.ru_utime + others.ru_stime) / 60


def proved_meanwhile(checks: Checks, anew: bool) -> list[Check]:
    """Proves all crates. Meanwhile and then runs the checks that need some of them, or none."""
    begun = minutes_of_all()
    with tempfile.TemporaryDirectory(prefix="gate-", dir=ROOT / "out") as folder:
        starter = Starter(checks, pathlib.Path(folder))
        with open(ROOT / "gate.log", "w", encoding="utf-8") as log:
            passed = prove_all.prove(log, starter.proved, anew=anew) == 0
        starter.begin()
        checks.widen()
        found = checks.ended()
    proofs = minutes_of_all() - begun - sum(check.minutes for check in found)
    return [Check("proofs", passed, proofs), *found]


def run(checks: Checks, anew: bool) -> list[Check]:
    """Runs the gate. Leaves out what comes after checks of which one failed."""
    found = checks.run_all(FIRST)
    if all(check.passed for check in found):
        found += proved_meanwhile(checks, anew)
    if all(check.passed for check in found):
        found.append(checks.show("tests of the programs", ["make", "tests"]))
    return found


def end(found: list[Check], began: float) -> None:
    """Prints how each check ended and how long all took, and ends with the status of the gate."""
    for check in found:
        print(f"{check.name}: {'passed' if check.passed else 'FAILED'}, {check.minutes:.1f} processor minutes")
    elapsed = (time.monotonic() - began) / 60
    print(f"the gate took {minutes_of_all():.0f} processor minutes, {elapsed:.0f} minutes on {PROCESSORS} processors")
    programs.end(sum(check.passed for check in found), sum(not check.passed for check in found))


def main() -> None:
    parser = argparse.ArgumentParser(description=__doc__, formatter_class=argparse.RawDescriptionHelpFormatter)
    parser.add_argument("--anew", action="store_true", help="prove again what an earlier run proved on this machine")
    anew = parser.parse_args().anew
    signal.signal(signal.SIGTERM, lambda *_: sys.exit(143))  # so that all that runs is ended
    (ROOT / "out").mkdir(exist_ok=True)
    began, checks = time.monotonic(), Checks()
    try:
        found = run(checks, anew)
    except BaseException:
        checks.stop()
        raise
    end(found, began)


if __name__ == "__main__":
    try:
        main()
    except KeyboardInterrupt:
        sys.exit(130)
