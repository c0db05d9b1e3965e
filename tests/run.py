#!/usr/bin/env python3
"""Runs suites of tests on PROGRAM, which is plan_ninja as make built it.

    tests/run.py [SUITE..] [-k PATTERN] [-j N] [--list] PROGRAM

Without SUITE those of `make tests` run. A suite is a module of tests/suites, whose first line says what it tests;
lib/suite.py says what it consists of. PATTERN is a shell's pattern of the names of cases (`tab_*`, `scopes/*`); a
pattern without a slash fits the last part of a name too. Several may be given.

Of each check that fails it prints what is wrong, and the command that runs the case again. A suite or a case that can't
run here is left out, and a line says why. The last line is `N passed, N failed`; the status is 1 if one failed.
"""
from __future__ import annotations

import argparse
import collections
import concurrent.futures
import fnmatch
import functools
import glob
import importlib
import os
import pathlib
import shlex
import signal
import subprocess
import sys
import tempfile
import time
import traceback
import types
from collections.abc import Iterable, Iterator
from typing import NamedTuple, NoReturn

import suites
from lib import children, programs
from lib.suite import Case, Checked, LeftOut, Setting, Wrong

EXPECTED = (Wrong, programs.Refused, subprocess.SubprocessError, OSError)  # errors of which the text is enough


class Tried(NamedTuple):
    """The results of a case: how many checks passed, what the others found, and why it was left out."""

    name: str
    passed: int
    faults: list[str]
    left_out: str = ""


# ---- the command line

def options() -> argparse.Namespace:
    """Reads the options of the command line."""
    parser = programs.parser(__doc__)
    parser.add_argument("words", metavar="SUITE .. PROGRAM", nargs="*", help=f"suites: {' '.join(suites.NAMES)}")
    parser.add_argument("-k", dest="patterns", metavar="PATTERN", action="append", default=[], help="run these cases")
    parser.add_argument("-j", dest="jobs", metavar="N", type=int, default=os.cpu_count() or 1,
                        help="run N cases at once, if their suite allows it (default: %(default)s)")
    parser.add_argument("--list", action="store_true", help="print the names of the cases, and run none")
    parser.add_argument("--count", metavar="N", type=int, help="try N random cases instead of a suite's own number")
    parser.add_argument("--seed", metavar="N", type=int, default=1, help="begin at this seed (default: %(default)s)")
    parser.add_argument("--long", action="store_true", help="try all trees of real, building and using; fetches some")
    parser.add_argument("--bless", action="store_true", help="write what is found into the rows that -k selects")
    asked = parser.parse_intermixed_args()
    asked.suites = [word for word in asked.words if word in suites.NAMES] or list(suites.DEFAULT)
    asked.words = [word for word in asked.words if word not in suites.NAMES]
    if len(asked.words) > 1:
        parser.error(f"no such suite: {asked.words[0]}, of: {' '.join(suites.NAMES)}")
    if asked.bless and (asked.suites != ["rows"] or not asked.patterns):
        parser.error("--bless is for rows that -k selects: run.py rows --bless -k NAME PROGRAM")
    return asked


def arguments() -> argparse.Namespace:
    """Returns the options of the command line, with the modules of the suites and the path of the program."""
    asked = options()
    asked.modules = {name: importlib.import_module(f"suites.{name}") for name in asked.suites}
    needing = [name for name, module in asked.modules.items() if getattr(module, "NEEDS_PROGRAM", True)]
    if needing and not asked.words:
        sys.exit(f"run.py: PROGRAM is missing, which {needing[0]} needs")
    try:
        asked.program = programs.program(asked.words[0]) if asked.words else ""
    except argparse.ArgumentTypeError as error:
        sys.exit(f"run.py: {error}, and no such suite of: {' '.join(suites.NAMES)}")
    return asked


class Patterns:
    """The patterns of the command line, and which of them no case has fitted so far."""

    def __init__(self, patterns: Iterable[str]) -> None:
        self.every = list(patterns)
        self.unused = set(self.every)

    def wanted(self, name: str) -> bool:
        """Checks whether a case was asked for."""
        fitting = {pattern for pattern in self.every if fits(name, pattern)}
        self.unused -= fitting
        return bool(fitting) or not self.every


def fits(name: str, pattern: str) -> bool:
    """Checks whether a pattern fits the name of a case, or the last part of it."""
    last = name if "/" in pattern else name.rpartition("/")[2]
    return fnmatch.fnmatchcase(name, pattern) or fnmatch.fnmatchcase(last, pattern)


# ---- cases

def failing(error: Exception, _folder: pathlib.Path) -> NoReturn:
    """Raises the error of a suite's set-up: the check of a case that stands for it."""
    raise error


def cases(module: types.ModuleType, setting: Setting) -> Iterator[Case]:
    """Yields the cases of a suite that were asked for. If its set-up fails, a case that fails stands for it."""
    try:
        yield from (case for case in module.cases(setting) if setting.wanted(case.name))
    except Exception as error:
        yield Case("", functools.partial(failing, error))


def texts(told: Checked) -> Iterator[str]:
    """Yields what a check says of each thing that it looked at."""
    if told is None or isinstance(told, str):
        yield told or ""
    else:
        yield from told


def tried(home: pathlib.Path, case: Case) -> Tried:
    """Tries a case in a fresh folder."""
    found: list[str] = []
    left_out = ""
    try:
        with tempfile.TemporaryDirectory(dir=home) as folder:
            for said in texts(case.check(pathlib.Path(folder))):
                found.append(said)
    except LeftOut as why:
        left_out = str(why)
    except EXPECTED as error:
        found.append(str(error) or repr(error))
    except Exception:
        found.append(traceback.format_exc())
    faults = [said for said in found if said]
    return Tried(case.name, len(found) - len(faults), faults, left_out)


def all_tried(home: pathlib.Path, every: Iterable[Case], jobs: int) -> Iterator[Tried]:
    """Yields the results of cases in their order, each as soon as it is there; with more than one job side by side."""
    check = functools.partial(tried, home)
    if jobs <= 1:
        yield from map(check, every)
        return
    with concurrent.futures.ThreadPoolExecutor(jobs) as pool:
        waiting = collections.deque(pool.submit(check, case) for case in every)
        try:
            while waiting:
                yield waiting.popleft().result()
        finally:
            for future in waiting:
                future.cancel()


# ---- what is printed

class Report:
    """Prints what came of cases, and counts it."""

    def __init__(self, asked: argparse.Namespace) -> None:
        self.asked, self.passed, self.failed, self.left_out = asked, 0, 0, 0
        self.shows_progress = sys.stderr.isatty()

    def progress(self, line: str) -> None:
        """Shows a line on the terminal instead of the last one."""
        if self.shows_progress:
            print(f"\r\033[K{line}", end="", file=sys.stderr, flush=True)

    def say(self, line: str) -> None:
        """Prints a line."""
        self.progress("")
        print(line, flush=True)

    def again(self, suite: str, name: str) -> str:
        """Returns the command that runs a case again."""
        here = os.path.relpath(self.asked.program) if self.asked.program else ""
        program = [self.asked.program if here.startswith("..") else here] if here else []
        options = ["--seed", str(self.asked.seed)] if self.asked.seed != 1 else []
        words = [suite, *(["-k", glob.escape(name)] if name else []), *options, *program]
        return f"again: python3 tests/run.py {' '.join(map(shlex.quote, words))}"

    def tell(self, suite: str, tried: Tried) -> None:
        """Prints what is wrong with a case, and counts its checks."""
        self.passed += tried.passed
        self.failed += len(tried.faults)
        title = f"{suite} {tried.name}".strip()
        if tried.left_out:
            self.left_out += 1
            self.say(f"{title}: left out, {tried.left_out}")
        if tried.faults:
            lines = [f"    {line}" for fault in tried.faults for line in fault.splitlines()]
            self.say("\n".join([f"{title}:", *lines, self.again(suite, tried.name)]))


def listed(asked: argparse.Namespace, patterns: Patterns) -> None:
    """Prints the names of the cases."""
    for suite, module in asked.modules.items():
        with tempfile.TemporaryDirectory() as home:
            for case in cases(module, setting_of(asked, home, patterns)):
                print(suite, case.name, flush=True)


def setting_of(asked: argparse.Namespace, home: str, patterns: Patterns) -> Setting:
    """Returns what a suite is run with."""
    folder = pathlib.Path(home).resolve()
    return Setting(asked.program, folder, asked.count, asked.seed, asked.long, asked.bless, patterns.wanted)


def run_suite(asked: argparse.Namespace, suite: str, report: Report, patterns: Patterns) -> None:
    """Runs a suite, and prints a line with its numbers."""
    module, begun = asked.modules[suite], time.monotonic()
    passed, failed, done = report.passed, report.failed, 0
    jobs = 1 if getattr(module, "ALONE", False) else asked.jobs
    with tempfile.TemporaryDirectory() as home, tempfile.TemporaryDirectory() as folders:
        try:
            every = cases(module, setting_of(asked, home, patterns))
            for result in all_tried(pathlib.Path(folders).resolve(), every, jobs):
                done += 1
                report.tell(suite, result)
                report.progress(f"{suite}: {done} cases")
        finally:
            children.end_marked()
    passed, failed = report.passed - passed, report.failed - failed
    if passed + failed:
        report.say(f"{suite}: {passed} passed, {failed} failed, {time.monotonic() - begun:.0f} s")


def pass_hangups_on() -> None:
    """Lets programs that suites start end by SIGHUP, also if `nohup` runs this script: what is ignored is inherited."""
    if signal.getsignal(signal.SIGHUP) == signal.SIG_IGN:
        signal.signal(signal.SIGHUP, lambda *_: None)


def main() -> None:
    """Runs the suites of the command line."""
    pass_hangups_on()
    asked = arguments()
    patterns = Patterns(asked.patterns)
    report = Report(asked)
    children.mark()
    if asked.list:
        listed(asked, patterns)
    else:
        for suite in asked.suites:
            run_suite(asked, suite, report, patterns)
    if patterns.unused and not report.left_out:
        sys.exit(f"run.py: no case fits {' or '.join(sorted(patterns.unused))}")
    if not asked.list:
        programs.end(report.passed, report.failed)


if __name__ == "__main__":
    try:
        main()
    except KeyboardInterrupt:
        sys.exit(130)
    except BrokenPipeError:  # nobody reads the list any more
        os.dup2(os.open(os.devnull, os.O_WRONLY), 1)
        sys.exit(1)
