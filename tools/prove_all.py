#!/usr/bin/env python3
"""Proves all crates from nothing by `rt ci`, but for the unit tests.

`rt ci` also proves unit tests, and each crate that has some a second time: more than half as much work as all the rest.
A proof of a test says nothing of the programs, so the gate runs tests without proofs (tools/unit_tests.py). Here `rt
ci` is run on a copy of the repository in which crates that only have tests are missing, and so are the modules below
`#[cfg(test)]`. Before that, the layout of all files is checked, those of tests too. What `rt ci` makes is moved to
crates/*/out: libraries and programs. By itself, `rt ci` still proves the tests too.

If crates are named, only they and the crates below them are proved, as the sources are when it starts. Nothing is moved
then, but `rt ci` keeps what passes, so the gate doesn't prove it again. Use it to prove lower crates while you change
the upper ones.
"""
from __future__ import annotations

import argparse
import os
import pathlib
import re
import shutil
import signal
import subprocess
import sys
import tempfile
from collections.abc import Sequence
from typing import Callable, TextIO

from over_sources import KIT

ROOT = pathlib.Path(__file__).resolve().parent.parent
ONLY_TESTS = re.compile(r"plan_tests_\w+:")
PROVED = re.compile(r"rt: (\w+) (?:proved$|is kept: )")
Proved = Callable[[str, pathlib.Path], None]  # gets a crate that is proved, and the folder of what was made of it
TESTS = re.compile(r"^#\[cfg\(test\)\]\nmod (\w+);\n", re.MULTILINE)


def remove(path: pathlib.Path) -> None:
    """Removes a file or a folder, if it is there."""
    if path.is_dir():
        shutil.rmtree(path)
    else:
        path.unlink(missing_ok=True)


def are_laid_out() -> bool:
    """Checks whether all files of the crates have the layout of `rt fmt`."""
    files = [str(path) for part in ("src", "specs", "proofs") for ending in ("rt", "antt")
             for path in sorted(ROOT.glob(f"crates/*/{part}/**/*.{ending}"))]
    return subprocess.run([str(KIT / "bin" / "rattle"), "fmt", "--check", *files]).returncode == 0


def remove_module(crate: pathlib.Path, name: str) -> None:
    """Removes the files of a module from a crate, with what is written of its proofs."""
    for path in (crate / "src" / f"{name}.rt", crate / "src" / name, crate / "proofs" / name):
        remove(path)


def without_tests(crate: pathlib.Path) -> None:
    """Removes the modules of tests from a crate, with what is written of their proofs."""
    for root in (crate / "src" / "lib.rt", crate / "src" / "main.rt"):
        text = root.read_text() if root.is_file() else ""
        for name in TESTS.findall(text):
            remove_module(crate, name)
        if TESTS.search(text):
            root.write_text(TESTS.sub("", text).rstrip("\n") + "\n")


def copy_without_tests(home: pathlib.Path) -> None:
    """Copies what `rt ci` reads, without tests."""
    shutil.copy(ROOT / "HANDLES", home)
    lines = (ROOT / "crates.txt").read_text().splitlines(keepends=True)
    kept = [line for line in lines if not ONLY_TESTS.match(line)]
    (home / "crates.txt").write_text("".join(kept))
    for line in kept:
        crate = line.partition("#")[0].partition(":")[0].strip()
        if crate:
            shutil.copytree(ROOT / "crates" / crate, home / "crates" / crate, ignore=shutil.ignore_patterns("out"))
            without_tests(home / "crates" / crate)


def unmade(home: pathlib.Path) -> list[str]:
    """Returns the crates of which `rt ci` made neither a library nor a program."""
    made = {crate.name: (crate / "out" / "rlib" / f"{crate.name}.rlib", crate / "out" / crate.name)
            for crate in sorted((home / "crates").iterdir())}
    return [name for name, (library, program) in made.items() if not library.is_dir() and not program.is_file()]


def move_back(home: pathlib.Path) -> None:
    """Moves libraries and programs to the crates of the repository, in the place of older ones."""
    for made in (home / "crates").glob("*/out/*"):
        to = ROOT / "crates" / made.parent.parent.name / "out"
        to.mkdir(exist_ok=True)
        remove(to / made.name)
        shutil.move(str(made), str(to / made.name))


def keeps_proofs() -> bool:
    """Checks whether `rt ci` of this kit keeps what passes. If it doesn't, it proves all crates each time."""
    said = subprocess.run(["rt", "help"], stdout=subprocess.PIPE, stderr=subprocess.STDOUT, text=True, errors="replace")
    return "--anew" in said.stdout


def run_ci(home: pathlib.Path, words: Sequence[str], log: TextIO, proved: Proved) -> int:
    """Runs `rt ci` on a copy, and writes what it says to a log too. Tells of each crate that is proved."""
    run = subprocess.Popen(["rt", "ci", *words], cwd=home, stdout=subprocess.PIPE, text=True, errors="replace")
    try:
        for line in run.stdout or ():
            print(line, end="", flush=True)
            log.write(line)
            found = PROVED.match(line)
            if found:
                proved(found[1], home / "crates" / found[1] / "out")
        return run.wait()
    except BaseException:
        run.terminate()
        raise


def prove(log: TextIO, proved: Proved, crates: Sequence[str] = (), anew: bool = False) -> int:
    """Proves all crates, or those named and the ones below them, and returns the status.

    What an earlier run proved on this machine is kept, unless it is to be proved anew.
    """
    if not are_laid_out():
        print("run rt fmt in the crates of these files", file=sys.stderr)
        return 1
    (ROOT / "out").mkdir(exist_ok=True)
    with tempfile.TemporaryDirectory(prefix="proofs-", dir=ROOT / "out") as name:
        home = pathlib.Path(name)
        (home / ".git").mkdir()  # so that the copy counts as a repository
        copy_without_tests(home)
        words = ["--anew"] if anew and keeps_proofs() else []
        status = run_ci(home, [*words, *crates], log, proved)
        lacking = [] if crates else unmade(home)
        if not crates:
            move_back(home)
    if status == 0 and lacking:
        print(f"rt ci passed, but made nothing of {' '.join(lacking)}", file=sys.stderr)
        return 1
    return status


def main() -> None:
    parser = argparse.ArgumentParser(description=__doc__, formatter_class=argparse.RawDescriptionHelpFormatter)
    parser.add_argument("crates", metavar="CRATE", nargs="*")
    crates = parser.parse_args().crates
    signal.signal(signal.SIGTERM, lambda *_: sys.exit(143))  # so that the copy is removed
    with open(os.devnull, "w", encoding="utf-8") as log:
        sys.exit(prove(log, lambda *_: None, crates))


if __name__ == "__main__":
    try:
        main()
    except KeyboardInterrupt:
        sys.exit(130)
