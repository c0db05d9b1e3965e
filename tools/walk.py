#!/usr/bin/env python3
"""Lists the files whose functions a command of plan_ninja passes, in the order of their crates.

    tools/walk.py PROGRAM WORD..

PROGRAM is one in which no function is inlined: tools/unproved.py --crate crates/plan_ninja --no-inlining PROGRAM. It is
run under valgrind with the WORDs, and each function of the repository that runs counts for the file that it is written
in. So a reader sees how far the way of one command is. The last line has the numbers of files, crates and functions.
"""
from __future__ import annotations

import argparse
import collections
import pathlib
import re
import subprocess
import tempfile

ROOT = pathlib.Path(__file__).resolve().parent.parent
CALLED = re.compile(r"^c?fn=\(\d+\) ?(.+)$", re.MULTILINE)
OWN = re.compile(r"(plan_\w+)((?:::\w+)+)")


def functions(program: str, words: list[str]) -> set[str]:
    """Returns the names of all functions that run."""
    with tempfile.NamedTemporaryFile("r") as profile:
        command = ["valgrind", "-q", "--tool=callgrind", f"--callgrind-out-file={profile.name}", program, *words]
        subprocess.run(command, stdout=subprocess.DEVNULL, check=False)
        return set(CALLED.findall(profile.read()))


def file_of(name: str) -> str | None:
    """Returns the file in which a function of this repository is written, or None for another function."""
    match = OWN.match(name)
    if match is None:
        return None
    crate, path = match[1], match[2].split("::")[1:]
    home = ROOT / "crates" / crate / "src"
    for length in range(len(path) - 1, 0, -1):
        file = home.joinpath(*path[:length]).with_suffix(".rt")
        if file.is_file():
            return str(file.relative_to(ROOT / "crates"))
    return None


def main() -> None:
    parser = argparse.ArgumentParser(description=__doc__, formatter_class=argparse.RawDescriptionHelpFormatter)
    parser.add_argument("program")
    parser.add_argument("words", nargs=argparse.REMAINDER)
    asked = parser.parse_args()
    passed: dict[str, set[str]] = collections.defaultdict(set)
    for name in functions(asked.program, asked.words):
        file = file_of(name)
        if file is not None:
            passed[file].add(name.partition("::<")[0])
    for file in sorted(passed):
        print(f"{file}: {len(passed[file])}")
    crates = {file.partition("/")[0] for file in passed}
    print(f"{len(passed)} files of {len(crates)} crates, {sum(map(len, passed.values()))} functions")


if __name__ == "__main__":
    main()
