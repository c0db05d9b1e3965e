#!/usr/bin/env python3
"""Runs the unit tests of crates, compiled without proofs: of all crates that have some, or of those named.

The gate proves what users run, and runs the tests of it. A crate's tests pass if all of them do, and if there are as
many as functions marked as tests. The last line is `N passed, M failed`, of crates.
"""
from __future__ import annotations

import argparse
import concurrent.futures
import pathlib
import re
import time

import tests_path  # noqa: F401: it makes lib known
import without_proofs
from lib import programs

ROOT = pathlib.Path(__file__).resolve().parent.parent
SECONDS = 600  # at most, for each test: those of limits take a minute on a busy machine
TEST = re.compile(r"^ *#\[test\]$", re.MULTILINE)
RESULT = re.compile(r"^test result: ok\. (\d+) passed; 0 failed; 0 ignored", re.MULTILINE)
ENDED = re.compile(r"^run=ended status=0 ", re.MULTILINE)


def count(crate: str) -> int:
    """Returns how many tests a crate has."""
    sources = (ROOT / "crates" / crate / "src").glob("**/*.rt")
    return sum(len(TEST.findall(source.read_text())) for source in sources)


def passes(crate: str) -> bool:
    """Runs the tests of a crate, and prints how they ended; all that they printed if one failed."""
    begun = time.monotonic()
    status, said = without_proofs.run_tests(ROOT / "crates" / crate, SECONDS)
    result = RESULT.search(said)
    passed = status == 0 and ENDED.search(said) is not None and result is not None and int(result[1]) == count(crate)
    took = f"{time.monotonic() - begun:.0f} s"
    told = f"{count(crate)} tests passed, {took}" if passed else f"FAILED, {took}\n{said}"
    print(f"{crate}: {told}", flush=True)
    return passed


def main() -> None:
    parser = argparse.ArgumentParser(description=__doc__, formatter_class=argparse.RawDescriptionHelpFormatter)
    parser.add_argument("crates", metavar="CRATE", nargs="*")
    parser.add_argument("--jobs", type=int, default=4, help="how many crates side by side, of a processor each")
    asked = parser.parse_args()
    found = sorted(path.name for path in (ROOT / "crates").iterdir() if (path / "src").is_dir() and count(path.name))
    unknown = [crate for crate in asked.crates if crate not in found]
    if unknown:
        parser.error(f"no crate with tests: {unknown[0]}, of: {' '.join(found)}")
    with concurrent.futures.ThreadPoolExecutor(asked.jobs) as lanes:
        passed = list(lanes.map(passes, asked.crates or found))
    programs.end(sum(passed), len(passed) - sum(passed))


if __name__ == "__main__":
    main()
