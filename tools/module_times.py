#!/usr/bin/env python3
"""Prints which modules of a crate's check took the longest, and what the check spent its time on.

    tools/module_times.py --proved FOLDER [--most N] CRATE

FOLDER has the proved libraries of the crates below, as for tools/prove.py. All functions are checked, from nothing, one
after another. A check writes each module as soon as it has checked it, so the time between two files is the time of the
later module. A function has several: the steps of its code, its contract, the goals. Use it to find what makes the gate
slow: docs/developing/proofs/patterns.md says which forms are cheap, and tools/calls_of_functions.py counts calls, which
decide how long the steps take, without any proof.
"""
from __future__ import annotations

import argparse
import collections
import pathlib
import subprocess
import sys
import tempfile
from typing import NamedTuple

import over_sources

KINDS = {"Lts": "steps", "View": "steps", "Given": "steps", "Proof": "goals", "Answers": "answers",
         "Invariants": "answers", "Goals": "statements of goals", "Tie": "tie", "Reads": "reads", "Layout": "layout",
         "Kinds": "layout", "Named": "names", "Code": "code", "Mir": "code", "TheLink": "code", "Met": "theorem",
         "Statement": "theorem", "Symbol": "theorem"}


class Module(NamedTuple):
    seconds: float
    name: str
    size: int  # bytes


def kind(name: str) -> str:
    """Returns what a module is for."""
    parts = name.replace(".decls.oantt", "").replace(".oantt", "").split(".")
    if "-specs" in parts[0]:
        return "contracts" if "contracts" in parts else "definitions"
    return KINDS.get(parts[-1], "lemmas and types")


def modules(folder: pathlib.Path) -> list[Module]:
    """Returns the modules that a check wrote to a folder, in their order, but for the first one."""
    files = sorted((path.stat().st_mtime, path.name, path.stat().st_size) for path in folder.rglob("*.oantt"))
    return [Module(later[0] - earlier[0], later[1], later[2]) for earlier, later in zip(files, files[1:])]


def print_kinds(found: list[Module]) -> None:
    """Prints what a check spent its time on."""
    whole = sum(module.seconds for module in found)
    kinds: collections.Counter[str] = collections.Counter()
    for module in found:
        kinds[kind(module.name)] += module.seconds
    print(f"{len(found)} modules, {whole:.1f} s")
    for what, seconds in kinds.most_common():
        print(f"{100 * seconds / max(whole, 1e-9):5.1f} %  {what}")


def main() -> None:
    parser = argparse.ArgumentParser(description=__doc__, formatter_class=argparse.RawDescriptionHelpFormatter)
    parser.add_argument("crate", metavar="CRATE")
    parser.add_argument("--proved", type=lambda path: pathlib.Path(path).resolve(), required=True,
                        help="a folder with proved libraries")
    parser.add_argument("--most", type=int, default=25, help="how many modules to print")
    asked = parser.parse_args()
    listed = over_sources.crates()
    if asked.crate not in listed:
        sys.exit(f"no crate {asked.crate}, of: {' '.join(listed)}")
    with tempfile.TemporaryDirectory() as kept:
        words = [*over_sources.words(asked.crate, listed, asked.proved), "--jobs", "1", "--incremental", kept]
        check = subprocess.run(words, cwd=over_sources.ROOT / "crates" / asked.crate, stdout=subprocess.PIPE,
                               stderr=subprocess.STDOUT, text=True, errors="replace")
        found = modules(pathlib.Path(kept))
    print_kinds(found)
    for module in sorted(found, reverse=True)[:asked.most]:
        print(f"{module.seconds:7.1f} s  {module.size // 1024:6d} KB  {module.name}")
    if check.returncode != 0:
        print(check.stdout[-2000:], file=sys.stderr)
    sys.exit(check.returncode)


if __name__ == "__main__":
    main()
