#!/usr/bin/env python3
"""Counts the calls of each function of both programs, and fails if a function has more than 60.

    tools/calls_of_functions.py [--most N]

A proof takes some 0.75 seconds of a processor for each call that the compiled function has, so this finds functions
that make the gate slow, without any proof. Most calls that nobody wrote are drops: each early return drops all that the
function owns by then. STYLE.md says how to write it instead. The calls are those in the module of LLVM that `rt try`
hands to clang, before any optimization. Of a generic function the largest copy counts. The N functions with most calls
are printed. The last line is `N passed, M failed`, of functions.
"""
from __future__ import annotations

import argparse
import collections
import pathlib
import re
import tempfile
from collections.abc import Iterable
from typing import NamedTuple

import tests_path  # noqa: F401: it makes lib known
import unproved
from lib import programs

LIMIT = 60
DEFINED = re.compile(r'define[^@]*@(?:"([^"]+)"|([\w:.]+))\(')
CALL = re.compile(r'\bcall [^@]*@"?([^"(]+)')
NOT_CODE = re.compile(r"llvm\.|rattle-")  # what isn't of the sources: intrinsics, and the checks of `rt try`


class Calls(NamedTuple):
    all: int = 0
    drops: int = 0
    variables: int = 0


def counted(lines: Iterable[str]) -> dict[str, Calls]:
    """Returns the calls of each function of this project in a module."""
    found: dict[str, Calls] = {}
    name, own = "", Calls()
    for line in lines:
        defined = DEFINED.match(line)
        called = CALL.search(line)
        if defined:
            name, own = re.sub(r"::<.*", "", defined[1] or defined[2]), Calls()
        elif line.startswith("}") and name.startswith("plan_"):
            found[name] = max(found.get(name, own), own)
        elif " = alloca " in line:
            own = own._replace(variables=own.variables + 1)
        elif called and not NOT_CODE.match(called[1]):
            own = own._replace(all=own.all + 1, drops=own.drops + ("drop" in called[1]))
    return found


def of_program(crate: pathlib.Path) -> dict[str, Calls]:
    """Returns the calls of each function of a program and the crates below it."""
    with tempfile.TemporaryDirectory() as home:
        with open(unproved.module_of(crate, pathlib.Path(home)), encoding="utf-8", errors="replace") as module:
            return counted(module)


def print_crates(found: dict[str, Calls]) -> None:
    """Prints how many calls the functions of each crate have."""
    crates: collections.defaultdict[str, list[Calls]] = collections.defaultdict(list)
    for name, calls in found.items():
        crates[name.partition("::")[0]].append(calls)
    for crate, own in sorted(crates.items(), key=lambda it: -sum(calls.all for calls in it[1])):
        print(f"{sum(it.all for it in own):6d} calls, {sum(it.drops for it in own):5d} of them drops  {crate}")


def main() -> None:
    parser = argparse.ArgumentParser(description=__doc__, formatter_class=argparse.RawDescriptionHelpFormatter)
    parser.add_argument("--most", type=int, default=20, help="how many functions to print")
    most = parser.parse_args().most
    found = of_program(unproved.CRATE)
    for name, calls in of_program(unproved.FRONT).items():
        found[name] = max(found.get(name, calls), calls)
    print_crates(found)
    for name, calls in sorted(found.items(), key=lambda it: -it[1].all)[:most]:
        print(f"{calls.all:6d} calls, {calls.drops:5d} of them drops, {calls.variables:4d} variables  {name}")
    failed = [name for name, calls in found.items() if calls.all > LIMIT]
    for name in failed:
        print(f"{name} has {found[name].all} calls, more than {LIMIT}")
    programs.end(len(found) - len(failed), len(failed))


if __name__ == "__main__":
    main()
