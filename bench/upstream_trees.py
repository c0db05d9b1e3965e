#!/usr/bin/env python3
"""Times `plan_ninja commands` and `compile` beside `ninja -t commands` on the manifests of CMake itself and of GLib.

The sources of their Debian packages are fetched and configured first, which takes some minutes and needs CMake, Meson
and what GLib asks for; with --folder the build folders are made there and stay, and those that are there are taken.
What can't be made is skipped, and why is said. The programs take turns. Printed are the medians of wall time, peak
memory, and the ratios of `commands` and of `compile` to ninja, of the medians and of the least times (below 1:
plan_ninja needs less). It is no test and asserts nothing.
"""
from __future__ import annotations

import os
import pathlib
import shutil
import statistics
import sys
import tempfile
from collections.abc import Iterator

from timing import Run, measured, programs

from real import trees, upstream

ROUNDS = 25
IMAGE = "plan.img"
PROJECTS = [("cmake", "cmake", ".", "-DBUILD_TESTING=ON"), ("glib2.0", "meson", ".", "-Dtests=true")]


def skip(name: str, why: str) -> None:
    print(f"{name}: skipped, {why}", flush=True)


def build_folders(home: pathlib.Path) -> Iterator[tuple[str, pathlib.Path]]:
    """The projects' names, and the folders of their manifests."""
    missing = []
    for project in PROJECTS:
        build = home / project[0] / "build"
        if (build / "build.ninja").is_file():
            yield project[0], build
        else:
            missing.append(project)
    if not missing:
        return
    with tempfile.TemporaryDirectory(dir=home) as sources:
        for tree in upstream.fetched(pathlib.Path(sources), lambda name: True, skip, missing):
            name = tree.name.split()[0]
            try:
                yield name, trees.configured(tree, home / name)
            except trees.NotConfigured as fault:
                skip(name, str(fault)[-300:])


def line(name: str, runs: list[list[Run]]) -> str:
    """What a project's runs of `commands`, `compile` and ninja tell."""
    medians = [statistics.median(run.seconds for run in done) for done in runs]
    least = [min(run.seconds for run in done) for done in runs]
    memory = [max(run.mebibytes for run in done) for done in runs]
    cells = [f"{seconds:7.4f} s {mebibytes:5.1f} MiB" for seconds, mebibytes in zip(medians, memory)]
    ratios = [f"{found[which] / found[2]:5.2f}" for which in (0, 1) for found in (medians, least)]
    return "  ".join([f"{name:8}", *cells, *ratios])


def main() -> None:
    parser = programs.arguments(__doc__)
    parser.add_argument("--folder", type=pathlib.Path, help="where the build folders are made, and stay")
    asked = parser.parse_args()
    ninja = shutil.which("ninja")
    if ninja is None:
        sys.exit("no ninja")
    turns = [[asked.program, "commands", "build.ninja"], [asked.program, "compile", "build.ninja", "-o", IMAGE],
             [ninja, "-t", "commands"]]
    print("          commands             compile              ninja -t commands    commands, least  compile, least")
    with tempfile.TemporaryDirectory() as own:
        home = asked.folder or pathlib.Path(own)
        home.mkdir(parents=True, exist_ok=True)
        for name, folder in build_folders(home):
            runs = [[measured(words, folder, output=os.devnull) for words in turns] for _ in range(ROUNDS)]
            faults = [words[:2] for words, run in zip(turns, runs[0]) if run.status]
            if faults:
                skip(name, f"{faults} failed")
                continue
            print(line(name, [list(done) for done in zip(*runs)]), flush=True)


if __name__ == "__main__":
    main()
