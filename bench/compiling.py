#!/usr/bin/env python3
"""Times `plan_ninja compile` beside `plan_ninja commands` and `ninja -t commands` of the same manifests.

The projects are those of run.py, flat and tree, of 10,000 and 100,000 edges without any word. All take turns, and what
they make goes to files of one folder: the image, and the commands that are printed; once more `commands` prints to
nowhere. With --folder the projects are written there, which may be on a RAM disk.
Printed are the least wall time of each, since other work on the machine only adds, peak memory, and the ratios of
`compile` to `commands`, both to files: of the least times, of the medians, and of memory; and the ratio of the medians
where `commands` prints to nowhere. It is no test and asserts nothing.
"""
from __future__ import annotations

import os
import pathlib
import shutil
import statistics
import sys
import tempfile

import manifests
from run import SHAPES
from timing import Run, measured, programs

ROUNDS = 25
IMAGE = "plan.img"


def line(shape: str, edges: int, runs: list[list[Run]]) -> str:
    """What a project's runs of `compile`, `commands` and ninja tell."""
    least = [min(run.seconds for run in done) for done in runs]
    medians = [statistics.median(run.seconds for run in done) for done in runs]
    memory = [max(run.mebibytes for run in done) for done in runs]
    cells = [f"{seconds:7.3f} s {mebibytes:6.1f} MiB" for seconds, mebibytes in zip(least, memory)]
    ratios = least[0] / least[1], medians[0] / medians[1], memory[0] / max(memory[1], 0.1), medians[0] / medians[2]
    return "  ".join([f"{shape} {edges:8d}", *cells, *(f"{ratio:5.2f}" for ratio in ratios)])


def made_anew(words: list[str], output: str, folder: pathlib.Path) -> Run:
    """One run, whose files aren't there before it."""
    for name in [output, IMAGE]:
        if name != os.devnull:
            (folder / name).unlink(missing_ok=True)
    return measured(words, folder, output=output)


def main() -> None:
    parser = programs.arguments(__doc__)
    parser.add_argument("sizes", metavar="EDGES", nargs="*", type=int, default=[10_000, 100_000])
    parser.add_argument("--folder", help="where the projects are written")
    asked = parser.parse_args()
    ninja = shutil.which("ninja")
    if ninja is None:
        sys.exit("no ninja")
    commands = [asked.program, "commands", "build.ninja"]
    turns = [([asked.program, "compile", "build.ninja", "-o", IMAGE], os.devnull), (commands, "commands.txt"),
             (commands, os.devnull), ([ninja, "-t", "commands"], "ninja.txt")]
    print("        edges  compile               commands              commands, to nowhere  ninja -t commands   "
          "  least  medians  memory  nowhere")
    for shape, project in SHAPES.items():
        for edges in asked.sizes:
            with tempfile.TemporaryDirectory(dir=asked.folder) as home:
                folder = pathlib.Path(home)
                programs.write(manifests.written(project(edges)), folder)
                runs = [[made_anew(words, output, folder) for words, output in turns] for _ in range(ROUNDS)]
            print(line(shape, edges, [list(done) for done in zip(*runs)]), flush=True)


if __name__ == "__main__":
    main()
