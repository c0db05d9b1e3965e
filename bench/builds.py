#!/usr/bin/env python3
"""Times `plan_ninja run` beside ninja, in the same rounds, at -j 4: builds from nothing, and with nothing to do.

A tree has so many objects, each of a source and 21 headers that its depfile names, and a library for every hundred; a
command only makes its output, its depfile lies there before. Then 1,000 and 10,000 times `true`. The image is compiled
before; how long that takes is printed beside. The words name numbers of objects (1000 10000 without any), and by
OBJECTSxHEADERS another number of headers, 1000x200. Printed are medians of seven rounds that take turns. It is no test
and asserts nothing.
"""
from __future__ import annotations

import pathlib
import shutil
import statistics
import sys
import tempfile
from collections.abc import Sequence

from timing import Run, measured, programs

HEADERS, OF_EACH, LIBRARY = 2_000, 21, 100
ROUNDS = 7
RULES = """\
rule cc
  command = : > $out
  depfile = $out.d
  deps = gcc
  description = CC $out
rule ar
  command = : > $out
  description = AR $out
"""


def headers_of(number: int, each: int) -> list[str]:
    return [f"include/h{(number * 37 + step * 251) % HEADERS}.h" for step in range(each)]


def written(count: int, folder: pathlib.Path, each: int = OF_EACH) -> None:
    """A tree of so many objects, of so many headers each."""
    for part in range(count // LIBRARY + 1):
        (folder / f"src/p{part}").mkdir(parents=True)
        (folder / f"out/p{part}").mkdir(parents=True)
    (folder / "include").mkdir()
    for number in range(HEADERS):
        (folder / f"include/h{number}.h").touch()
    lines = [RULES]
    for number in range(count):
        name = f"p{number // LIBRARY}/f{number}"
        (folder / f"src/{name}.c").touch()
        (folder / f"out/{name}.o.d").write_text(f"out/{name}.o: src/{name}.c {' '.join(headers_of(number, each))}\n")
        lines.append(f"build out/{name}.o: cc src/{name}.c\n")
    for part in range(0, count, LIBRARY):
        numbers = range(part, min(part + LIBRARY, count))
        objects = " ".join(f"out/p{number // LIBRARY}/f{number}.o" for number in numbers)
        lines.append(f"build out/lib{part}.a: ar {objects}\n")
    (folder / "build.ninja").write_text("".join(lines))


def truths(count: int, folder: pathlib.Path) -> None:
    """So many times `true`, each of which runs at every build."""
    edges = "".join(f"build o{number}: t\n" for number in range(count))
    (folder / "build.ninja").write_text(f"rule t\n  command = true\n{edges}")


def median(runs: Sequence[Run]) -> Run:
    return Run(statistics.median(run.seconds for run in runs), statistics.median(run.mebibytes for run in runs),
               max(run.status for run in runs))


def show(what: str, ours: Run, theirs: Run) -> None:
    times = f"{ours.seconds:8.3f} s {theirs.seconds:8.3f} s {ours.seconds / theirs.seconds:6.2f}"
    memory = f"{ours.mebibytes:8.1f} MiB {theirs.mebibytes:8.1f} MiB {ours.mebibytes / max(theirs.mebibytes, 0.1):6.2f}"
    status = "" if ours.status == theirs.status == 0 else f"  status {ours.status}, {theirs.status}"
    print(f"{what:32} {times}   {memory}{status}", flush=True)


def rounds(ours: list[str], theirs: list[str], folders: Sequence[pathlib.Path], count: int) -> tuple[Run, Run]:
    """Medians of rounds in which both take turns."""
    runs = [(measured(ours, folders[0]), measured(theirs, folders[1])) for _ in range(count)]
    return median([run[0] for run in runs]), median([run[1] for run in runs])


def bench(program: str, ninja: str, count: int, each: int) -> None:
    objects = f"{count} objects" if each == OF_EACH else f"{count} of {each} headers"
    with tempfile.TemporaryDirectory() as name:
        folders = pathlib.Path(name) / "ours", pathlib.Path(name) / "theirs"
        for folder in folders:
            folder.mkdir()
            written(count, folder, each)
        made = measured([program, "compile", "build.ninja", "-o", "plan.img"], folders[0])
        print(f"{objects}: compiled in {made.seconds:.3f} s")
        ours, theirs = [program, "run", "plan.img", "-j", "4"], [ninja, "-j", "4"]
        show(f"{objects}, first build", *rounds(ours, theirs, folders, 1))
        show(f"{objects}, nothing to do", *rounds(ours, theirs, folders, ROUNDS))
        (folders[0] / "include/h0.h").touch()
        (folders[1] / "include/h0.h").touch()
        show(f"{objects}, a header changed", *rounds(ours, theirs, folders, 1))


def bench_truths(program: str, ninja: str, count: int) -> None:
    with tempfile.TemporaryDirectory() as name:
        folder = pathlib.Path(name)
        truths(count, folder)
        measured([program, "compile", "build.ninja", "-o", "plan.img"], folder)
        ours, theirs = [program, "run", "plan.img", "-j", "4"], [ninja, "-j", "4"]
        show(f"{count} times `true`", *rounds(ours, theirs, [folder, folder], ROUNDS))


def main() -> None:
    parser = programs.arguments(__doc__)
    parser.add_argument("trees", metavar="OBJECTS[xHEADERS]", nargs="*", default=["1000", "10000"])
    asked = parser.parse_args()
    ninja = shutil.which("ninja")
    if ninja is None:
        sys.exit("no ninja")
    print(f"{'':32} {'plan_ninja':>10} {'ninja':>10} {'ratio':>6}   {'plan_ninja':>12} {'ninja':>12} {'ratio':>6}")
    for tree in asked.trees:
        count, _, each = tree.partition("x")
        bench(asked.program, ninja, int(count), int(each or OF_EACH))
    for count in 1_000, 10_000:
        bench_truths(asked.program, ninja, count)


if __name__ == "__main__":
    main()
