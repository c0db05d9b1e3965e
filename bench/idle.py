#!/usr/bin/env python3
"""Times builds with nothing to do: plan_build, ninja, and `plan_ninja run` with an image, in the same rounds.

    bench/idle.py [--keep FOLDER] PROGRAM [OBJECTS[xHEADERS][:JOBS] ..]

Trees are those of builds.py, and one of a single edge; without words 1, 1000, 10000 and 1000x200 at -j 4, and 10000 at
-j 1 and -j 2. If there is a C compiler, floor.c is timed too: threads that only ask for as many stamps as `plan_ninja
run`. Then `--version`, and CMake's configuration of a project with 47 checks of the compiler, each of which is a build.
Printed are medians of wall time, and in brackets the least; ratios to ninja of both; the median of the ratios of each
round, which depends least on a host that changes its speed; and the peak of memory where `time` is there. With --keep
the trees stay in a folder, and those that are there are used again, since first builds take longer than all else. It is
no test and asserts nothing.
"""
from __future__ import annotations

import contextlib
import pathlib
import shutil
import statistics
import subprocess
import sys
import tempfile
import time
from collections.abc import Iterator

from builds import LIBRARY, OF_EACH, headers_of, written
from timing import measured, programs

ROUNDS, SHORT_ROUNDS, CONFIGURED = 15, 101, 5
TREES = ["1", "1000", "10000", "1000x200", "10000:1", "10000:2"]
CHECKS = 47
CMAKE = """cmake_minimum_required(VERSION 3.13)
project(checks C)
include(CheckCSourceCompiles)
foreach(number RANGE 1 {count})
  check_c_source_compiles("int number = ${{number}}; int main(void) {{ return 0; }}" HAS_${{number}})
endforeach()
add_executable(program main.c)
"""


def seconds(words: list[str], folder: pathlib.Path) -> float:
    """Returns the wall time of one run, without a program between."""
    begun = time.perf_counter()
    subprocess.run(words, cwd=folder, stdin=subprocess.DEVNULL, stdout=subprocess.DEVNULL, stderr=subprocess.DEVNULL)
    return time.perf_counter() - begun


def show(what: str, runs: dict[str, list[float]]) -> None:
    """Prints the medians and the least times, their ratios to ninja's, and the median of the ratios of each round."""
    ninja = runs["ninja"]
    print(what, flush=True)
    for name, found in runs.items():
        middle, least = statistics.median(found) * 1000, min(found) * 1000
        ratios = middle / statistics.median(ninja) / 1000, least / min(ninja) / 1000
        of_rounds = statistics.median(ours / theirs for ours, theirs in zip(found, ninja))
        told = f"{middle:8.2f} ({least:8.2f}) ms   {ratios[0]:5.2f} ({ratios[1]:5.2f})   rounds {of_rounds:5.2f}"
        print(f"  {name:12} {told}", flush=True)


def rounds(builders: dict[str, list[str]], folders: dict[str, pathlib.Path], count: int) -> dict[str, list[float]]:
    """Runs all builders in turn, so many times."""
    runs: dict[str, list[float]] = {name: [] for name in builders}
    for _ in range(count):
        for name, words in builders.items():
            runs[name].append(seconds(words, folders[name]))
    return runs


def floor_in(home: pathlib.Path) -> str | None:
    """Compiles floor.c, if there is a C compiler."""
    compiler = shutil.which("cc")
    if compiler is None:
        return None
    source, program = pathlib.Path(__file__).resolve().parent / "floor.c", home / "floor"
    done = subprocess.run([compiler, "-O2", "-pthread", "-o", str(program), str(source)])
    return str(program) if done.returncode == 0 else None


def questions(count: int, each: int) -> list[str]:
    """The paths whose stamps a run of the tree asks for: each output is asked for at the begin and at the end."""
    paths = []
    for number in range(count):
        name = f"p{number // LIBRARY}/f{number}"
        paths += [f"out/{name}.o", f"src/{name}.c", *headers_of(number, each), f"out/{name}.o"]
    return paths + [f"out/lib{part}.a" for part in range(0, count, LIBRARY)]


@contextlib.contextmanager
def folder_of(tree: str, kept: pathlib.Path | None) -> Iterator[pathlib.Path]:
    """Gives the folder of a tree, which is a temporary one if trees aren't kept."""
    if kept:
        (kept / tree).mkdir(parents=True, exist_ok=True)
        yield kept / tree
    else:
        with tempfile.TemporaryDirectory() as name:
            yield pathlib.Path(name)


def built(builders: dict[str, list[str]], folders: dict[str, pathlib.Path], count: int, each: int) -> dict[str, float]:
    """Writes and builds a tree for each builder that has none yet. Returns the peak of memory of each build, in MiB."""
    first = {}
    for name, words in builders.items():
        folder = folders[name]
        if folder.is_dir():
            continue
        folder.mkdir()
        if count == 1:
            (folder / "build.ninja").write_text("rule t\n  command = : > $out\nbuild a: t in\n")
            (folder / "in").touch()
        else:
            written(count, folder, each)
        if "plan.img" in words:
            measured([words[0], "compile", "build.ninja", "-o", "plan.img"], folder)
        first[name] = measured(words, folder).mebibytes
    return first


def show_memory(what: str, found: dict[str, float]) -> None:
    """Prints the peaks of memory, and their ratios to ninja's."""
    ninja = max(found.get("ninja", 0.0), 0.1)
    if "ninja" in found:
        told = ", ".join(f"{name} {peak:.1f} ({peak / ninja:.2f})" for name, peak in found.items() if name != "floor")
        print(f"  memory in MiB, {what}: {told}", flush=True)


def bench(program: str, front: str, ninja: str, tree: str, kept: pathlib.Path | None) -> None:
    """Times builds of a tree of so many objects, or of one edge."""
    objects, _, given = tree.partition(":")
    words = objects.partition("x")
    count, each, jobs = int(words[0]), int(words[2] or OF_EACH), given or "4"
    with folder_of(objects, kept) as home:
        builders = {"ninja": [ninja], "plan_build": [front], "plan_ninja": [program, "run", "plan.img"]}
        builders = {name: [*words, "-j", jobs] for name, words in builders.items()}
        folders = {name: home / name for name in builders}
        first = built(builders, folders, count, each)
        floor = floor_in(home) if count > 1 else None
        if floor:
            (home / "questions").write_text("".join(f"{path}\n" for path in questions(count, each)))
            builders["floor"], folders["floor"] = [floor, jobs, str(home / "questions")], folders["plan_ninja"]
        idle = {name: measured(words, folders[name]).mebibytes for name, words in builders.items()}
        runs = rounds(builders, folders, SHORT_ROUNDS if count == 1 else ROUNDS)
        show(f"{count} objects of {each} headers, -j {jobs}, nothing to do", runs)
        if floor:
            least = min(runs["plan_ninja"]) / min(runs["floor"])
            print(f"  plan_ninja takes {least:.2f} times the floor, by the least")
        show_memory("first build", first)
        show_memory("nothing to do", idle)


def configured(builder: str, source: pathlib.Path, home: pathlib.Path) -> float:
    """Returns how long CMake takes to configure the project in a fresh folder."""
    build = home / "build"
    shutil.rmtree(build, ignore_errors=True)
    words = ["cmake", "-G", "Ninja", f"-DCMAKE_MAKE_PROGRAM={builder}", "-S", str(source), "-B", str(build)]
    return seconds(words, home)


def bench_cmake(front: str, ninja: str) -> None:
    """Times CMake with each builder."""
    with tempfile.TemporaryDirectory() as name:
        home = pathlib.Path(name)
        source = home / "source"
        source.mkdir()
        (source / "CMakeLists.txt").write_text(CMAKE.format(count=CHECKS))
        (source / "main.c").write_text("int main(void) { return 0; }\n")
        runs: dict[str, list[float]] = {"plan_build": [], "ninja": []}
        for _ in range(CONFIGURED):
            for builder, found in zip((front, ninja), runs.values()):
                found.append(configured(builder, source, home))
        show(f"cmake, {CHECKS} checks", runs)


def main() -> None:
    parser = programs.arguments(__doc__)
    parser.add_argument("trees", metavar="OBJECTS[xHEADERS][:JOBS]", nargs="*")
    parser.add_argument("--keep", metavar="FOLDER", type=lambda path: pathlib.Path(path).resolve())
    asked = parser.parse_args()
    ninja, front = shutil.which("ninja"), programs.front(asked.program)
    if ninja is None:
        sys.exit("no ninja")
    for tree in asked.trees or TREES:
        bench(asked.program, front, ninja, tree, asked.keep)
    if asked.trees:
        return
    here = pathlib.Path.cwd()
    versions = {"plan_build": [front, "--version"], "ninja": [ninja, "--version"]}
    show("--version", rounds(versions, dict.fromkeys(versions, here), SHORT_ROUNDS))
    processor = [measured([front, "--version"], here).processor for _ in range(SHORT_ROUNDS)]
    print(f"--version takes {statistics.mean(processor) * 1000:.1f} ms of a processor")
    if shutil.which("cmake"):
        bench_cmake(front, ninja)


if __name__ == "__main__":
    main()
