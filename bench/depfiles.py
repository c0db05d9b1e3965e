#!/usr/bin/env python3
"""Times plan_depfile's reader on depfiles of 1, 4 and 16 MiB, fed in pieces of 65,536 bytes.

Two shapes: what gcc and clang write with `-M -MP` for generated sources that share headers, one depfile behind the
other; and paths of three bytes that all differ, for which the reader keeps most beside a text. A program over the crate
is proved and built first, in a folder of its own. Printed are the median wall time of seven runs, the peak memory less
that of a run on no text, and its ratio to the text. It is no test and asserts nothing.
"""
from __future__ import annotations

import itertools
import pathlib
import random
import shutil
import statistics
import subprocess
import tempfile
from collections.abc import Iterator

from timing import Run, measured

from lib.throwaway import built

HERE = pathlib.Path(__file__).resolve().parent
MIB = 2**20
SIZES = (1, 4, 16)
RUNS = 7
HEADERS = 3_000
INCLUDED = 400  # by each source
SOURCES = 24
SPECIAL = b" \t\n\r\\$#:/."


def header(number: int) -> str:
    return f"include/library{number // 100}/part{number // 10 % 10}/header{number}.h"


def compilers_texts(home: pathlib.Path) -> Iterator[bytes]:
    """The depfiles of some sources, by each compiler that is there."""
    rng = random.Random(1)
    for number in range(HEADERS):
        path = home / header(number)
        path.parent.mkdir(parents=True, exist_ok=True)
        path.write_text("#pragma once\n")
    for number in range(SOURCES):
        included = "".join(f'#include "{header(other)}"\n' for other in rng.sample(range(HEADERS), INCLUDED))
        (home / f"source{number}.c").write_text(f"#include <stdio.h>\n{included}")
        for compiler in filter(shutil.which, ["gcc", "clang"]):
            words = [compiler, "-M", "-MP", f"source{number}.c"]
            yield subprocess.run(words, cwd=home, check=True, capture_output=True).stdout


def from_compilers(size: int, texts: list[bytes]) -> bytes:
    """Depfiles one behind the other, each whole, as many as fit."""
    whole, left = b"".join(texts), size
    chosen = [whole] * (left // len(whole))
    left -= len(whole) * len(chosen)
    for text in texts:
        if len(text) <= left:
            chosen.append(text)
            left -= len(text)
    return b"".join(chosen)


def short_paths(size: int) -> bytes:
    """A rule with paths of three bytes, each another one."""
    letters = [bytes([b]) for b in range(33, 256) if b not in SPECIAL]
    words = (b"".join(word) for word in itertools.product(letters, repeat=3))
    return b"o:" + b" ".join(itertools.islice(words, (size - 1) // 4))


def run(program: pathlib.Path, text: bytes, folder: pathlib.Path) -> Run:
    (folder / "text").write_bytes(text)
    runs = [measured(["sh", "-c", f"exec {program} < text"], folder) for _ in range(RUNS)]
    return Run(statistics.median(r.seconds for r in runs), max(r.mebibytes for r in runs), max(r.status for r in runs))


def main() -> None:
    with tempfile.TemporaryDirectory() as name:
        folder = pathlib.Path(name)
        (folder / "program").mkdir()
        program = built(folder / "program", HERE / "read_depfile.rt.txt", ["plan_text", "plan_depfile"])
        (folder / "sources").mkdir()
        texts = list(compilers_texts(folder / "sources"))
        none = run(program, b"", folder)
        print(f"no text: {none.seconds:.3f} s, {none.mebibytes:.1f} MiB")
        for size in SIZES:
            shapes = {"compilers'": from_compilers(size * MIB, texts), "short paths": short_paths(size * MIB)}
            for shape, text in shapes.items():
                done = run(program, text, folder)
                kept = done.mebibytes - none.mebibytes
                ratio = kept * MIB / len(text)
                print(f"{size:3} MiB, {shape:11}: {done.seconds:.3f} s, {kept:5.1f} MiB, {ratio:.2f} of the text")


if __name__ == "__main__":
    main()
