#!/usr/bin/env python3
"""Times `plan_ninja verify` and `dump` on a generated image of 100,000 edges and some 5 million instructions.

The edges are those that `compile` makes of C sources: a command with a depfile, two order-only sources, one to three
named inputs and an output. The last is a phony that waits for 16,000 of them. The image is written in both versions.
Printed are the sizes, what each part takes, the median wall time of five runs, the peak memory, and its ratio to the
file's size; and version 2's size beside version 1's: of the whole file, of one with short texts, and of the edges with
their bodies alone. It is no test and asserts nothing.
"""
from __future__ import annotations

import pathlib
import statistics
import tempfile
from collections.abc import Iterator

from timing import Run, measured, programs

from lib import image
from lib.image import Code, Edge, Image, Instr, Slot

EDGES = 100_000
HEADERS = 2_000  # that order-only sources and named inputs are among
ORDER_ONLY = 2
WAITS = 16_000  # of the last edge, four instructions each: a body has at most 65,536
RUNS = 5
SLOTS = "FSS"  # of an edge: changed, the newest input's stamp, the output's stamp


def bare(words: str) -> Iterator[Instr]:
    """Instructions without numbers, and `Flag 0`, `Flag 1` as `Flag0`, `Flag1`."""
    for word in words.split():
        yield ("Flag", int(word[4])) if word.startswith("Flag") else (word, None)


def headers_of(number: int) -> list[int]:
    """Headers of an edge, each another one: the order-only sources and the named inputs beside the source."""
    return [(number + place * 251) % HEADERS for place in range(ORDER_ONLY + number % 3)]


def asked(number: int, slot: int) -> Iterator[Instr]:
    """The code of an edge up to what is recorded of it; its slots begin at this one."""
    source, output = HEADERS + 2 * number, HEADERS + 2 * number + 1
    _, newest, stamp = range(slot, slot + len(SLOTS))
    headers = headers_of(number)
    for header in headers[:ORDER_ONLY]:
        yield from [("Need", header), ("Drop", None)]
    yield ("Need", source)
    for header in headers[ORDER_ONLY:]:
        yield from [("Need", header), ("Newer", None)]
    yield from [
        ("Store", newest), ("Stat", output), ("Store", stamp), ("Load", stamp), ("Load", newest), *bare("Flag0 Recall")]


def judged(number: int, slot: int, place: int) -> Iterator[Instr]:
    """The code that goes on at a place: up to the end of an edge that is clean."""
    same, dirty = place + 9, place + 18
    yield from [("Drop", None), ("Text", 2 * number), ("Equal", None), ("JumpIf", same)]
    yield from [*bare("Drop Sweep Drop Drop"), ("Jump", dirty)]
    yield from [*bare("Drop Sweep Drop"), ("JumpIf", dirty), ("Before", None), ("JumpIf", dirty + 2)]
    yield from [("Flag", 0), ("Store", slot), ("End", None)]


def run(number: int, slot: int) -> Iterator[Instr]:
    """The code of an edge that is dirty, which drops two values first."""
    output, command, depfile = HEADERS + 2 * number + 1, 2 * number, 2 * number + 1
    changed, newest, stamp = range(slot, slot + len(SLOTS))
    yield from [*bare("Drop Drop Take"), ("Text", command), *bare("Run Release"), ("Text", command), ("Load", newest)]
    yield from [("Flag", 0), ("Text", depfile), *bare("Deps Sweep Swap Drop Keep")]
    yield from [("Stat", output), ("Store", stamp), ("Flag", 1), ("Store", changed), ("End", None)]


def code(number: int) -> Code:
    """The code of an edge with its number's output, source, texts and slots."""
    slot = len(SLOTS) * number
    front = list(asked(number, slot))
    return (*front, *judged(number, slot, len(front)), *run(number, slot))


def edge(number: int) -> Edge:
    return Edge(code(number), label=2 * number, outputs=[HEADERS + 2 * number + 1])


def loads(slot: int, count: int, joined: str) -> Iterator[Instr]:
    """This slot of so many edges, joined to one value."""
    yield ("Load", slot)
    for number in range(1, count):
        yield from [("Load", slot + len(SLOTS) * number), (joined, None)]


def gathered(count: int, slot: int) -> Code:
    """The code of a phony that names the outputs of so many edges: the greatest stamp, and whether one has changed."""
    return (*loads(2, count, "Newer"), ("Store", slot), *loads(0, count, "Or"), ("Store", slot + 1), ("End", None))


def texts_of(number: int) -> tuple[bytes, bytes]:
    """The command and the depfile of an edge."""
    source = b"m%d/f%d" % (number // 50, number)
    command = b"gcc -O2 -Wall -Iinclude -MMD -MF obj/%b.o.d -c src/%b.c -o obj/%b.o" % (source, source, source)
    return command, b"obj/%b.o.d" % source


def files_of(number: int) -> tuple[bytes, bytes]:
    """The source and the output of an edge."""
    source = b"m%d/f%d" % (number // 50, number)
    return b"src/%b.c" % source, b"obj/%b.o" % source


def phony(count: int) -> Edge:
    """The edge behind so many others, which waits for the first of them."""
    waits = range(min(count, WAITS))
    own = gathered(len(waits), len(SLOTS) * count)
    return Edge(own, sort=1, rank=1, label=2 * count, outputs=[HEADERS + 2 * count], waits=waits)


def generated(count: int) -> Image:
    texts = [text for number in range(count) for text in texts_of(number)]
    files = [b"include/h%d.h" % number for number in range(HEADERS)]
    files += [file for number in range(count) for file in files_of(number)]
    slots = [Slot(number, kind) for number in range(count) for kind in SLOTS]
    slots += [Slot(count, kind) for kind in "SF"]
    return Image([*texts, b""], [*files, b"all"], [], slots, [*map(edge, range(count)), phony(count)], [count])


def with_short_texts(made: Image) -> Image:
    """The same edges, with commands of some 20 bytes and short depfiles."""
    texts = [text for number in range(len(made.texts) // 2) for text in (b"cc -c src/%d.c" % number, b"%d.d" % number)]
    return made._replace(texts=[*texts, b""])


def edges_alone(made: Image) -> Image:
    """The edges with their bodies: none of the other tables."""
    return made._replace(texts=[], files=[], slots=[])


def parts_of(made: Image, size: int) -> str:
    """How many bytes an edge each part takes."""
    left = {name: size - len(image.spelled(made._replace(**{name: []}))) for name in ("texts", "files", "slots")}
    left["edges"] = size - sum(left.values())
    return ", ".join(f"{name} {taken / len(made.edges):.0f}" for name, taken in left.items())


def ratio(made: Image) -> float:
    """Version 2's bytes by version 1's."""
    return len(image.spelled(image.shared(made))) / len(image.spelled(made))


def shown(word: str, size: int, runs: list[Run]) -> str:
    seconds, mebibytes = statistics.median(run.seconds for run in runs), max(run.mebibytes for run in runs)
    if any(run.status for run in runs):
        return f"  {word:6} ended with {runs[0].status}"
    return f"  {word:6} {seconds:5.2f} s  {mebibytes:6.1f} MiB, {mebibytes * 2**20 / size:.2f} of the file"


def main() -> None:
    program = programs.arguments(__doc__ or "").parse_args().program
    made = generated(EDGES)
    instrs = sum(len(image.code_of(made, one)) for one in made.edges)
    print(f"{len(made.edges)} edges, {instrs} instructions", flush=True)
    with tempfile.TemporaryDirectory() as home:
        folder = pathlib.Path(home)
        for version, of_version in ((1, made), (2, image.shared(made))):
            data = image.spelled(of_version)
            (folder / "plan.img").write_bytes(data)
            taken = parts_of(of_version, len(data))
            print(f"version {version}: {len(data) / 2**20:.1f} MiB; bytes an edge: {taken}", flush=True)
            for word in ("verify", "dump"):
                runs = [measured([program, word, "plan.img"], folder) for _ in range(RUNS)]
                print(shown(word, len(data), runs), flush=True)
    print(f"version 2 has {ratio(made):.3f} of version 1's bytes, {ratio(with_short_texts(made)):.3f} with short texts;"
          f" edges alone {ratio(edges_alone(made)):.3f}")


if __name__ == "__main__":
    main()
