"""Reads images that are written as text, and cases of them, each with what the program says of it.

A file of cases (tests/images/*.cases) has blank lines and lines that begin with `#`, which say nothing, and

  text TEXT         a text, as it stands (nothing behind the word: the empty one)
  file PATH         a file
  pool NAME DEPTH   a pool
  slot OWNER KIND   a slot of an edge; KIND is S, F, T, P or Q
  edge WORD ..      an edge; the words are command or phony, pool N, rank N, label N, outputs N .., waits N ..
                    (command, no pool, rank 0, label 0, output 0, no waits), and behind it, indented, its instructions;
                    `64 Zero` is 64 of them
  default N ..      what is built by default
  bytes HEX         bytes as they stand, in place of all these; several lines are one text, `repeat N HEX` in one of
                    them repeats a piece
  == NAME           begins a case; what stands in front of the first belongs to each case of the file
  => ANSWER         ends it: `ok EDGES BUDGET`, or what is printed behind `plan: `; `1=>` and `2=>` where the versions
                    differ

Each case except those of bytes is tried in both versions: with instructions of each edge's own, and with bodies.

A file NAME.image of a row in tests/rows has the same lines without `==` and `=>`. The image has version 1, or version 2
if the first line is `version 2`.
"""
from __future__ import annotations

import pathlib
import re
from collections.abc import Iterator, Sequence
from typing import NamedTuple

from lib.image import OPS, Code, Edge, Image, Pool, Slot, shared, spelled

FOLDER = pathlib.Path(__file__).resolve().parents[1] / "images"
EMPTY = Image((), (), (), (), (), ())


class Case(NamedTuple):
    """The name of a case, the bytes of an image, and what `verify` says of it."""

    name: str
    data: bytes
    answer: str


def instrs(words: Sequence[str]) -> Code:
    """Returns the code of words such as `Load 3` or `64 Zero`."""
    if words[0].isdigit():
        return instrs(words[1:]) * int(words[0])
    assert words[0] in OPS, words
    return ((words[0], int(words[1]) if len(words) > 1 else None),)


def edge(words: Sequence[str]) -> Edge:
    """Returns the edge of words such as `command rank 1 outputs 0 1`, without instructions."""
    groups = re.findall(r"([a-z]+)((?: \d+)*)", " ".join(words))
    parts = {name: [int(value) for value in values.split()] for name, values in groups}
    return Edge(
        (), sort=1 if "phony" in parts else 0, pool=parts.get("pool", [None])[0], rank=parts.get("rank", [0])[0],
        label=parts.get("label", [0])[0], outputs=parts.get("outputs", [0]), waits=parts.get("waits", []))


def with_line(image: Image, line: str) -> Image:
    """Returns an image with one more line."""
    word, _, rest = line.partition(" ")
    words = rest.split()
    if not word:
        *others, last = image.edges
        return image._replace(edges=[*others, last._replace(code=(*last.code, *instrs(words)))])
    if word == "text":
        return image._replace(texts=[*image.texts, rest.encode()])
    if word == "file":
        return image._replace(files=[*image.files, rest.encode()])
    if word == "pool":
        return image._replace(pools=[*image.pools, Pool(words[0].encode(), int(words[1]))])
    if word == "slot":
        return image._replace(slots=[*image.slots, Slot(int(words[0]), words[1])])
    if word == "edge":
        return image._replace(edges=[*image.edges, edge(words)])
    assert word == "default", line
    return image._replace(defaults=[int(value) for value in words])


def image_of(lines: Sequence[str]) -> Image:
    image = EMPTY
    for line in lines:
        image = with_line(image, line)
    return image


def bytes_of(lines: Sequence[str]) -> bytes:
    """Returns the bytes of `bytes` lines."""
    text = " ".join(re.sub("^bytes", "", line) for line in lines)
    repeated = re.sub(r"repeat (\d+) ([0-9a-f]+)", lambda found: found[2] * int(found[1]), text)
    return bytes.fromhex(repeated)


def assembled(text: str) -> bytes:
    """Returns the bytes of the image that the text of a file NAME.image describes."""
    lines = [line for line in text.splitlines() if line.strip() and not line.startswith("#")]
    if lines and lines[-1].startswith("bytes"):
        return bytes_of(lines)
    if lines[:1] == ["version 2"]:
        return spelled(shared(image_of(lines[1:])))
    return spelled(image_of(lines))


def cases_of(name: str, lines: Sequence[str], answers: dict[str, str]) -> Iterator[Case]:
    """Yields a case in each version that has an answer, or one case of bytes."""
    if lines[-1].startswith("bytes"):
        yield Case(name, bytes_of([line for line in lines if line.startswith("bytes")]), answers[""])
        return
    image = image_of(lines)
    for version, made in (("1", image), ("2", shared(image))):
        if answer := answers.get(version, answers.get("")):
            yield Case(f"{name} (version {version})", spelled(made), answer)


def blocks(text: str) -> Iterator[tuple[str, list[str], dict[str, str]]]:
    """Yields name, lines and answers of each case of a file."""
    common, *rest = re.split(r"^== ", text, flags=re.MULTILINE)
    for block in rest:
        name, *own = block.splitlines()
        lines = [line.rstrip() for line in [*common.splitlines(), *own] if line.strip() and not line.startswith("#")]
        found = [re.fullmatch(r"([12]?)=> (.*)", line) for line in lines]
        answers = {match[1]: match[2] for match in found if match}
        yield name, [line for line, match in zip(lines, found) if not match], answers


def names() -> list[str]:
    """Returns FILE/NAME of each case."""
    return [f"{path.stem}/{name}" for path in sorted(FOLDER.glob("*.cases")) for name, _, _ in blocks(path.read_text())]


def cases() -> Iterator[Case]:
    """Yields all cases of all files."""
    for path in sorted(FOLDER.glob("*.cases")):
        for name, lines, answers in blocks(path.read_text()):
            yield from cases_of(f"{path.stem}/{name}", lines, answers)
