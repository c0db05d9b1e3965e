"""Writes files for rows, into the current folder: scripts files.py find this module by PYTHONPATH."""
from __future__ import annotations

import pathlib
from collections.abc import Iterable, Sequence

from lib import image_cases
from lib.image import MAGIC, OPS, Edge, Image, Shared, spelled

LINES = 500_000  # of one file, so that none has more than 16 MiB


def chain(word: str, files: int, last: str) -> None:
    """Writes files of which each includes the next by a word: build.ninja, f1 and so on, and a last one."""
    for number in range(files):
        name = f"f{number}" if number else "build.ninja"
        pathlib.Path(name).write_text(f"x{number} = 1\n{word} f{number + 1}\n")
    pathlib.Path(f"f{files}").write_text(last)


def in_files(lines: Iterable[str]) -> None:
    """Writes a rule `r` and lines, in files that build.ninja includes, since no file may have more than 16 MiB."""
    lines = list(lines)
    with open("build.ninja", "w") as main:
        main.write("rule r\n  command = $out\n")
        for first in range(0, len(lines), LINES):
            pathlib.Path(f"f{first}").write_text("".join(lines[first:first + LINES]))
            main.write(f"include f{first}\n")


def edges(count: int) -> list[str]:
    """Returns the build lines of a number of edges."""
    return [f"build {number:x}: phony\n" for number in range(count)]


def listed(count: int, word: str = "") -> str:
    """Returns a number of paths."""
    return " ".join(f"{word}{number}" for number in range(count))


def image(name: str, text: str) -> None:
    """Writes the image that a text describes, for texts that are too long to keep in a file NAME.image."""
    pathlib.Path(name).write_bytes(image_cases.assembled(text))


def image_of_bytes(name: str, count: int) -> None:
    """Writes an image of a number of bytes: texts of the greatest length, and a shorter one, as holes in the file."""
    most, around = 1_048_576, 8 + 6 * 4  # bytes of a text, and of all but texts: the head, and six counts
    full, rest = divmod(count - around - 4, 4 + most)
    with open(name, "wb") as file:
        file.write(MAGIC + b"\1" + (full + 1).to_bytes(4, "big"))
        for length in [*[most] * full, rest]:
            file.write(length.to_bytes(4, "big"))
            file.seek(length, 1)
        file.write(bytes(5 * 4))


def image_of_bodies(name: str, full: int, last: Sequence[int] = ()) -> None:
    """Writes an image without edges: `full` bodies of 65,536 instructions `Zero`, and then bodies of these lengths."""
    longest = 65_536
    with open(name, "wb") as file:
        file.write(MAGIC + b"\2" + bytes(4 * 4) + (full + len(last)).to_bytes(4, "big"))
        for length in [*[longest] * full, *last]:
            file.write(length.to_bytes(4, "big") + bytes([OPS.index("Zero")]) * length)
        file.write(bytes(2 * 4))


def image_of_one_body(name: str, edges: int) -> None:
    """Writes an image of a number of edges, which share a body of 65,536 instructions and wait for none."""
    around = (("Flag", 1), ("Not", None), ("Drop", None), ("End", None))
    code = (*around[:3], *(("Zero", None), ("Drop", None)) * ((65_536 - len(around)) // 2), around[3])
    files = [b"%d" % number for number in range(edges)]
    made = [Edge(Shared(0, ()), outputs=(number,)) for number in range(edges)]
    pathlib.Path(name).write_bytes(spelled(Image((b"",), files, (), (), made, (), (code,))))
