"""Spoils each byte of a record in turn, and builds: everything must be right then, whatever the record says.

Two bits of each byte are changed, one at a time, and the record is cut after each byte. The next build must succeed,
its outputs must be those of the sources, and the build after it must have nothing to do. But if the first six bytes are
no longer those of an entry, the file counts as no record: it is refused, and stays as it is.
"""
from __future__ import annotations

import functools
import pathlib
import shutil
import subprocess
from typing import Iterator, Tuple

from lib import programs
from lib.suite import Case, Setting

BITS = (0x80, 0x01)
MANIFEST = """rule cc
  command = cat $in deep/header > $out && echo "$out: $in deep/header" > $out.d
  depfile = $out.d
rule link
  command = cat $in > $out
build a.o: cc a
build b.o: cc b
build all: link a.o b.o
"""
FILES = {"build.ninja": MANIFEST, "a": "a\n", "b": "b\n", "deep/header": "h\n"}
OUTPUTS = {"a.o": "a\nh\n", "b.o": "b\nh\n", "all": "a\nh\nb\nh\n"}
RUN = ["run", "plan.img"]


def spoilt(record: bytes) -> Iterator[Tuple[str, bytes]]:
    """Yields records that differ from a good one, each with what was done to it."""
    for at in range(len(record)):
        yield f"cut after {at} bytes", record[:at]
        for bit in BITS:
            changed = bytearray(record)
            changed[at] ^= bit
            yield f"bit {bit} of byte {at} changed", bytes(changed)


def may_begin(record: bytes) -> bool:
    """Checks whether the first bytes of a file, as far as they go, may be those of an entry."""
    return record[:1] in (b"", b"\0") and (len(record) < 6 or 1 <= int.from_bytes(record[4:6], "big") <= 4096)


def wrong_refusal(ran: "subprocess.CompletedProcess[bytes]", record: bytes, folder: pathlib.Path) -> str:
    """Returns what is wrong after a run with a file that is no record, or an empty text."""
    if ran.returncode != 2 or ran.stdout or b"it is no build record" not in ran.stderr:
        return f"the build ended with {ran.returncode}, printed {ran.stdout!r}, and said {ran.stderr!r}"
    return "" if (folder / ".plan_record").read_bytes() == record else "the file was changed"


def fault(program: str, tree: pathlib.Path, record: bytes, folder: pathlib.Path) -> str:
    """Builds a copy of a tree with a record; returns what is wrong then, or an empty text."""
    shutil.copytree(tree, folder, dirs_exist_ok=True)
    (folder / ".plan_record").write_bytes(record)
    ran = programs.run([program, *RUN], folder)
    if not may_begin(record):
        return wrong_refusal(ran, record, folder)
    if ran.returncode != 0 or ran.stderr:
        return f"the build ended with {ran.returncode}, printed {ran.stdout!r}, and said {ran.stderr!r}"
    for name, text in OUTPUTS.items():
        if (folder / name).read_text() != text:
            return f"{name} is {(folder / name).read_text()!r}"
    again = programs.run([program, *RUN], folder)
    if again.returncode != 0 or again.stdout or again.stderr:
        return f"the next build ended with {again.returncode}, and printed {again.stdout!r}"
    return ""


def built(program: str, tree: pathlib.Path) -> bytes:
    """Builds the tree, and returns its record."""
    programs.write(FILES, tree)
    programs.printed_lines([program, "compile", "build.ninja", "-o", "plan.img"], tree)
    programs.printed_lines([program, *RUN], tree)
    return (tree / ".plan_record").read_bytes()


def cases(setting: Setting) -> Iterator[Case]:
    """Yields the spoilt records."""
    for done, record in spoilt(built(setting.program, setting.home)):
        yield Case(done, functools.partial(fault, setting.program, setting.home, record))
