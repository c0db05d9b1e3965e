"""Runs the program on the folders of tests/rows, and compares what it prints.

A row is a folder tests/rows/LAYER/NAME; no two rows have the same name. Its parts:

  files/         copied to a fresh folder, in which the program runs
  NAME.image     an image as text, which is written to the file NAME there; lib/image_cases.py describes the text
  files.py       a script that runs there first, for files that are too large or too many to keep; lib/row_files.py has
                 what several such scripts share
  args           the arguments, one a line (default: commands build.ninja)
  stdout stderr  what is printed (default: nothing)
  stdout.has stderr.has   lines instead, each of which must occur in it
  stdout.to      a file that standard output goes to, or the word `closed`
  status         the exit status (default: 0)
  left/          files that must be there afterwards, with these bytes; NAME.hex has the bytes of NAME in hexadecimal.
                 Any other new file is a fault

`python3 tests/run.py rows --bless -k NAME PROGRAM` writes what is found into a row: read it before you keep it.
"""
from __future__ import annotations

import collections
import contextlib
import difflib
import functools
import os
import pathlib
import re
import shutil
import subprocess
import sys
from collections.abc import Iterator, Sequence

from lib import image_cases
from lib.suite import Case, Setting, Wrong

ROWS = pathlib.Path(__file__).resolve().parents[1] / "rows"
LAYERS = ("text", "statements", "scopes", "edges", "graphs", "compile", "replay", "compare", "program")
PARTS = {"files", "files.py", "args", "stdout", "stderr", "stdout.has", "stderr.has", "stdout.to", "status", "left"}
SECONDS = 60
CLOSED = ["sh", "-c", 'exec "$0" "$@" >&-']  # a command without standard output
MOST_LINES = 200  # of one difference
MOST_BYTES = 400  # of one line of it
Done = subprocess.CompletedProcess  # of bytes


# ---- the folder of a row

def name_of(row: pathlib.Path) -> str:
    """Returns LAYER/NAME."""
    return f"{row.parent.name}/{row.name}"


def content(row: pathlib.Path, name: str, default: bytes = b"") -> bytes:
    """Returns the bytes of a part of a row."""
    path = row / name
    return path.read_bytes() if path.exists() else default


def misplaced(rows: Sequence[pathlib.Path]) -> Iterator[str]:
    """Yields what is in tests/rows and is no row of a layer, no part of a row, or has the name of another row."""
    yield from (f"no layer: {path.name}" for path in sorted(ROWS.iterdir()) if path.name not in LAYERS)
    for row in rows:
        yield from (f"no part of a row: {name_of(row)}/{path.name}" for path in row.iterdir()
                    if path.name not in PARTS and path.suffix != ".image")
    names = collections.Counter(row.name for row in rows)
    yield from (f"rows with the same name: {name}" for name, count in names.items() if count > 1)


def all_rows() -> list[pathlib.Path]:
    """Returns the folders of all rows."""
    rows = sorted(row for layer in LAYERS for row in (ROWS / layer).iterdir())
    for fault in misplaced(rows):
        raise Wrong(fault)
    return rows


# ---- runs

def prepare(row: pathlib.Path, folder: pathlib.Path) -> None:
    """Writes the files of a row into a folder."""
    if (row / "files").is_dir():
        shutil.copytree(row / "files", folder, dirs_exist_ok=True)
    for path in row.glob("*.image"):
        (folder / path.stem).write_bytes(image_cases.assembled(path.read_text(encoding="utf-8")))
    if (row / "files.py").exists():
        environment = {**os.environ, "PYTHONPATH": str(ROWS.parent)}
        subprocess.run([sys.executable, str(row / "files.py")], cwd=folder, env=environment, check=True)


def names_in(folder: pathlib.Path) -> set[str]:
    """Returns the files below a folder, by their paths from there."""
    return {str(path.relative_to(folder)) for path in folder.rglob("*") if not path.is_dir()}


def left_by(row: pathlib.Path) -> dict[str, bytes]:
    """Returns the files that must be there afterwards."""
    found = {name: (row / "left" / name).read_bytes() for name in names_in(row / "left")}
    return {re.sub(r"\.hex$", "", name): bytes.fromhex(text.decode()) if name.endswith(".hex") else text
            for name, text in found.items()}


def left_faults(row: pathlib.Path, folder: pathlib.Path, before: set[str]) -> Iterator[str]:
    """Yields how the files that are there afterwards differ from the row."""
    wanted, there = left_by(row), names_in(folder)
    yield from (f"{name} is left" for name in sorted(there - before - wanted.keys()))
    yield from (f"{name} is gone" for name in sorted(before - there - wanted.keys()))
    for name, text in sorted(wanted.items()):
        found = (folder / name).read_bytes() if name in there else None
        if found is None:
            yield f"{name} is not there"
        elif found != text:
            yield from difference(name, text, found)


def run(program: str, row: pathlib.Path, folder: pathlib.Path) -> tuple[Done, list[str]]:
    """Runs the program on a row; returns what it printed, and how the files that it left differ from the row."""
    prepare(row, folder)
    before = names_in(folder)
    words = content(row, "args", b"commands\nbuild.ninja\n").split(b"\n")[:-1]
    target = content(row, "stdout.to").decode().strip()
    command = [*(CLOSED if target == "closed" else []), os.fsencode(program), *words]
    with contextlib.ExitStack() as opened:
        out = opened.enter_context(open(target, "wb")) if target not in ("", "closed") else subprocess.PIPE
        done = subprocess.run(command, cwd=folder, stdin=subprocess.DEVNULL, stdout=out, stderr=subprocess.PIPE,
                              timeout=SECONDS)
    return done, list(left_faults(row, folder, before))


# ---- differences

def shown(line: bytes) -> str:
    """Returns a line with escapes for all that is not printable ASCII."""
    text = repr(line)[2:-1].replace("\\\\", "\\")
    return text if len(text) <= MOST_BYTES else f"{text[:MOST_BYTES]}.. ({len(line)} bytes)"


def place(one: Sequence[bytes] | bytes, other: Sequence[bytes] | bytes) -> int:
    """Returns the first place at which two lists differ."""
    short = min(len(one), len(other))
    return next((at for at in range(short) if one[at] != other[at]), short)


def difference(name: str, wanted: bytes, found: bytes) -> Iterator[str]:
    """Yields a unified difference; of a long one its first lines."""
    before, after = wanted.splitlines(True), found.splitlines(True)
    long = max(len(before), len(after)) > MOST_LINES
    first = max(0, place(before, after) - 3) if long else 0  # equal lines before that would only take time
    yield from difflib.unified_diff(
        [shown(line) for line in before[first:first + MOST_LINES]],
        [shown(line) for line in after[first:first + MOST_LINES]], f"wanted {name}", f"found {name}", lineterm="")
    yield f"({name} differs from byte {place(wanted, found)} on; {len(wanted)} bytes wanted, {len(found)} found)"


def differences(row: pathlib.Path, done: Done) -> Iterator[str]:
    """Yields how what was printed differs from the row, as lines to show."""
    status = int(content(row, "status", b"0"))
    if done.returncode != status:
        yield f"status {done.returncode}, wanted {status}"
    for name, found in (("stdout", done.stdout or b""), ("stderr", done.stderr)):
        if (row / f"{name}.has").exists():
            lacking = [line for line in content(row, f"{name}.has").splitlines() if line not in found]
            yield from (f"{name} lacks: {shown(line)}" for line in lacking)
            yield from (f"found {name}: {shown(line)}" for line in found.splitlines()[:MOST_LINES] if lacking)
        elif found != content(row, name):
            yield from difference(name, content(row, name), found)


# ---- cases

def fault(program: str, row: pathlib.Path, folder: pathlib.Path) -> str:
    """Returns how a run of the program differs from a row."""
    done, left = run(program, row, folder)
    return "\n".join([*differences(row, done), *left])


def keep(row: pathlib.Path, name: str, text: bytes) -> None:
    """Writes a part of a row, or removes it if it would be empty."""
    if text:
        (row / name).write_bytes(text)
    elif (row / name).exists():
        (row / name).unlink()


def bless(program: str, row: pathlib.Path, folder: pathlib.Path) -> str:
    """Writes what is printed into a row, except for parts `.has`; returns how the run still differs from it."""
    done, left = run(program, row, folder)
    keep(row, "status", f"{done.returncode}\n".encode() if done.returncode else b"")
    for name, found in (("stdout", done.stdout or b""), ("stderr", done.stderr)):
        if not (row / f"{name}.has").exists():
            keep(row, name, found)
    return "\n".join([*differences(row, done), *left])


def cases(setting: Setting) -> Iterator[Case]:
    """Yields the rows."""
    check = bless if setting.bless else fault
    for row in all_rows():
        yield Case(name_of(row), functools.partial(check, setting.program, row))
