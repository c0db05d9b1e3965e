"""Runs programs, writes trees of files, and reads the commands that ninja prints."""
from __future__ import annotations

import argparse
import collections
import io
import os
import pathlib
import re
import shutil
import signal
import subprocess
import sys
import tempfile
from collections.abc import Mapping, Sequence
from typing import Counter, NoReturn

SECONDS = 120
Lines = Counter[bytes]  # how often each line was printed, with its newline
STATUS_LINES = re.compile(rb"(?:(?:\[\d+/\d+\]|FAILED|SKIPPED|STOPPED) .*\n)*")


class Refused(Exception):
    """A program ended with another status than 0; what it said on standard error."""


def program(path: str) -> str:
    """Returns the whole path of a program, since it runs in other folders: a type of argparse."""
    found = pathlib.Path(path).resolve()
    if not found.is_file():
        raise argparse.ArgumentTypeError(f"no such program: {path} (make builds it)")
    return str(found)


def front(program: str) -> str:
    """Returns the path of plan_build that belongs to a plan_ninja: next to it, or in its own crate.

    Raises Refused if there is none.
    """
    own = pathlib.Path(program)
    places = [own.with_name("plan_build"), own.parents[2] / "plan_build" / "out" / "plan_build"]
    for place in places:
        if place.is_file():
            return str(place)
    raise Refused(f"plan_build is missing next to {program}: make, or make unproved, builds it")


def end_by_signal(number: int, _frame: object) -> NoReturn:
    """Ends the script as if it had been killed by a signal, but only after it has ended what it started."""
    sys.exit(128 + number)


def parser(usage: str | None) -> argparse.ArgumentParser:
    """Returns a parser of a script's command line, whose help is the script's docstring.

    SIGINT, SIGTERM and SIGHUP end the script and what it starts. A shell that starts a script in the background lets it
    ignore SIGINT: an ignored signal stays ignored in other programs, and a caught one doesn't. SIGHUP stays ignored if
    it is, as below nohup. If standard input is closed, it is replaced by an empty one, so that no other file gets its
    number.
    """
    signal.signal(signal.SIGINT, signal.default_int_handler)
    signal.signal(signal.SIGTERM, end_by_signal)
    if signal.getsignal(signal.SIGHUP) != signal.SIG_IGN:
        signal.signal(signal.SIGHUP, end_by_signal)
    signal.signal(signal.SIGCHLD, signal.SIG_DFL)
    opened = os.open(os.devnull, os.O_RDONLY)
    if opened != 0:
        os.close(opened)
    else:
        os.set_inheritable(opened, True)
    return argparse.ArgumentParser(description=usage, formatter_class=argparse.RawDescriptionHelpFormatter)


def arguments(usage: str | None) -> argparse.ArgumentParser:
    """Returns the parser of a script whose first word is PROGRAM."""
    found = parser(usage)
    found.add_argument("program", metavar="PROGRAM", type=program, help="plan_ninja, as make built it")
    return found


def run(words: Sequence[str], folder: pathlib.Path, seconds: float = SECONDS) -> subprocess.CompletedProcess[bytes]:
    """Runs a program in a folder, without input; subprocess.TimeoutExpired where it takes longer."""
    return subprocess.run(words, cwd=folder, stdin=subprocess.DEVNULL, capture_output=True, timeout=seconds)


def compiled(program: str, text: str) -> bytes:
    """Returns the image of a manifest."""
    with tempfile.TemporaryDirectory() as name:
        home = pathlib.Path(name)
        write({"build.ninja": text}, home)
        printed_lines([program, "compile", "build.ninja", "-o", "plan.img"], home)
        return (home / "plan.img").read_bytes()


def library(source: str, folder: pathlib.Path) -> pathlib.Path | None:
    """Compiles a source of this folder into a library to preload; returns None if there is no C compiler that does it.
    """
    path = pathlib.Path(__file__).resolve().parent / source
    made = folder / f"{path.stem}.so"
    words = ["cc", "-shared", "-fPIC", "-o", str(made), str(path), "-ldl"]
    if shutil.which("cc") is None or subprocess.run(words, stderr=subprocess.DEVNULL).returncode != 0:
        return None
    return made


def write(files: Mapping[str, str | bytes], folder: pathlib.Path) -> None:
    """Writes bytes, or texts in UTF-8, by their paths below a folder."""
    for name, text in files.items():
        path = folder / name
        path.parent.mkdir(parents=True, exist_ok=True)
        path.write_bytes(text.encode() if isinstance(text, str) else text)


def replayed(program: str, folder: pathlib.Path, trace: str = "plan.trace") -> tuple[int, bytes]:
    """Replays a trace of plan.img; returns the status, and the status lines."""
    done = run([program, "replay", "plan.img", trace], folder)
    if done.stderr:
        raise Refused(f"replay of {trace}: {done.stderr.decode(errors='replace').strip()}")
    lines = STATUS_LINES.match(done.stdout)
    assert lines
    return done.returncode, lines[0]


def counted(printed: bytes) -> Lines:
    return collections.Counter(io.BytesIO(printed))


def printed_lines(words: Sequence[str], folder: pathlib.Path) -> Lines:
    """Returns the lines that a program prints, counted."""
    done = run(words, folder)
    if done.returncode != 0:
        raise Refused(f"{words[0]}: {done.stderr.decode(errors='replace').strip()}")
    return counted(done.stdout)


def targets(printed: bytes | Lines) -> list[str]:
    """Returns the paths that `ninja -t targets all` printed, each before its rule."""
    lines = printed.splitlines() if isinstance(printed, bytes) else printed
    return [line.rpartition(b": ")[0].decode(errors="surrogateescape") for line in lines]


def ninja_commands(ninja: str, folder: pathlib.Path, manifest: str = "build.ninja") -> Lines:
    """Returns the commands of all edges, even if `default` names only some.

    Each edge stands once: `-t commands` passes over those that it has printed, so all targets stand in one call.
    """
    paths = targets(printed_lines([ninja, "-f", manifest, "-t", "targets", "all"], folder))
    return printed_lines([ninja, "-f", manifest, "-t", "commands", "--", *paths], folder)


def end(passed: int, failed: int) -> NoReturn:
    """Prints what came of a test as its last line, and ends the script."""
    print(f"{passed} passed, {failed} failed")
    sys.exit(1 if failed else 0)
