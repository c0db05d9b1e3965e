"""Compares what plan_depfile reads in depfiles with the plain reader of lib/plain_depfiles.py.

The texts are random ones cut at random places, rules of up to 60,000 paths, and what gcc and clang write for sources
and headers with blanks, `#`, `$` and colons in their names. The program of tests/depfile is proved and built in a copy
of the two crates first, which takes some minutes and needs the kit. Each text counts as one check.
"""
from __future__ import annotations

import functools
import pathlib
import random
import shutil
import struct
import subprocess
from collections.abc import Iterator
from typing import List, Tuple, Union

from lib import plain_depfiles, throwaway
from lib.suite import Case, LeftOut, Setting

ALONE = True
NEEDS_PROGRAM = False
SOURCE = pathlib.Path(__file__).resolve().parents[1] / "depfile" / "dep_read.rt.txt"
COUNT = 20_000  # random texts
Read = Union[List[bytes], Tuple[int, ...]]  # paths, or the numbers of a fault
FRONTS = [b"", b"a: ", b"a:b\n", b"  ", b"# "]
WORDS = [b"a", b"b", b"./a", b"../b", b"a//b", b"/", b"..", b"x" * 40, b" ", b"\t", b"\\", b"\n", b"\r", b"\r\n",
         b"\\\n", b"\\\r\n", b"$", b"$$", b":", b"#", b"\\ ", b"\\#", b"\\:", b"\\\\", b"\0", b"\xff",
         b"a: ", b" c", b"\n d:"]
MANY = 24  # texts of many paths
NAMES = ["plain.h", "with blank.h", "with#hash.h", "with$dollar.h", "with:colon.h", "tab\there.h", "back\\slash.h",
         "é.h", "two  blanks.h", "$$.h", "a\\ b.h"]


def random_text(rng: random.Random) -> bytes:
    """Returns a short text of words that matter in depfiles."""
    return rng.choice(FRONTS) + b"".join(rng.choice(WORDS) for _ in range(rng.randrange(24)))


def many_paths(rng: random.Random) -> bytes:
    """Returns a rule of many short paths, some of them more than once: they are told apart by their hashes."""
    count = rng.choice([60, 1_000, 60_000])
    return b"o:" + b"".join(b" %x" % rng.randrange(2 * count) for _ in range(count))


def compilers_texts(home: pathlib.Path) -> Iterator[bytes]:
    """Yields what gcc and clang write for each name that the compiler accepts."""
    home.mkdir()
    for name in NAMES:
        (home / name).write_text("\n")
        source = home / (name[:-2] + ".c")
        source.write_text("".join(f'#include "{other}"\n' for other in [name, NAMES[0]]))
        for compiler in filter(shutil.which, ["gcc", "clang"]):
            words = [compiler, "-MD", "-MP", "-MF", "dep", "-c", source.name, "-o", name + ".o"]
            done = subprocess.run(words, cwd=home, stdin=subprocess.DEVNULL, stderr=subprocess.DEVNULL)
            if done.returncode == 0:
                yield (home / "dep").read_bytes()


def case(text: bytes, first: int, piece: int, mode: int) -> bytes:
    """Returns a text as the program reads it, with how it is cut."""
    return struct.pack(">IIII", len(text), first, piece, mode) + text


def answers(out: bytes) -> Iterator[Read]:
    """Yields what the program printed, text by text."""
    at = 0
    while at < len(out):
        line, _, _ = out[at:].partition(b"\n")
        at += len(line) + 1
        kind, *numbers = line.split()
        if kind == b"fault":
            yield tuple(map(int, numbers))
            continue
        paths = []
        for _ in range(int(numbers[0])):
            size, _, _ = out[at:at + 24].partition(b"\n")
            at += len(size) + 1
            paths.append(out[at:at + int(size)])
            at += int(size) + 1
        yield paths


def faults(program: pathlib.Path, texts: list[bytes], rng: random.Random, folder: pathlib.Path) -> Iterator[str]:
    """Yields for each text how the program read it differently, or an empty text."""
    (folder / "cases").write_bytes(b"".join(
        case(text, rng.randrange(len(text) + 1), rng.choice([1, 2, 3, 7, 65536]), rng.choice([0, 3]))
        for text in texts))
    done = subprocess.run([str(program)], cwd=folder, check=True, stdin=subprocess.DEVNULL, stdout=subprocess.PIPE)
    found = list(answers(done.stdout))
    for text, said in zip(texts, found):
        read = plain_depfiles.read(text)
        yield "" if said == read else f"{text!r}\n  program: {said}\n  reader: {read}"
    if len(found) != len(texts):
        yield f"{len(found)} answers for {len(texts)} texts"


def cases(setting: Setting) -> Iterator[Case]:
    """Yields one case, in which each text is a check."""
    if shutil.which("rt") is None:
        raise LeftOut("no rt")
    rng = random.Random(setting.seed)
    program = throwaway.built(setting.home / "repository", SOURCE, ["plan_text", "plan_depfile"], ["cases"])
    texts = list(compilers_texts(setting.home / "sources"))
    texts += [random_text(rng) for _ in range(setting.counted(COUNT))]
    texts += [many_paths(rng) for _ in range(MANY)]
    yield Case("texts", functools.partial(faults, program, texts, rng))
