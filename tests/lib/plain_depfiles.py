"""A plain reading of depfiles, written from the rules of docs/rules/depfile.md.

It is slow, and has nothing in common with the program.
"""
from __future__ import annotations

import posixpath
from collections.abc import Iterator, Sequence
from typing import List, Tuple, Union

MOST = 16_777_216
LONGEST_PATH = 4_096
BLANK, COLON, HASH, DOLLAR, NEWLINE = "blank", "colon", "hash", "dollar", "newline"
Token = Union[int, str]  # a byte of a word, or one of these five
Mark = Tuple[Token, int, int]  # a token, and the offsets of its first and its last byte


class Fault(Exception):
    """The number of a fault, its offset, and the offset of the byte at which a reader from left to right meets it."""

    def __init__(self, number: int, offset: int, met: int) -> None:
        super().__init__(number, offset)
        self.number, self.offset, self.met = number, offset, met


def tokens(text: bytes) -> Iterator[Mark]:
    """Yields the tokens of a text, bytes of words or one of the five, with the offsets of first and last byte."""
    at = 0
    while at < len(text):
        token, size = token_at(text[at:at + 3])
        yield token, at, at + size - 1
        at += size


def token_at(text: bytes) -> Tuple[Token, int]:
    """Returns the token that a text begins with, and its length."""
    for front, token in [(b"\\\n", BLANK), (b"\\\r\n", BLANK), (b"\\ ", 32), (b"\\#", 35), (b"\\:", 58), (b"$$", 36),
                         (b"$", DOLLAR), (b":", COLON), (b"#", HASH), (b" ", BLANK), (b"\t", BLANK), (b"\n", NEWLINE),
                         (b"\r\n", NEWLINE)]:
        if text.startswith(front):
            return token, len(front)
    return text[0], 1


def canonical(path: bytes) -> bytes:
    """Returns the canonical form of a path that isn't empty."""
    found = posixpath.normpath(path)
    return found[1:] if found.startswith(b"//") else found


def split(marks: Sequence[Mark], end: Token, stop: int) -> List[Tuple[List[Mark], int]]:
    """Returns the parts between tokens of a sort, each with the last byte of what ends it."""
    parts: List[Tuple[List[Mark], int]] = []
    part: List[Mark] = []
    for mark in marks:
        if mark[0] == end:
            parts.append((part, mark[2]))
            part = []
        else:
            part.append(mark)
    return parts + [(part, stop)]


def check_dollars(marks: Sequence[Mark]) -> None:
    """Raises a fault if a dollar stands by itself."""
    for token, start, last in marks:
        if token == DOLLAR:
            raise Fault(92, start, last)


def path_of(word: Sequence[Mark], met: int) -> bytes:
    """Returns the path of a word."""
    check_dollars(word)
    path = bytes({COLON: 58, HASH: 35}.get(token, token) for token, _, _ in word)
    if len(path) > LONGEST_PATH:
        raise Fault(94, word[0][1], met)
    return canonical(path)


def paths_of_line(marks: Sequence[Mark], stop: int) -> List[bytes]:
    """Returns the paths of a line that ends at `stop`."""
    while marks and marks[0][0] == BLANK:
        marks = marks[1:]
    if not marks or marks[0][0] == HASH:
        return []
    if marks[0][0] == COLON:
        raise Fault(91, marks[0][1], marks[0][2])
    colons = [place for place, mark in enumerate(marks) if mark[0] == COLON]
    check_dollars(marks[:colons[0]] if colons else marks)
    if not colons:
        raise Fault(90, marks[0][1], stop)
    words = split(marks[colons[0] + 1:], BLANK, stop)
    return [path_of(word, met) for word, met in words if word]


def paths_of(text: bytes) -> List[bytes]:
    """Returns the paths of a depfile, each once."""
    paths: List[bytes] = []
    for line, stop in split(list(tokens(text)), NEWLINE, len(text)):
        paths += paths_of_line(line, stop)
    return list(dict.fromkeys(paths))


def read(text: bytes) -> Union[List[bytes], Tuple[int, int]]:
    """Returns the paths of a depfile, or the number and the offset of its fault."""
    try:
        paths = paths_of(text)
    except Fault as fault:
        if len(text) <= MOST or fault.met < MOST:
            return fault.number, fault.offset
        return 93, MOST
    return paths if len(text) <= MOST else (93, MOST)
