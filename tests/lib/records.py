"""Reads build records, as docs/rules/record.md describes them."""
from __future__ import annotations

import struct
from collections.abc import Iterator
from typing import NamedTuple, Tuple


class Entry(NamedTuple):
    """An entry of a record: an output, and the paths of its depfile."""

    output: bytes
    paths: list[bytes]


class Broken(Exception):
    """The record ends within an entry, or an entry has another form."""


def field(record: bytes, at: int, length: str) -> Tuple[bytes, int]:
    """Returns the bytes that follow their length, and the offset of their end."""
    count = struct.unpack_from(length, record, at)[0]
    begin = at + struct.calcsize(length)
    return record[begin:begin + count], begin + count


def entry(record: bytes, at: int) -> Tuple[Entry, int]:
    """Returns the entry at an offset, and the offset of its end."""
    end = at + 4 + struct.unpack_from(">I", record, at)[0]
    output, at = field(record, at + 4, ">H")
    _, at = field(record, at, ">I")
    count = struct.unpack_from(">I", record, at + 8)[0]
    at, paths = at + 12, []
    for _ in range(count):
        path, at = field(record, at, ">H")
        paths.append(path)
    if at != end or end > len(record):
        raise Broken(f"the entry that ends at byte {end} has another form")
    return Entry(output, paths), end


def spelled(output: bytes, command: bytes = b"t", basis: int = 7) -> bytes:
    """Returns the bytes of an entry without paths."""
    parts = [struct.pack(">H", len(output)), output, struct.pack(">I", len(command)), command]
    body = b"".join([*parts, struct.pack(">QI", basis, 0)])
    return struct.pack(">I", len(body)) + body


def entries(record: bytes) -> Iterator[Entry]:
    """Yields the entries of a whole record, in order."""
    at = 0
    while at < len(record):
        try:
            found, at = entry(record, at)
        except struct.error:
            raise Broken("the record ends within an entry") from None
        yield found
