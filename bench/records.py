#!/usr/bin/env python3
"""Times plan_record's `load` on a record of 70 MB with 1.85 million paths.

100,000 entries, each with a command and 18 or 19 paths of a shared tree. A program over the crate is proved and built
first, in a folder of its own; it reads the file, and tells how long `load` took. Printed are the median of seven runs,
and the peak memory of the whole program and its ratio to the file. It is no test and asserts nothing.
"""
from __future__ import annotations

import pathlib
import statistics
import struct
import subprocess
import tempfile
from collections.abc import Iterator

from timing import measured

from lib.throwaway import built

HERE = pathlib.Path(__file__).resolve().parent
ENTRIES = 100_000
PATHS = 1_850_000
HEADERS = 20_000
RUNS = 7
WHOLE = 70_000_000


def text(size: str, bytes_of: bytes) -> bytes:
    return struct.pack(size, len(bytes_of)) + bytes_of


def entry(number: int, count: int) -> bytes:
    """The spelling of an entry, as docs/rules/record.md tells."""
    source = b"module%d/file%d" % (number // 50, number)
    command = b"cc -O2 -Wall -Iinclude -MMD -MF obj/%b.o.d -c src/%b.c -o obj/%b.o" % (source, source, source)
    body = text(">H", b"obj/%b.o" % source) + text(">I", command) + struct.pack(">QI", number, count)
    headers = ((number * 7 + 31 * k) % HEADERS for k in range(count))
    paths = (text(">H", b"include/part%d/header%d.h" % (header % 100, header)) for header in headers)
    return text(">I", body + b"".join(paths))


def spelled() -> Iterator[bytes]:
    for number in range(ENTRIES):
        yield entry(number, PATHS * (number + 1) // ENTRIES - PATHS * number // ENTRIES)


def main() -> None:
    with tempfile.TemporaryDirectory() as name:
        folder = pathlib.Path(name)
        (folder / "program").mkdir()
        program = built(folder / "program", HERE / "read_record.rt.txt", ["plan_text", "plan_chunks", "plan_record"])
        record = b"".join(spelled())
        (folder / "record").write_bytes(record)
        said = [subprocess.check_output([program], cwd=folder, text=True) for _ in range(RUNS)]
        micros = statistics.median(int(line.split()[2]) for line in said)
        peak = measured([str(program)], folder).mebibytes
        print(f"{len(record)} bytes, {said[0].split(',')[0]}: load {micros / 1e6:.3f} s, "
              f"peak {peak:.1f} MiB, {peak * 2**20 / len(record):.3f} of the file")


if __name__ == "__main__":
    main()
