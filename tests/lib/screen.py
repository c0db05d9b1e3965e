"""A small terminal, which shows the text of a build."""
from __future__ import annotations

import re

from lib.place import expect
from lib.suite import check


class Screen:
    """A terminal that knows what the text of a build uses. Its lines have no colours."""

    CODES = re.compile(rb"\r|\n|\x1b\[K|\x1b\[\?7[lh]|\x1b\[[0-9;]*m|[^\r\n\x1b]+")

    def __init__(self, shown: bytes, width: int = 80) -> None:
        self.rows, self.row, self.column, self.wraps, self.width = [b""], 0, 0, True, width
        at = 0
        for code in self.CODES.finditer(shown):
            check(code.start() == at, f"the terminal doesn't know {shown[at:at + 20]!r}")
            at = code.end()
            self.take(code[0])
        check(at == len(shown), f"the terminal doesn't know {shown[at:at + 20]!r}")
        expect("wraps in the end", True, self.wraps)

    def take(self, code: bytes) -> None:
        """Shows some bytes."""
        if code == b"\r":
            self.column = 0
        elif code == b"\n":
            self.row += 1
            self.rows += [b""] * (self.row == len(self.rows))
        elif code == b"\x1b[K":
            self.rows[self.row] = self.rows[self.row][:self.column]
        elif code.startswith(b"\x1b") and code.endswith(b"m"):
            pass
        elif code.startswith(b"\x1b"):
            self.wraps = code.endswith(b"h")
        else:
            for byte in code:
                self.put(byte)

    def put(self, byte: int) -> None:
        """Shows a byte where the cursor is. Without wrapping the last column is written over."""
        if self.column == self.width:
            if self.wraps:
                self.take(b"\r")
                self.take(b"\n")
            else:
                self.column -= 1
        row = self.rows[self.row].ljust(self.column)
        self.rows[self.row] = row[:self.column] + bytes([byte]) + row[self.column + 1:]
        self.column += 1
