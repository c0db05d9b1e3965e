#!/usr/bin/env python3
"""Times `plan_ninja commands` on manifests that ask for much with few bytes: wall time and peak memory of each.

What takes longer than a minute is stopped and told as such. It is no test and asserts nothing.
"""
from __future__ import annotations

import pathlib
import tempfile

from timing import LIMIT, measured, programs

from lib.hostile_shapes import SHAPES


def main() -> None:
    parser = programs.arguments(__doc__)
    parser.add_argument("words", metavar="WORD", nargs="*", help="shapes whose names begin so")
    asked = parser.parse_args()
    for shape in SHAPES:
        name = shape.__name__
        if asked.words and not name.startswith(tuple(asked.words)):
            continue
        with tempfile.TemporaryDirectory() as home:
            folder = pathlib.Path(home)
            programs.write(shape(), folder)
            run = measured([asked.program, "commands", "build.ninja"], folder)
        ended = f"over {LIMIT} s" if run.is_over else f"{run.seconds:6.2f} s"
        print(f"{name:16} {ended}  {run.mebibytes:7.1f} MiB  {shape.__doc__}", flush=True)


if __name__ == "__main__":
    main()
