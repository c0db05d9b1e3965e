#!/usr/bin/env python3
"""Times `plan_ninja verify` on images whose one edge has many slots and many jumps: wall time and peak memory of each.

Each image comes in sizes that double, so that the figures tell how they grow. It is no test and asserts nothing.
"""
from __future__ import annotations

import pathlib
import tempfile

from timing import LIMIT, measured, programs

from lib.hostile_codes import SHAPES
from lib.image import spelled

SIZES = [2_000, 4_000, 8_000, 16_000, 32_000]  # slots


def main() -> None:
    asked = programs.arguments(__doc__).parse_args()
    for shape in SHAPES:
        for size in SIZES:
            with tempfile.TemporaryDirectory() as home:
                folder = pathlib.Path(home)
                data = spelled(shape(size))
                (folder / "image").write_bytes(data)
                run = measured([asked.program, "verify", "image"], folder)
            ended = f"over {LIMIT} s" if run.is_over else f"{run.seconds:6.2f} s, status {run.status}"
            shown = f"{shape.__name__:14} {size:6} slots {len(data):7} bytes"
            print(f"{shown}  {ended}  {run.mebibytes:7.1f} MiB", flush=True)


if __name__ == "__main__":
    main()
