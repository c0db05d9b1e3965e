#!/usr/bin/env python3
"""Times the events of a run that finds nothing to do: so many objects, each of a source and 21 headers on record.

The tree is that of builds.py, built once. Printed are how many events such a run has (the lines of its trace), wall
time, processor's time and peak memory of `run` at -j 1 and at -j 4, without a trace, and of `replay` of the trace, all
the least of five; and the processor's time for one event: of `run` all of it; of `replay` less that of a replay which
reads the same trace and is refused at its first event. `beside` is the peak less the image and the report (of an event
of `run` 5 bytes and of a stamp 8 more, of an event of `replay` 24 in its list and 16 of its mark), and of `replay` less
the text of the trace too, which it holds while it reads. The word is the number of objects. It is no test and asserts
nothing.
"""
from __future__ import annotations

import os
import pathlib
import shutil
import tempfile

from builds import written
from timing import Run, measured, programs

ROUNDS = 5
WHOLE = 1_800  # seconds
MEBIBYTE = 1 << 20


def least(words: list[str], folder: pathlib.Path) -> Run:
    """The least of each, of several runs: other work on the machine only adds."""
    runs = [measured(words, folder, WHOLE) for _ in range(ROUNDS)]
    return Run(min(run.seconds for run in runs), min(run.mebibytes for run in runs), max(run.status for run in runs),
               min(run.processor for run in runs))


def counted(trace: pathlib.Path) -> tuple[int, int]:
    """How many events a trace has, and how many of them bring a stamp."""
    events = stamps = 0
    with trace.open("rb") as lines:
        for line in lines:
            words = line.split(b" ", 3)
            events += words[0] in (b"start", b"step", b"skip", b"stop", b"reply")
            stamps += words[0] == b"reply" and words[2] == b"stamp"
    return events, stamps


def refused(trace: pathlib.Path, other: pathlib.Path) -> None:
    """The same trace, with an event in front that no image enables: all of it is read before that is seen."""
    with trace.open("rb") as lines, other.open("wb") as copy:
        copy.write(lines.readline())
        line = lines.readline()
        while line.startswith(b"target"):
            copy.write(line)
            line = lines.readline()
        copy.write(b"start 4294967295\n" + line)
        shutil.copyfileobj(lines, copy)


def show(what: str, run: Run, events: int, other: float, beside: float) -> None:
    left = (run.processor - other) / events * 1e9
    print(f"{what:12} {run.seconds:8.3f} s, {run.processor:8.3f} s of a processor, {left:6.0f} ns an event; "
          f"{run.mebibytes:8.1f} MiB, {beside:6.1f} beside"
          f"{'' if run.status == 0 else f'  status {run.status}'}", flush=True)


def main() -> None:
    parser = programs.arguments(__doc__)
    parser.add_argument("count", metavar="COUNT", nargs="?", type=int, default=100_000)
    asked = parser.parse_args()
    with tempfile.TemporaryDirectory() as name:
        folder = pathlib.Path(name)
        written(asked.count, folder)
        program = asked.program
        measured([program, "compile", "build.ninja", "-o", "plan.img"], folder, WHOLE)
        first = measured([program, "run", "plan.img", "-j", "4"], folder, WHOLE)
        print(f"{asked.count} objects, built in {first.seconds:.1f} s; status {first.status}", flush=True)
        run = [program, "run", "plan.img", "-j"]
        measured([*run, "1", "--trace", "trace"], folder, WHOLE)
        events, stamps = counted(folder / "trace")
        refused(folder / "trace", folder / "refused")
        report, replayed_report = (5 * events + 8 * stamps) / MEBIBYTE, 40 * events / MEBIBYTE
        image = os.path.getsize(folder / "plan.img") / MEBIBYTE
        trace = os.path.getsize(folder / "trace") / MEBIBYTE
        print(f"{events} events, {stamps} of them stamps; image {image:.1f} MiB, trace {trace:.1f}, "
              f"report {report:.1f}, of replay {replayed_report:.1f}")
        for lanes in ("1", "4"):
            ran = least([*run, lanes], folder)
            show(f"run -j {lanes}", ran, events, 0.0, ran.mebibytes - report - image)
        read = least([program, "replay", "plan.img", "refused"], folder)
        replayed = least([program, "replay", "plan.img", "trace"], folder)
        print(f"{'trace read':12} {read.seconds:8.3f} s, {read.processor:8.3f} s of a processor; "
              f"{read.mebibytes:8.1f} MiB")
        beside = replayed.mebibytes - replayed_report - image - trace
        show("replay", replayed, events, read.processor, beside)


if __name__ == "__main__":
    main()
