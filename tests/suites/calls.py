"""Makes calls of the lower crates in their own program, with refused memory and with damaged images.

The program (tests/calls) makes the calls of one part. Each allocation of a part is refused in turn. If a call answers
that it is out of memory, the program checks that what it was called on is as before, and makes the call once more. Each
run must print what it prints with ample memory, and name one call as refused; or no call, if a list that is refused
twice its room takes what it needs. Each call must be refused at least once. Two parts run an image by two lanes: they
may print the number of a fault of memory, or of a thread that couldn't start, and the journal of what was run so far
must replay. Each allocation counts as one check.

Then images are cut at each length, and each of their bits is turned. Each is refused by the number that the plain
reader and verifier in Python give, or runs to its end in three orders, from each of 13 replies on, in orderly steps and
within its budget. Each image counts as one check.

The suite builds the program without proofs, in a copy of the crates. It needs the kit, and a C compiler for the library
that refuses (lib/refusing.c).
"""
from __future__ import annotations

import collections
import concurrent.futures
import functools
import os
import pathlib
import re
import shutil
import subprocess
import sys
from collections.abc import Iterator, Sequence
from typing import Callable, Optional

from lib import chain, damaged_images, image_cases, programs, refusing, throwaway
from lib.refusing import Ended
from lib.suite import Case, LeftOut, Setting, check

ALONE = True  # each case uses all processors
NEEDS_PROGRAM = False
TESTS = pathlib.Path(__file__).resolve().parents[1]
UNPROVED = TESTS.parent / "tools" / "unproved.py"
# the calls of each part that take memory
PARTS = {
    "depfiles": ("Reader::feed", "Reader::finish", "Paths::copy", "Gather::feed", "Gather::finish", "Parsed::of",
                 "Parsed::copy", "Entry::new", "append", "load", "Record::entry", "Record::add",
                 "Record::compacted_bytes"),
    "images": ("compile", "compile_with", "collect_names", "layouts", "edge_code", "read_image", "split", "Body::new",
               "Edges::reserve", "Edges::push", "Edges::push_ref", "verify", "verify_by", "Words::of", "Words::new",
               "PathList::new", "PathList::empty", "PathList::of_shared_rows"),
    "machine": ("State::open", "State::apply", "State::follow", "State::loads", "Recorded::new", "Depfile::new",
                "Depfile::result", "Reply::copy_for_journal", "replay", "same_end"),
    "stamps": ("StampCache::new",),
    "tools": ("rules_of", "chosen_edges", "build_order", "files_of_commands", "RemovableFiles::push", "files_of_rules",
              "needed_paths", "files_of_paths", "dead_outputs", "default_paths", "root_paths", "write_target_tree",
              "write_rule_targets", "closest", "closest_path"),
}
# the parts that run lanes, and what they may print: the number of a fault, or 0
LANES = ("lanes", "shown")
NUMBERS = (b"0\n", b"111\n", b"120\n", b"121\n")
CRATES = ["plan_text", "plan_chunks", "plan_depfile", "plan_record", "plan_image", "plan_verify", "plan_schedule",
          "plan_machine", "plan_history", "plan_journal", "plan_status", "plan_progress", "plan_lanes", "plan_stamps",
          "plan_parse", "plan_scope", "plan_graph", "plan_compile", "plan_tools"]
OWN = 3  # the status if the program has no memory for what it passes
REPLIES, ORDERS = 13, 3  # of each image that is accepted
DAMAGED = ("verifier/end_alone", "verifier/pool_of_one")  # and the chain of lib/chain.py
SECONDS = 60
# What a run says: a word that is counted, or None if it ended as it must not.
Fits = Callable[[Ended], Optional[str]]


def ended(command: Sequence[str], library: pathlib.Path, refused: int) -> Ended:
    """Runs a program of which one allocation is refused."""
    env = {"LD_PRELOAD": str(library), "REFUSED_ALLOCATION": str(refused)}
    done = subprocess.run(command, stdin=subprocess.DEVNULL, capture_output=True, env=env, timeout=SECONDS)
    return done.returncode, done.stdout, done.stderr


def refuse(part: str, command: Sequence[str], library: pathlib.Path, allocations: int, fits: Fits,
           wanted: Sequence[str]) -> Iterator[str]:
    """Refuses each allocation of a part, several at once; yields the runs that end as they must not.

    Each word of `wanted` must be said of at least one run. Prints of how many runs each word was said.
    """
    numbers, said = range(1, allocations + 1), collections.Counter()
    with concurrent.futures.ThreadPoolExecutor(os.cpu_count()) as lanes:
        for refused, done in zip(numbers, lanes.map(lambda number: ended(command, library, number), numbers)):
            word = fits(done)
            said.update([] if word is None else [word])
            yield f"allocation {refused}: {done}" if word is None else ""
    for word, count in sorted(said.items()):
        print(f"{part}: {word}: {count} of {allocations}")
    yield from (f"never {word}" for word in wanted if not said[word])


def calls(part: str, program: str, library: pathlib.Path, folder: pathlib.Path) -> Iterator[str]:
    """Refuses each allocation of a part whose calls are made once more."""
    command = [program, part]
    whole, allocations = refusing.run(command, library, folder, 0)
    check(whole[0] == 0 and whole[2] == b"", f"with ample memory: {whole}")

    def fits(done: Ended) -> str | None:
        status, printed, errors = done
        call = re.sub(r"\n\Z", "", errors.decode())
        if status == OWN and call == "":
            return "the program's own"
        return (call or "done without") if (status, printed) == whole[:2] and call in ("", *PARTS[part]) else None

    return refuse(part, command, library, allocations, fits, PARTS[part])


def lanes(part: str, program: str, library: pathlib.Path, folder: pathlib.Path) -> Iterator[str]:
    """Refuses each allocation of a run by two lanes, whose number differs from run to run."""
    command = [program, part]
    wholes = [refusing.run(command, library, folder, 0) for _ in range(5)]
    check(all(whole == (0, b"0\n", b"") for whole, _ in wholes), f"with ample memory: {wholes}")

    def fits(done: Ended) -> str | None:
        status, printed, errors = done
        if status == OWN and errors == b"":
            return "the program's own"
        return f"ended by {printed.decode().strip()}" if status == 0 and printed in NUMBERS and not errors else None

    allocations = max(count for _, count in wholes)
    return refuse(part, command, library, allocations, fits, ("ended by 0", "ended by 111", "ended by 120"))


def images(program: str, home: pathlib.Path) -> Iterator[image_cases.Case]:
    """Yields the images that are damaged, in both versions."""
    yield from damaged_images.named(DAMAGED)
    (home / "build.ninja").write_text(chain.MANIFEST)
    done = programs.run([program, "compiled", "build.ninja"], home)
    check(done.returncode == 0, done.stderr.decode())
    yield from damaged_images.chains(done.stdout)


def hostile(program: str, case: image_cases.Case, folder: pathlib.Path) -> list[str]:
    """Damages an image in each way, and compares by which numbers it is refused; the others run to their ends."""
    (folder / "plan.img").write_bytes(case.data)
    done = programs.run([program, "hostile", "plan.img"], folder, SECONDS)
    lines = done.stdout.decode().splitlines()
    answers = [damaged_images.answer(one.data) for one in (case, *damaged_images.changed(case))]
    refused = collections.Counter(int(answer.split()[0]) for answer in answers if not answer.startswith("ok "))
    accepted = len(answers) - sum(refused.values())
    wanted = [f"refused {number} {count}" for number, count in sorted(refused.items())]
    fits = done.returncode == 0 and lines[1:] == wanted and lines[0].startswith(f"runs {accepted * REPLIES * ORDERS} ")
    print(f"{case.name}: {accepted} of {len(answers)} accepted, {lines[0] if lines else 'no runs'}", flush=True)
    said = f"{done.returncode}, {done.stderr!r}, {lines[1:]}, wanted {wanted}"
    return [""] * len(answers) if fits else [said]


def built(home: pathlib.Path) -> str:
    """Builds the program without proofs."""
    tree, program = home / "tree", home / "program"
    tree.mkdir()
    sources = {path.name[:-len(".txt")]: path for path in (TESTS / "calls").glob("*.rt.txt")}
    crate = throwaway.laid(tree, sources, CRATES)
    words = [sys.executable, str(UNPROVED), "--crate", str(crate), str(program)]
    subprocess.run(words, check=True, stdin=subprocess.DEVNULL)
    return str(program)


def cases(setting: Setting) -> Iterator[Case]:
    """Yields the parts, and the images."""
    for tool in ("rt", "cc"):
        if shutil.which(tool) is None:
            raise LeftOut(f"no {tool}")
    library = programs.library("refusing.c", setting.home)
    if library is None:
        raise LeftOut("no C compiler")
    program = built(setting.home)
    for part in PARTS:
        yield Case(part, functools.partial(calls, part, program, library))
    for part in LANES:
        yield Case(part, functools.partial(lanes, part, program, library))
    for case in images(program, setting.home):
        yield Case(case.name, functools.partial(hostile, program, case))
