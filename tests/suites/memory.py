"""Runs the program on small trees of manifests, and on images, once for each of its allocations, and refuses that one.

Each run must end in a fault of memory (status 2, as `plan: 22 Memory`, and nothing on standard output except for the
first of a run's lines), or print all that it prints with ample memory. The numbers must come in the order in which the
program calls what answers them: 22 of reading statements, 41 of evaluating, 54 of the graph, 101 of the compiler, 66 of
reading an image, 86 of the verifier, 111 of the machine, and 131 of the program itself before and after.
The suite needs a C compiler, for the library that refuses (lib/refusing.c). Each allocation counts as one check.
"""
from __future__ import annotations

import functools
import pathlib
from collections.abc import Iterator
from typing import NamedTuple

from lib import damaged_images, hostile_codes, image_cases, programs, refusing
from lib.image import spelled
from lib.refusing import Ended
from lib.suite import Case, LeftOut, Setting, check

# every statement, list of paths and sort of variable
TREE = {
    "build.ninja": r"""x = 1
pool p
  depth = $x
rule e
  command = echo $x $in $in_newline $description
  description = ($out)
  depfile = $out.d
  deps = gcc
  restat = 1
  generator = $none
  rspfile_content = $in
  pool = p
include ./${none}included.ninja
subninja child.ninja
build ./a$ b | c: e d//e ../f | g || h
  x = it's
build all: phony a$ b | c || child
default all ./child
""",
    "included.ninja": r"""y = $x$x
rule i
  command = cat $in > $out
build h: i d/../e
""",
    "child.ninja": r"""x = 2
rule i
  command = echo $x $y
build child: i
  pool = q
subninja grandchild.ninja
""",
    "grandchild.ninja": r"""x = $x$y
pool q
  depth = 0
build grandchild: i
build | i: e
default grandchild
""",
}

RULE = """rule r
  command = $out
"""

# every list of paths, edges that wait for several others, more than once for one, and for none
GRAPH = RULE + """build a b | c: r d e e | f d || g
build d: r e | g || f
build e | f g: phony h e
build h: r source
default c d
default a
"""

# the files of each tree, and what is said of it
TREES = [
    (TREE, b""),
    ({"build.ninja": GRAPH}, b""),
    ({"build.ninja": RULE + "build a: r\nbuild b | a: r\n"}, b"plan: 50 TwoProducers a\n"),
    ({"build.ninja": RULE + "build s: r a\nbuild a b: r c\nbuild c: r | d\nbuild d: r || b\n"},
     b"plan: 51 Cycle a -> c -> d\n"),
    ({"build.ninja": RULE + "build a: r\ndefault a b\n"}, b"plan: 52 UnknownDefault b\n"),
]
REFUSALS = {f"plan: {number} Memory\n".encode() for number in (22, 41, 54, 66, 86, 101, 111, 131)}

# with slots of each kind, texts, a pool, jumps and waits; and one that is refused
TREE_SLOTS = 70  # more than stand in one list
IMAGES = ("verifier/pool_and_a_phony", "verifier/slots_set_in_another_order", "verifier/loads_of_own_and_waited_for",
          "verifier/values_of_each_kind", "verifier/second_wait_of_equal_rank")


# an image whose edges ask for a record, a command, a depfile and a stamp, and a run of it
REPLAYED = """text cc a
text a.d
file a
file b
file c
edge command outputs 0
  Recall
  4 Drop
  Take
  Text 0
  Run
  Release
  Text 1
  Deps
  Drop
  End
edge command rank 1 outputs 1 waits 0
  Stat 2
  Drop
  End
edge phony outputs 2
  End
default 0 1
"""
TRACE = b"plan-trace 1 j 4 k 0\ntarget 1\nstart 0\nstep 0\nreply 0 entry 7 63632061 622e68 632e68\n" + (
    b"step 0\n" * 7 + b"reply 0 exit 0\n" + b"step 0\n" * 3 + b"reply 0 bytes 613a2062\nstep 0\nstep 0\n"
    b"start 1\nstep 1\nreply 1 stamp 5\nstep 1\nstep 1\n")


REFUSED_MANIFEST = "131 22 41 54 131"
CALLS = {"commands": "131 22 41 54 131", "compile": "131 22 41 54 101", "verify": "131 66 86 131",
         "dump": "131 66 131", "replay": "131 66 86 131 111 131"}
BAD_TRACE = "131 66 86 131"


class Trial(NamedTuple):
    """A command line, its files, standard error with ample memory, and the numbers of refusals in their order."""

    words: list[str]
    files: dict[str, bytes]
    said: bytes
    calls: str


def trials() -> Iterator[Trial]:
    """Yields trials of all commands but `run`."""
    yield from trials_of_manifests()
    yield from trials_of_images()
    replayed = {"plan.img": spelled(image_cases.image_of(REPLAYED.splitlines())), "run.trace": TRACE}
    yield from trials_of_traces(replayed)
    yield from trials_of_two_traces(replayed)


def trials_of_traces(replayed: dict[str, bytes]) -> Iterator[Trial]:
    """Yields a run that is replayed, and two traces that are refused."""
    yield Trial(["replay", "plan.img", "run.trace"], replayed, b"", CALLS["replay"])
    for line, said, calls in ((b"step 1", b"110 NotEnabled at event 22", CALLS["replay"]),
                              (b"step", b"130 BadTrace at line 25", BAD_TRACE)):
        files = {**replayed, "run.trace": TRACE + line + b"\n"}
        yield Trial(["replay", "plan.img", "run.trace"], files, b"plan: " + said + b"\n", calls)


def trials_of_two_traces(replayed: dict[str, bytes]) -> Iterator[Trial]:
    """Yields runs that are compared."""
    whole = TRACE.replace(b"target 1\n", b"")
    for other, said, calls in ((whole, b"", CALLS["replay"]),
                               (whole + b"step 1\n", b"plan: 110 NotEnabled at event 44\n", CALLS["replay"]),
                               (TRACE, b"plan: 134 TracesDiffer\n", BAD_TRACE)):
        files = {**replayed, "run.trace": whole, "other.trace": other}
        yield Trial(["replay", "plan.img", "run.trace", "other.trace"], files, said, calls)


def trials_of_manifests() -> Iterator[Trial]:
    """Yields the trees, for both commands that read manifests."""
    for files, said in TREES:
        texts = {name: text.encode() for name, text in files.items()}
        yield Trial(["commands", "build.ninja"], texts, said, CALLS["commands"])
        calls = REFUSED_MANIFEST if said else CALLS["compile"]
        yield Trial(["compile", "build.ninja", "-o", "/dev/stdout"], texts, said, calls)


def trials_of_images() -> Iterator[Trial]:
    """Yields the images in both versions, for two commands that read images, and one whose sets of slots are trees."""
    grown = spelled(hostile_codes.growing_sets(TREE_SLOTS))
    yield Trial(["verify", "plan.img"], {"plan.img": grown}, b"", CALLS["verify"])
    for case in damaged_images.named(IMAGES):
        said = b"" if case.answer.startswith("ok ") else f"plan: {case.answer}\n".encode()
        yield Trial(["verify", "plan.img"], {"plan.img": case.data}, said, CALLS["verify"])
        yield Trial(["dump", "plan.img"], {"plan.img": case.data}, b"", CALLS["dump"])


def is_out_of_memory(trial: Trial, done: Ended, whole: Ended) -> bool:
    """Checks whether a run ended in a fault of memory. `replay` makes its lines one by one, and may print the first."""
    status, output, errors = done
    is_front = output == b"" or (trial.words[0] == "replay" and whole[1].startswith(output))
    return status == 2 and is_front and errors in REFUSALS


def faults(program: str, library: pathlib.Path, trial: Trial, folder: pathlib.Path) -> Iterator[str]:
    """Yields for each allocation whether its refusal ends differently, and whether the order of numbers differs."""
    programs.write(trial.files, folder)
    command = [program, *trial.words]
    whole, allocations = refusing.run(command, library, folder, 0)
    is_whole = allocations > 0 and whole[0] == (2 if trial.said else 0) and whole[2] == trial.said
    check(is_whole, f"with ample memory: {whole}, {allocations} allocations")
    numbers: list[bytes] = []
    for refused in range(1, allocations + 1):
        done, _ = refusing.run(command, library, folder, refused)
        is_refused = done != whole and is_out_of_memory(trial, done, whole)
        if is_refused and numbers[-1:] != done[2].split()[1:2]:
            numbers += done[2].split()[1:2]
        yield "" if is_refused or done == whole else f"allocation {refused}: {done}"
    calls = b" ".join(numbers).decode()
    if calls != trial.calls:
        yield f"{calls}, not {trial.calls}"


def cases(setting: Setting) -> Iterator[Case]:
    """Yields the trials."""
    library = programs.library("refusing.c", setting.home)
    if library is None:
        raise LeftOut("no C compiler")
    for number, trial in enumerate(trials()):
        name = f"{' '.join(trial.words)}, trial {number}"
        yield Case(name, functools.partial(faults, setting.program, library, trial))
