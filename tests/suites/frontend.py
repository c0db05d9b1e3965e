"""Uses plan_build as CMake, Meson and people use ninja: its words, what it says, its exit statuses, signals, terminals.

If ninja is installed, it gets the same words on the same files. Its status and sentences must be those of the table.
"""
from __future__ import annotations

import contextlib
import ctypes
import functools
import os
import pathlib
import shlex
import shutil
import signal
import stat
import subprocess
import time
from collections.abc import Callable, Iterator
from typing import NamedTuple

from lib import programs
from lib.place import CAUGHT, GATED, SLEEPING, Place, Terminal, expect, group_of
from lib.suite import PATIENCE, Case, LeftOut, Setting, until

ALONE = True
NO_WORK = "ninja: no work to do.\n"
STOPPED = "ninja: build stopped: subcommand failed.\n"
WAITING = "plan_ninja: waiting for another build that uses .plan_record (process {})\n"
DROP_A_CAPABILITY, OVERRIDE, READ_AND_SEARCH = 24, 1, 2  # of prctl(2) and capabilities(7)

# ---- words

MANIFEST = """rule cp
  command = cp $in $out
rule no
  command = false
build a: cp src
build b: cp src
build bad: no src
default a b
"""
FILES = {"build.ninja": MANIFEST, "src": "x\n", "a": "x\n", "b": "x\n"}


class Said(NamedTuple):
    """What is wanted of a command line: its status, standard output and standard error.

    An error that ends with USAGE is followed by the options, of which only the first line is compared.
    """

    status: int
    printed: str = ""
    error: str = ""


USAGE = "usage: ninja [options] [targets...]\n"
NO_JOBS = Said(1, "", "ninja: fatal: invalid -j parameter\n")
NO_LIMIT = Said(1, "", "ninja: fatal: -k parameter not numeric; did you mean -k 0?\n")
NO_LOAD = Said(1, "", "ninja: fatal: -l parameter not numeric: did you mean -l 0.0?\n")
DONE = Said(0, NO_WORK)
MODES = """debugging modes:
  stats        print operation counts/timing info
  explain      explain what caused a command to execute
  keepdepfile  don't delete depfiles after they're read by ninja
  keeprsp      don't delete @response files on success
multiple modes can be enabled via -d FOO -d BAR
"""
WARNINGS = "warning flags:\n  phonycycle={err,warn}  phony build statement references itself\n"
TOOLS = "there are clean, commands, targets, compdb, recompact, restat, cleandead and explain"
POSSIBLE = "possibilities: '--version' '--verbose'\n"


def misused(said: str) -> Said:
    """Returns what is wanted of words that aren't understood; NINJA stands for the builder's own name."""
    return Said(1, "", f"NINJA: {said}\n{USAGE}")


def refused(said: str) -> Said:
    return Said(1, "", f"ninja: {said}\n")


# What ninja 1.11 answers, and plan_build too.
SAME = {
    "": DONE,
    "a b": DONE,
    "./a": DONE,
    "-v": DONE,
    "--quiet": DONE,
    "--verb": DONE,
    "--q": DONE,
    "a -j3 b": DONE,
    "-vj3 -k2": DONE,
    "-vj 3": DONE,
    "-n": DONE,
    "-nv a": DONE,
    "src": DONE,
    "a src ./src": DONE,
    "src^": DONE,
    "src^ b": DONE,
    "a^": refused("error: 'a' has no out edge"),
    "srx": refused("error: unknown target 'srx', did you mean 'src'?"),
    "src nosuch": refused("error: unknown target 'nosuch'"),
    "clean": refused("error: unknown target 'clean', did you mean 'ninja -t clean'?"),
    "-k -5": DONE,
    "-k ''": DONE,
    "-f nosuch -f build.ninja": DONE,
    "-fbuild.ninja": DONE,
    "-C .": Said(0, "ninja: Entering directory `.'\n" + NO_WORK),
    "-C. a": Said(0, "ninja: Entering directory `.'\n" + NO_WORK),
    "a -C nosuch -C .": Said(0, "ninja: Entering directory `.'\n" + NO_WORK),
    "--quiet -C .": DONE,
    "-j -1": NO_JOBS,
    "-j x": NO_JOBS,
    "-jx": NO_JOBS,
    "-j 3x": NO_JOBS,
    "-j -": NO_JOBS,
    "-j 0x10": NO_JOBS,
    "-k x": NO_LIMIT,
    "-k 1.5": NO_LIMIT,
    "-l x": NO_LOAD,
    "-l ''": NO_LOAD,
    "-l .": NO_LOAD,
    "-d nosuch": refused("error: unknown debug setting 'nosuch'"),
    "-w nosuch": refused("error: unknown warning flag 'nosuch'"),
    "-d list": Said(1, MODES),
    "-dlist a": Said(1, MODES),
    "-w list": Said(1, WARNINGS),
    "-t claen": refused("fatal: unknown tool 'claen', did you mean 'clean'?"),
    "-d keepdepfile": DONE,
    "-w dupbuild=err": DONE,
    "-x": misused("invalid option -- 'x'"),
    "-vx3": misused("invalid option -- 'x'"),
    "a -J": misused("invalid option -- 'J'"),
    "--nosuch": misused("unrecognized option '--nosuch'"),
    "--nosuch=1 -x": misused("unrecognized option '--nosuch=1'"),
    "--versions": misused("unrecognized option '--versions'"),
    "---": misused("unrecognized option '---'"),
    "--ver": misused(f"option '--ver' is ambiguous; {POSSIBLE}".rstrip()),
    "--v=1": misused(f"option '--v=1' is ambiguous; {POSSIBLE}".rstrip()),
    "--quiet=1": misused("option '--quiet' doesn't allow an argument"),
    "--verb=": misused("option '--verbose' doesn't allow an argument"),
    "-j": misused("option requires an argument -- 'j'"),
    "a -vC": misused("option requires an argument -- 'C'"),
    "-t": misused("option requires an argument -- 't'"),
    "-h": Said(1, "", USAGE),
    "a --he": Said(1, "", USAGE),
    "-j x --version": NO_JOBS,
    "-- -nosuch": refused("error: unknown target '-nosuch'"),
    "nosuch a": refused("error: unknown target 'nosuch'"),
    "''": refused("error: empty path"),
    "-f nosuch.ninja": refused("error: loading 'nosuch.ninja': No such file or directory"),
    "-f ''": refused("error: loading '': No such file or directory"),
    "-f src/x": refused("error: loading 'src/x': Not a directory"),
    "-f .": refused("error: loading '.': Is a directory"),
    "-C nosuch": Said(1, "ninja: Entering directory `nosuch'\n",
                      "ninja: fatal: chdir to 'nosuch' - No such file or directory\n"),
    "-C src": Said(1, "ninja: Entering directory `src'\n", "ninja: fatal: chdir to 'src' - Not a directory\n"),
}
# The value of `-j` in words to which ninja answers nothing more, whereas plan_build warns of it.
TOO_MANY_JOBS = {"-j ' +3' -j0": "0", "-j -0": "-0", "-j ''": "", "-j1025": "1025", "-j 99999999999": "99999999999"}
MANY_JOBS = "ninja: warning: -j {}: no more than 1024 commands run at once\n"
# What only plan_build answers.
OWN = {
    "--version": Said(0, "1.9.0\n"),
    "--vers nosuch": Said(0, "1.9.0\n"),
    "--version -j x": Said(0, "1.9.0\n"),
    "-j 1024": DONE,
    "-j0 -j 4": DONE,
    **{words: Said(0, NO_WORK, MANY_JOBS.format(value)) for words, value in TOO_MANY_JOBS.items()},
    "-l .5": Said(0, NO_WORK, "ninja: warning: -l .5 has no effect\n"),
    "-d stats": Said(0, NO_WORK, "ninja: warning: -d stats has no effect\n"),
    "-w dupbuild=warn": Said(0, NO_WORK, "ninja: warning: -w dupbuild=warn has no effect\n"),
    "-t query": refused(f"fatal: unknown tool 'query'; {TOOLS}"),
    "-t nosuch -C nosuch": refused(f"fatal: unknown tool 'nosuch'; {TOOLS}"),
    "a -t list": refused("fatal: 'a' comes before -t; it is no word of the tool"),
    "bad": Said(1, "[1/1] false\nFAILED: [code=1] bad \nfalse\n" + STOPPED),
}


def said_by(builder: str, words: str, folder: pathlib.Path) -> Said:
    """Runs a builder, and returns what it said. Its own name and the options are replaced."""
    done = programs.run([builder, *shlex.split(words)], folder)
    error = done.stderr.decode().replace(f"{builder}: ", "NINJA: ")
    before, usage, _ = error.partition(USAGE)
    return Said(done.returncode, done.stdout.decode(), before + usage)


def words_say(builder: str, words: str, wanted: Said, folder: pathlib.Path) -> str:
    """Returns how the answer to a command line differs, or an empty text."""
    programs.write(FILES, folder)
    programs.run([builder], folder)
    found = said_by(builder, words, folder)
    return "" if found == wanted else f"{found}, wanted {wanted}"


def ninja_1_11(folder: pathlib.Path) -> str:
    """Returns the path of ninja 1.11; raises LeftOut if it isn't there."""
    ninja = shutil.which("ninja")
    if not ninja:
        raise LeftOut("ninja is missing")
    if programs.run([ninja, "--version"], folder).stdout[:5] != b"1.11.":
        raise LeftOut("ninja isn't version 1.11")
    return ninja


def ninja_says(words: str, wanted: Said, folder: pathlib.Path) -> str:
    """Returns how ninja's answer to a command line differs from the table, or an empty text."""
    return words_say(ninja_1_11(folder), words, wanted, folder)


# ---- builds

def called_ninja(place: Place) -> None:
    """Called by the name ninja it is the same program."""
    place.write("a touch $out")
    link = place.folder / "ninja"
    link.symlink_to(place.builder)
    done = programs.run([str(link), "-x"], place.folder)
    expect("said", f"{link}: invalid option -- 'x'\n".encode(), done.stderr.partition(USAGE.encode())[0])
    expect("built", (b"[1/1] a\n", 0), (lambda d: (d.stdout, d.returncode))(programs.run([str(link)], place.folder)))


def about(place: Place) -> None:
    done = place.done("--about")
    expect("status", 0, done.returncode)
    expect("said", True, b"GUARANTEE.md" in done.stdout)


def says(place: Place, *words: str) -> tuple[str, str, int]:
    """Runs the builder, and returns what it printed, its errors, and its status."""
    done = place.done(*words)
    return done.stdout.decode(), done.stderr.decode(), done.returncode


def nothing_to_do(place: Place) -> None:
    place.write("a touch $out", ">b touch $out")
    expect("first", ("[1/2] a\n[2/2] b\n", "", 0), says(place))
    expect("then", (NO_WORK, "", 0), says(place))
    (place.folder / "b").unlink()
    expect("again", ("[1/1] b\n", "", 0), says(place))


def names_in(printed: str) -> list[str]:
    """Returns the labels of lines, sorted."""
    return sorted(line.partition("] ")[2] for line in printed.splitlines())


def labels(place: Place, *words: str) -> list[str]:
    """Runs the builder, which must end well, and returns the labels of its lines, sorted."""
    printed, error, status = says(place, *words)
    expect("status and errors", (0, ""), (status, error))
    return names_in(printed)


def dry_runs(place: Place) -> None:
    """-n prints the lines of what would run, and runs nothing."""
    place.write("a touch $out", ">b touch $out", "c touch $out; exit 1")
    expect("first", ["a", "b", "c"], labels(place, "-n"))
    expect("made", False, place.has("a") or place.has("b") or place.has("c"))
    expect("built", 0, place.done("b").returncode)
    expect("then", ["c"], labels(place, "-n"))
    expect("of targets", (NO_WORK, "", 0), says(place, "-n", "b"))


def dry_run_of_the_manifest(place: Place) -> None:
    """`meson test` asks for this, and looks for `no work to do`."""
    text = MAKER.format(command="touch build.ninja", inputs="in", target="late")
    programs.write({"build.ninja": text}, place.folder)
    os.utime(place.folder / "build.ninja", (1, 1))
    programs.write({"in": ""}, place.folder)
    expect("to be made", ("[1/1] touch build.ninja\n", "", 0), says(place, "-n"))
    expect("made", 0, place.done("build.ninja").returncode)
    expect("is made", (NO_WORK, "", 0), says(place, "-n", "build.ninja"))
    expect("built", False, place.has("late"))


RESTAT = """rule copy
  command = cp $in $out
  description = $out
rule keep
  command = cmp -s $in $out || cp $in $out
  description = $out
  restat = 1
build a: keep in
build b: keep in
build c: copy a
build d: copy other
build e: copy d
default b c e
"""
NOTE_ON_ONE = "ninja: note: 1 of these commands has restat: if it changes its outputs, more commands may run\n"
NOTE_ON_TWO = "ninja: note: 2 of these commands have restat: if they change their outputs, more commands may run\n"


def dry_run_of_restat_commands(place: Place) -> None:
    """-n says that more commands may run, if it lists a command with restat, and not all commands."""
    programs.write({"build.ninja": RESTAT, "in": "", "other": ""}, place.folder)
    for name in ("in", "other"):
        os.utime(place.folder / name, (1, 1))
    expect("first", ["a", "b", "c", "d", "e"], labels(place, "-n"))
    expect("built", 0, place.done().returncode)
    expect("then", (NO_WORK, "", 0), says(place, "-n"))
    (place.folder / "other").touch()
    expect("without restat", ("[1/2] d\n[2/2] e\n", "", 0), says(place, "-n", "-j1"))
    expect("built again", 0, place.done().returncode)
    (place.folder / "in").write_text("changed")
    printed, error, status = says(place, "-n")
    expect("with restat", (["a", "b"], NOTE_ON_TWO, 0), (names_in(printed), error, status))
    printed, error, status = says(place, "-n", "c")
    expect("of a target", (["a"], NOTE_ON_ONE, 0), (names_in(printed), error, status))
    expect("of all", ("[1/1] a\n", "", 0), says(place, "-n", "a"))
    expect("quiet", ("", "", 0), says(place, "-n", "--quiet"))
    printed, error, status = says(place, "-t", "explain", "c")
    expect("explained", (["a"], NOTE_ON_ONE, 0), (names_in(printed), error.splitlines(True)[-1], status))
    expect("in a pipe", f"[1/2] a\n{NOTE_ON_ONE}", place.done("-n", "c", stderr=subprocess.STDOUT).stdout.decode())
    expect("not made", 0, (place.folder / "a").stat().st_size)


def failures(place: Place) -> None:
    """-k 0 goes on after failures; what failed runs again."""
    place.write("a exit 3", "b exit 4", "c touch $out", ">d touch $out")
    stopped = "ninja: build stopped: cannot make progress due to previous errors.\n"
    printed, error, status = says(place, "-k", "0", "-j1")
    failed = ["FAILED: [code=3] a \n", "exit 3\n", "FAILED: [code=4] b \n", "exit 4\n", stopped]
    expect("printed", (failed, "", 1),
           ([line for line in printed.splitlines(True) if not line.startswith("[")], error, status))
    expect("made", True, place.has("c", "d"))
    expect("again", ("[1/1] a\nFAILED: [code=3] a \nexit 3\n" + STOPPED, "", 1), says(place, "a"))


def limited_jobs(place: Place) -> None:
    """-j 2 runs two commands at once, and no third."""
    place.write(f"a {GATED}", f"b {GATED}", f"c {GATED}")
    child = place.started("-j2")
    until(lambda: sum(place.has(f"begun{name}") for name in "abc") == 2, "two don't begin in time")
    time.sleep(0.3)
    expect("begun", 2, sum(place.has(f"begun{name}") for name in "abc"))
    (place.folder / "go").touch()
    child.communicate(timeout=PATIENCE)
    expect("status", 0, child.returncode)


def run_at_once(place: Place, most: int, start: Callable[[], subprocess.Popen[bytes]]) -> str:
    """Starts a build of 210 commands, of which this many must run at once, and returns what the builder said."""
    outputs = [f"o{number}" for number in range(210)]
    place.write(*(f"{output} touch begun$out; read -r line < gate; touch $out" for output in outputs))
    os.mkfifo(place.folder / "gate")
    child = start()
    until(lambda: sum(place.has(f"begun{output}") for output in outputs) == most, f"{most} don't begin in time")
    time.sleep(0.3)
    expect("begun", most, sum(place.has(f"begun{output}") for output in outputs))
    with open(place.folder / "gate", "r+b", buffering=0) as gate:
        gate.write(b"\n" * len(outputs))
        said = child.communicate(timeout=PATIENCE)[0].decode()
    expect("status", 0, child.returncode)
    expect("made", True, place.has(*outputs))
    return said


def many_jobs(place: Place) -> None:
    """-j 200 runs 200 commands at once, and no more."""
    said = run_at_once(place, 200, lambda: place.started("-j200"))
    expect("lines", 210, len(said.splitlines()))


def with_files(place: Place, files: int, *words: str) -> subprocess.Popen[bytes]:
    """Starts the builder with a limit of open files."""
    shell = Place("/bin/sh", place.folder)
    child = shell.started("-c", f'ulimit -n {files}; exec "$0" "$@"', place.builder, *words)
    place.groups.append(child)
    return child


def fewer_jobs_with_few_files(place: Place) -> None:
    """If 256 files may be open, 128 commands run at once, and it says so."""
    said = run_at_once(place, 128, lambda: with_files(place, 256, "-j200"))
    warned = "plan_ninja: warning: no more than 128 commands run at once, by the limit of open files (ulimit -n)"
    lines = said.splitlines()
    expect("lines", (211, 1), (len(lines), lines.count(warned)))


def too_few_files(place: Place) -> None:
    """If too few files may be open, a command fails for a reason in words, and the build ends."""
    place.write(*(f"o{number} sleep 1; touch $out" for number in range(16)))
    child = with_files(place, 20, "-j16")
    said = child.communicate(timeout=PATIENCE)[0].decode()
    reasons = {line.rpartition(": ")[2] for line in said.splitlines() if line.startswith("plan_ninja: can't start")}
    expect("reasons and status", ({"Too many open files (os error 24)"}, 1), (reasons, child.returncode))


def another_folder(place: Place) -> None:
    below = Place(place.builder, place.folder / "below")
    below.write("a touch $out")
    expect("said", ("ninja: Entering directory `below'\n[1/1] a\n", "", 0), says(place, "-C", "below", "a"))
    expect("made", True, below.has("a", ".plan_record"))
    expect("here", False, place.has("a") or place.has(".plan_record"))


def missing_manifest(place: Place) -> None:
    """Nothing is created in a folder without a manifest."""
    expect("said", ("", "ninja: error: loading 'build.ninja': No such file or directory\n", 1), says(place))
    expect("files", [], os.listdir(place.folder))


def refused_manifest(place: Place) -> None:
    """A refusal has its number and name, and the line with a caret; and advice if there is some."""
    rule = "rule r\n  command = true\n"
    texts = {
        f"{rule}  depfile\n": "ninja: error: build.ninja:3: expected '=' [11 ExpectedEquals]\n"
                              "  depfile\n         ^ near here\n",
        "x = nosuch\ninclude $x\n": "ninja: error: loading 'nosuch': No such file or directory [20 SourceMissing]\n",
        "build a: phony b\nbuild b: phony a\n": "ninja: error: dependency cycle: a -> b [51 Cycle]\n",
        f"{rule}build a: r\nbuild c | b  a: r\n": "ninja: error: build.ninja:4: multiple rules generate a "
                                                "[50 TwoProducers]\nbuild c | b  a: r\n              ^ near here\n",
        f"{rule}build a a: r\n": "ninja: error: build.ninja:3: multiple rules generate a [50 TwoProducers]\n"
                                "build a a: r\n       ^ near here\n",
        f"{rule}x = a\nbuild a: r\nbuild $x: r\n": "ninja: error: build.ninja:5: multiple rules generate a "
                                                  "[50 TwoProducers]\nbuild $x: r\n^ near here\n",
        f"{rule}build a$:5: r\nbuild a$:5: r\n": "ninja: error: build.ninja:4: multiple rules generate a:5 "
                                               "[50 TwoProducers]\nbuild a$:5: r\n^ near here\n",
        f"{rule}build a: r\n  pool = p\n": "ninja: error: build.ninja:4: unknown pool name 'p' [33 UnknownPool]\n"
                                        "  pool = p\n          ^ near here\n",
        f"{rule}  pool = p\nbuild a: r\n": "ninja: error: build.ninja:4: unknown pool name 'p' [33 UnknownPool]\n"
                                        "build a: r\n^ near here\n",
        "pool p\n\nbuild a: phony\n": "ninja: error: build.ninja:1: expected 'depth =' line [17 BadPool]\n"
                                     "pool p\n      ^ near here\n",
        f"{rule}build a: r\ndefault b\n": "ninja: error: unknown target 'b' [52 UnknownDefault]\n",
        f"{rule}  rspfile = x\nbuild a: r\n":
            "ninja: error: build.ninja:4: response files (rspfile) are not supported [37 Rspfile]\n"
            "build a: r\n^ near here\nhelp: leave CMAKE_NINJA_FORCE_RESPONSE_FILE unset, or link static libraries in "
            "between; otherwise use ninja\n",
    }
    for text, wanted in texts.items():
        programs.write({"build.ninja": text}, place.folder)
        expect(f"said of {text!r}", ("", wanted, 1), says(place))


# Manifests, the number and the name of their refusal, and ninja's message.
POINTED = {
    "build a: nosuch b\n": ("31 UnknownRule", "build.ninja:1: unknown build rule 'nosuch'\n"
                                              "build a: nosuch b\n         ^ near here\n"),
    "build a$:b $\n  c: r\n": ("31 UnknownRule", "build.ninja:2: unknown build rule 'r'\n  c: r\n     ^ near here\n"),
    "\ninclude  no.ninja\n": ("20 SourceMissing", "build.ninja:2: loading 'no.ninja': No such file or directory\n"
                                                  "include  no.ninja\n                 ^ near here\n"),
    "subninja no.ninja\n": ("20 SourceMissing", "build.ninja:1: loading 'no.ninja': No such file or directory\n"
                                                "subninja no.ninja\n                 ^ near here\n"),
    "rule a\n  command = x\nrule a\n  command = y\n": ("30 DuplicateRule", "build.ninja:3: duplicate rule 'a'\n"
                                                                         "rule a\n      ^ near here\n"),
    "pool a\n  depth = 1\npool a\n  depth = 1\n": ("32 DuplicatePool", "build.ninja:3: duplicate pool 'a'\n"
                                                                     "pool a\n      ^ near here\n"),
    "pool a\n  depth = -1\n": ("42 BadDepth", "build.ninja:2: invalid pool depth\n"
                                              "  depth = -1\n            ^ near here\n"),
    "pool a\n  deep = 1\n": ("17 BadPool", "build.ninja:2: unexpected variable 'deep'\n"
                                           "  deep = 1\n          ^ near here\n"),
    "rule a\n  command = x\n  x = 1\n": ("15 UnknownRuleVariable", "build.ninja:3: unexpected variable 'x'\n"
                                                                   "  x = 1\n       ^ near here\n"),
}


def pointed(place: Place) -> None:
    """A refusal names what is wrong, and the caret is where ninja has it."""
    ninja = shutil.which("ninja")
    for text, (code, wanted) in POINTED.items():
        programs.write({"build.ninja": text}, place.folder)
        head, line, caret, _ = f"ninja: error: {wanted}".split("\n")
        expect(f"said of {text!r}", ("", f"{head} [{code}]\n{line}\n{caret}\n", 1), says(place))
        if ninja:
            expect(f"ninja said of {text!r}", f"{head}\n{line}\n{caret}\n".encode(),
                   programs.run([ninja], place.folder).stderr)


def included_twice(place: Place) -> None:
    """A missing file is found in a file that is included."""
    texts = {"build.ninja": "include a\nsubninja b\n", "a": "x = 1\n", "b": "y = 2\n\nsubninja no\n"}
    programs.write(texts, place.folder)
    expect("said", ("", "ninja: error: b:3: loading 'no': No such file or directory [20 SourceMissing]\n"
                        "subninja no\n           ^ near here\n", 1), says(place))


def too_many_paths(place: Place) -> None:
    """The build statement that has too many paths for an image is named."""
    inputs = " ".join(f"i{number}" for number in range(40_000))
    programs.write({"build.ninja": f"rule r\n  command = true\nbuild a: r\nbuild b: r {inputs}\n"}, place.folder)
    printed, error, status = says(place)
    expect("printed and status", ("", 1), (printed, status))
    expect("said", "ninja: error: build.ninja:4: the build statement of b has 40001 paths; the limit is 65,536 steps "
                   "for each statement, two or more for each path [100 Limit]", error.split("\n")[0])


def long_line(place: Place) -> None:
    """Of a long line only the part around the fault is shown."""
    programs.write({"build.ninja": f"rule r\n  command = true\nbuild a: r {'x ' * 300}|@ v\n"}, place.folder)
    lines = says(place)[1].splitlines()
    expect("lines", 4, len(lines))
    expect("length", True, len(lines[1]) < 130 and lines[1].startswith("...") and lines[2].endswith("^ near here"))
    at = lines[2].index("^")
    expect("what the caret shows", "|@", lines[1][at:at + 2])


# ---- changes that are older than the outputs

COMPILES = """rule cc
  command = cat src header > out && cp out copy && echo 'out: header' > out.d
  depfile = out.d
build out copy: cc src
"""
# What is done after a build, so that no input is later than the oldest output. The next build runs the command.
SEEN = {
    "one_output_touched": "echo 2 > src; sleep .05; touch out",
    "all_outputs_touched": "echo 2 > src; sleep .05; touch out copy",
    "header_edited": "echo 2 > header; sleep .05; touch out copy",
    "link_to_a_newer_file": "echo 2 > src; sleep .05; echo 1 > new; ln -sf new out; touch copy",
    "newer_outputs_by_cp_p": "echo 2 > src; sleep .05; echo 1 > new; cp -p new out; cp -p new copy",
    "outputs_from_the_future": "touch -d '+1 hour' out copy; echo 2 > src",
}
# What only plan_build sees: the new source file is later than the old one, and older than the outputs.
SEEN_HERE = {"older_source_by_cp_p": "echo 2 > new; touch -d '-1 minute' new; cp -p new src"}


def change_is_seen(steps: str, ninja: bool, builder: str, folder: pathlib.Path) -> str:
    """Builds, changes files, builds twice again. Returns how that differs from one more run, or an empty text."""
    builder = ninja_1_11(folder) if ninja else builder
    programs.write({"build.ninja": COMPILES, "src": "1\n", "header": "1\n"}, folder)
    for name in ("src", "header"):
        os.utime(folder / name, (time.time() - 3600, time.time() - 3600))
    programs.run([builder], folder)
    programs.run(["sh", "-c", steps], folder)
    changed = (folder / "src").read_text() + (folder / "header").read_text()
    found = [programs.run([builder], folder).stdout.decode() for _ in range(2)]
    texts = [(folder / name).read_text() for name in ("out", "copy")]
    if texts != [changed, changed]:
        return f"the outputs have {texts}, not {changed!r}; the build says {found[0]!r}"
    return "" if found[1] == NO_WORK else f"the next build says {found[1]!r}"


def edited_during_its_command(place: Place) -> None:
    """A source file that is edited while its command runs makes the next build run the command, and only the next."""
    command = f"cp src read; {GATED.replace('touch $out', 'cp read $out')}"
    text = f"rule r\n  command = {command}\n  description = $out\nbuild out: r src\n"
    programs.write({"build.ninja": text, "src": "1\n"}, place.folder)
    child = place.started()
    place.begun("out")
    time.sleep(0.05)
    programs.write({"src": "2\n"}, place.folder)
    (place.folder / "go").touch()
    expect("first", b"[1/1] out\n", child.communicate(timeout=PATIENCE)[0])
    expect("output", "1\n", (place.folder / "out").read_text())
    expect("second", ("[1/1] out\n", "", 0), says(place))
    expect("output", "2\n", (place.folder / "out").read_text())
    expect("third", (NO_WORK, "", 0), says(place))


def generator_compares_its_outputs(place: Place) -> None:
    """A generator that rewrites its own input has nothing to do; it runs if the input is later than its output."""
    text = "rule make\n  command = echo 1 > in; sleep .05; touch $out\n  generator = 1\nbuild out: make in\n"
    programs.write({"build.ninja": text, "in": ""}, place.folder)
    expect("first", 0, place.done().returncode)
    expect("second", (NO_WORK, "", 0), says(place))
    time.sleep(0.05)
    (place.folder / "in").touch()
    expect("third", 0, place.done().returncode)
    expect("fourth", (NO_WORK, "", 0), says(place))


def image_compares_its_outputs(program: str, folder: pathlib.Path) -> None:
    """An image of plan_ninja keeps the specified rule: a touched output hides an edit."""
    programs.write({"build.ninja": COMPILES, "src": "1\n", "header": "1\n"}, folder)
    programs.run([program, "compile", "build.ninja", "-o", "plan.img"], folder)
    ran = [programs.run([program, "run", "plan.img"], folder).stdout.decode() for _ in range(2)]
    expect("then", ["[1/1]", ""], [text[:5] for text in ran])
    programs.run(["sh", "-c", SEEN["all_outputs_touched"]], folder)
    expect("after the edit", "", programs.run([program, "run", "plan.img"], folder).stdout.decode())


# ---- a header that a command changes without saying so

TOUCHES = """rule cc
  command = echo '$out: header' > $out.d && touch $out
  depfile = $out.d
  deps = gcc
  description = $out
rule touch
  command = touch header $out
  description = $out
build early.o: cc early.c
build touched: touch in
build late.o: cc late.c || touched
"""


def lines_after_a_touch(words: list[str], folder: pathlib.Path) -> list[str]:
    """Builds until there is nothing to do, and returns the outputs that are built after a change, in their order."""
    for _ in range(5):
        if "[" not in programs.run(words, folder).stdout.decode():
            break
    time.sleep(0.05)
    (folder / "in").touch()
    return [line.split()[1] for line in programs.run(words, folder).stdout.decode().splitlines()]


def header_touched_between_readers(program: str, jobs: str, folder: pathlib.Path) -> None:
    """A command touches a header that it doesn't declare. An edge that asked before it is clean, one after it runs."""
    builder, found = programs.front(program), []
    for name, words in (("build", [builder, "-j", jobs]), ("run", [program, "run", "plan.img", "-j", jobs])):
        (folder / name).mkdir()
        files = dict.fromkeys(("in", "early.c", "late.c", "header"), "")
        programs.write({"build.ninja": TOUCHES, **files}, folder / name)
        programs.run([program, "compile", "build.ninja", "-o", "plan.img"], folder / name)
        found.append(lines_after_a_touch(words, folder / name))
    for lines in found:
        expect("outputs", ["touched", "late.o"], [line for line in lines if line != "early.o"])
    if jobs == "1":
        expect("outputs of plan_build, as of plan_ninja", found[1], found[0])


# ---- manifests that are built

MAKER = """rule make
  command = {command}
  generator = 1
rule touch
  command = touch $out
build build.ninja: make {inputs}
build {target}: touch
"""


def manifest_makes_itself(place: Place) -> None:
    """The manifest is made once, and the targets are those of the new one."""
    new = MAKER.format(command="cp new build.ninja; touch build.ninja", inputs="new", target="late")
    old = MAKER.format(command="cp new build.ninja; touch build.ninja", inputs="new", target="early")
    programs.write({"build.ninja": old}, place.folder)
    os.utime(place.folder / "build.ninja", (1, 1))
    programs.write({"new": new}, place.folder)
    expect("first", ("[1/1] cp new build.ninja; touch build.ninja\n[2/2] touch late\n", "", 0),
           (lambda found: (found[0].replace("[1/1] touch late", "[2/2] touch late"), *found[1:]))(says(place, "late")))
    expect("files", (True, False), (place.has("late"), place.has("early")))
    expect("then", (NO_WORK, "", 0), says(place, "late"))


def manifest_never_settles(place: Place) -> None:
    text = MAKER.format(command="touch in", inputs="in", target="late")
    programs.write({"build.ninja": text}, place.folder)
    os.utime(place.folder / "build.ninja", (1, 1))
    programs.write({"in": ""}, place.folder)
    printed, error, status = says(place)
    expect("tries", 100, printed.count("touch in\n"))
    dirty = "ninja: error: manifest 'build.ninja' still dirty after 100 tries, perhaps system time is not set\n"
    expect("said", (dirty, 1), (error, status))
    expect("built", False, place.has("late"))


def manifest_fails(place: Place) -> None:
    text = MAKER.format(command="exit 2", inputs="in", target="late")
    programs.write({"build.ninja": text}, place.folder)
    os.utime(place.folder / "build.ninja", (1, 1))
    programs.write({"in": ""}, place.folder)
    expect("said", ("[1/1] exit 2\nFAILED: [code=2] build.ninja \nexit 2\n",
                    "ninja: error: rebuilding 'build.ninja': subcommand failed\n", 1), says(place))
    expect("built", False, place.has("late"))


def manifest_as_target(place: Place) -> None:
    """`meson test` asks for build.ninja as a target."""
    text = MAKER.format(command="touch build.ninja", inputs="in", target="late")
    programs.write({"in": "", "build.ninja": text}, place.folder)
    says(place, "build.ninja")
    expect("said", (NO_WORK, "", 0), says(place, "build.ninja"))
    expect("built", False, place.has("late"))


# ---- streams and files

def closed_streams(place: Place) -> None:
    """Nothing is printed into files that were opened meanwhile, and lost output is a failure."""
    lost = b"ninja: error: standard output can't be written [133 FileFault]\n"
    for closed, wanted in ((">&-", (lost, 1)), ("<&- >&- 2>&-", (b"", 1)), ("<&-", (b"", 0)), ("2>&-", (b"", 0))):
        shutil.rmtree(place.folder)
        place.folder.mkdir()
        place.write("a echo text; touch $out", ">b touch $out")
        done = subprocess.run(["sh", "-c", f'"$0" {closed}', place.builder], cwd=place.folder, timeout=PATIENCE,
                              stdin=subprocess.DEVNULL, stdout=subprocess.PIPE, stderr=subprocess.PIPE)
        expect(f"said with {closed}", wanted, (done.stderr, done.returncode))
        expect("made", True, place.has("a", "b"))
        expect("record", False, b"] " in (place.folder / ".plan_record").read_bytes())
        expect("again", NO_WORK, says(place)[0])
    done = subprocess.run(["sh", "-c", '"$0" --version >&-', place.builder], stderr=subprocess.PIPE, timeout=PATIENCE)
    expect("version", (lost, 1), (done.stderr, done.returncode))


def reader_goes_away(place: Place) -> None:
    """`| head -1` ends the program soon, with a fault, and no other line."""
    place.write(*(f"{'long' * 40}{number} true" for number in range(1000)))
    child = subprocess.Popen([place.builder, "-j1"], cwd=place.folder, stdout=subprocess.PIPE, stderr=subprocess.PIPE,
                             stdin=subprocess.DEVNULL)
    assert child.stdout and child.stderr
    child.stdout.readline()
    child.stdout.close()
    error = child.stderr.read()
    child.stderr.close()
    expect("status", 1, child.wait(PATIENCE))
    expect("said", "ninja: error: standard output can't be written [133 FileFault]\n", error.decode())


def as_stranger() -> None:
    """Lets this process obey the modes of files, also if root runs it."""
    for capability in (OVERRIDE, READ_AND_SEARCH):
        ctypes.CDLL(None).prctl(DROP_A_CAPABILITY, capability, 0, 0, 0)


def read_only_folder(place: Place) -> None:
    """Nothing to do is no failure; a command that would run fails, and does not start."""
    place.write("a touch $out", ">b touch $out", "c touch $out")
    expect("built", 0, place.done("b").returncode)
    for path in [place.folder, *place.folder.iterdir()]:
        path.chmod(path.stat().st_mode & ~(stat.S_IWUSR | stat.S_IWGRP | stat.S_IWOTH))
    try:
        done = place.done("b", preexec_fn=as_stranger)
        expect("said", (NO_WORK.encode(), b"", 0), (done.stdout, done.stderr, done.returncode))
        done = place.done("c", preexec_fn=as_stranger)
        expect("status", 1, done.returncode)
        said = b"[1/1] c\nFAILED: [not started] c \ntouch c\n" + STOPPED.encode()
        expect("output", said, done.stdout)
        expect("made", False, place.has("c"))
    finally:
        place.folder.chmod(0o755)


# ---- terminals and signals

def console_reads_the_terminal(place: Place) -> None:
    place.write("a read word; echo $$word > $out", pool="console")
    terminal = Terminal(place)
    try:
        terminal.types(b"hello\n")
        expect("status", b"0", terminal.reads(rb"<ended (-?\d+)>"))
    finally:
        terminal.close()
    expect("read", "hello\n", (place.folder / "a").read_text())


def programs_of(group: int) -> list[str]:
    """Returns the names of the programs that run in a process group."""
    names = []
    for process in group_of(group):
        with contextlib.suppress(OSError):
            names.append(pathlib.Path("/proc", str(process), "comm").read_text().strip())
    return names


def key_ends_all(key: bytes, number: int) -> Callable[[Place], None]:
    def trial(place: Place) -> None:
        """The key ends the program and its commands, and the next build runs them again."""
        place.write(f"a {SLEEPING}", f"b {SLEEPING}")
        terminal = Terminal(place, "-j", "2")
        try:
            place.begun("a", "b")
            # A shell that forks while the key comes may lose the signal, and wait for its child to the end.
            until(lambda: programs_of(terminal.job).count("sleep") == 2, "the commands don't sleep")
            terminal.types(key)
            expect("status", str(-number).encode(), terminal.reads(rb"<ended (-?\d+)>"))
            until(lambda: not group_of(terminal.job), "the commands don't end in time")
        finally:
            terminal.close()
        expect("made", False, place.has("a") or place.has("b"))
        place.write("a touch $out", "b touch $out")
        expect("lines", 2, place.done().stdout.count(b"] "))

    trial.__name__ = f"key_of_{signal.Signals(number).name.lower()}"
    return trial


def ctrl_z(place: Place) -> None:
    """The builder and its command stop, and go on together."""
    place.write(f"a {GATED}")
    terminal = Terminal(place)
    try:
        place.begun("a")
        terminal.types(b"\x1a")
        terminal.reads(b"<stopped>")
        # D is the state of a process that waits in vfork(2) for one that has stopped.
        until(lambda: not set(group_of(terminal.job).values()) & set("RS"), "not all stop in time")
        expect("processes", True, len(group_of(terminal.job)) >= 2)
        (place.folder / "go").touch()
        (place.folder / "continue").touch()
        expect("status", b"0", terminal.reads(rb"<ended (-?\d+)>"))
    finally:
        terminal.close()
    expect("a is made", True, place.has("a"))


def killed(place: Place) -> None:
    """A command that runs is stopped, no other is started, and it runs again the next time."""
    for number in (signal.SIGKILL, *CAUGHT):
        for path in place.folder.iterdir():
            path.unlink()
        place.write(f"a {GATED}", ">b touch $out")
        child = place.started()
        place.begun("a")
        child.send_signal(number)
        expect("status", -number, child.wait(PATIENCE))
        until(lambda: not group_of(child.pid), "the command doesn't end in time")
        expect("a and b are made", (False, False), (place.has("a"), place.has("b")))
        (place.folder / "go").touch()
        expect("next", ("[1/2] a\n[2/2] b\n", "", 0), says(place))


def half_outputs_run_again(place: Place) -> None:
    """A command that was interrupted or failed after it had touched its output runs again."""
    place.write("a touch $out; exit 1")
    expect("first", 1, place.done().returncode)
    expect("second", ("[1/1] a\nFAILED: [code=1] a \ntouch a; exit 1\n" + STOPPED, "", 1), says(place))


def hangup_is_ignored_under_nohup(place: Place) -> None:
    place.write(f"a {GATED}")
    child = place.started(hangup=signal.SIG_IGN)
    place.begun("a")
    os.killpg(child.pid, signal.SIGHUP)
    (place.folder / "go").touch()
    expect("said", b"[1/1] a\n", child.communicate(timeout=PATIENCE)[0])
    expect("status", 0, child.returncode)


# ---- several at once

def second_build_waits(place: Place) -> None:
    """The second builder in a folder waits for the first, and has nothing to do then."""
    place.write(f"a {GATED}")
    first = place.started()
    place.begun("a")
    second = place.started()
    time.sleep(1.5)
    expect("is over before the first", None, second.poll())
    (place.folder / "go").touch()
    expect("first", b"[1/1] a\n", first.communicate(timeout=PATIENCE)[0])
    expect("second", (WAITING.format(first.pid) + NO_WORK).encode(), second.communicate(timeout=PATIENCE)[0])
    expect("statuses", (0, 0), (first.returncode, second.returncode))


def nested_build(place: Place) -> None:
    """A command builds in the same folder, as CMake's dashboards do. Its lines are the output of this command."""
    place.write("a touch $out", f"b '{place.builder}' a && touch $out", "c true")
    printed, error, status = says(place, "b")
    expect("said", (["[1/1] b", "[1/1] a"], "", 0), (printed.splitlines(), error, status))
    expect("then", (NO_WORK, "", 0), says(place, "a", "b"))


TRIALS: tuple[Callable[[Place], None], ...] = (
    called_ninja, about, nothing_to_do, dry_runs, dry_run_of_the_manifest, dry_run_of_restat_commands, failures,
    limited_jobs, many_jobs, fewer_jobs_with_few_files, too_few_files, another_folder, missing_manifest,
    refused_manifest, pointed, included_twice, too_many_paths, long_line, manifest_makes_itself,
    manifest_never_settles, manifest_fails, manifest_as_target, closed_streams, reader_goes_away, read_only_folder,
    console_reads_the_terminal,
    key_ends_all(b"\x03", signal.SIGINT), key_ends_all(b"\x1c", signal.SIGQUIT), ctrl_z, killed, half_outputs_run_again,
    hangup_is_ignored_under_nohup, second_build_waits, nested_build, edited_during_its_command,
    generator_compares_its_outputs)


def check(builder: str, trial: Callable[[Place], None], folder: pathlib.Path) -> None:
    """Does a trial in a fresh build folder, and ends what it started."""
    place = Place(builder, folder)
    try:
        trial(place)
    finally:
        place.end()


def cases(setting: Setting) -> Iterator[Case]:
    """Yields the command lines, and then the trials."""
    builder = programs.front(setting.program)
    for words, wanted in {**SAME, **OWN}.items():
        yield Case(f"words {words}".strip(), functools.partial(words_say, builder, words, wanted))
    for words, wanted in {**SAME, **dict.fromkeys(TOO_MANY_JOBS, DONE)}.items():
        yield Case(f"ninja {words}".strip(), functools.partial(ninja_says, words, wanted))
    for name, steps in {**SEEN, **SEEN_HERE}.items():
        yield Case(f"change {name}", functools.partial(change_is_seen, steps, False, builder))
    for name, steps in SEEN.items():
        yield Case(f"ninja change {name}", functools.partial(change_is_seen, steps, True, builder))
    for jobs in ("1", "2", "4"):
        yield Case(f"header_touched_between_readers -j {jobs}",
                   functools.partial(header_touched_between_readers, setting.program, jobs))
    yield Case("image_compares_its_outputs", functools.partial(image_compares_its_outputs, setting.program))
    for trial in TRIALS:
        yield Case(trial.__name__, functools.partial(check, builder, trial))
