"""Uses the tools of plan_build, as `-t` names them: listings, commands, a compilation database, cleaning, the record.

If ninja is installed, it gets the same words on the same files, and must answer what the table says.
"""
from __future__ import annotations

import functools
import os
import pathlib
import shlex
import shutil
import struct
import subprocess
import time
from collections.abc import Callable, Iterator
from typing import NamedTuple

from lib import locks, programs
from lib.place import GATED, Place, expect
from lib.suite import PATIENCE, Case, LeftOut, Setting

# ---- words on a tree

TREE = """include rules.ninja
build gen.h: gen conf | tool
build a.o | a.lst: cc a.c | a.h || gen.h
build b.o: cc b.c || gen.h
build app: link a.o b.o | lib.a
build lib.a: link c.o
build c.o: cc c.c
build docs: phony readme
build all: phony app docs
build quoted: say
  text = "a" \\ b
build build.ninja: gen rules.ninja
default all quoted
"""
RULES = """rule cc
  command = cc -c $in -o $out
  depfile = $out.d
rule link
  command = ld -o $out $in
rule gen
  command = gen $in
  generator = 1
rule say
  command = echo '$text' > $out
rule unused
  command = true
"""
SOURCES = ("conf", "tool", "a.c", "b.c", "c.c", "a.h", "readme")
MADE = ("gen.h", "a.o", "a.lst", "a.o.d", "b.o", "app", "c.o", "c.o.d", "quoted", "build.ninja")
FILES = {"rules.ninja": RULES, **dict.fromkeys(SOURCES, ""), **dict.fromkeys(MADE, ""), "build.ninja": TREE}


class Told(NamedTuple):
    """What is wanted of a tool: its status, standard output and standard error, and the files that it removes.

    FOLDER stands for the path of the folder.
    """

    status: int
    printed: str = ""
    error: str = ""
    removed: str = ""


# What ninja 1.11 answers, and plan_build too.
SAME = {
    "-t targets": Told(0, """a.lst: cc
all: phony
quoted: say
build.ninja: gen
"""),
    "-t targets depth 2": Told(0, """a.lst: cc
  a.c
  a.h
  gen.h: gen
all: phony
  app: link
  docs: phony
quoted: say
build.ninja: gen
  rules.ninja
"""),
    "-t targets depth 0": Told(0, """a.lst: cc
  a.c
  a.h
  gen.h: gen
    conf
    tool
all: phony
  app: link
    a.o: cc
      a.c
      a.h
      gen.h: gen
        conf
        tool
    b.o: cc
      b.c
      gen.h: gen
        conf
        tool
    lib.a: link
      c.o: cc
        c.c
  docs: phony
    readme
quoted: say
build.ninja: gen
  rules.ninja
"""),
    "-t targets depth": Told(0, """a.lst: cc
all: phony
quoted: say
build.ninja: gen
"""),
    "-t targets all": Told(0, """gen.h: gen
a.o: cc
a.lst: cc
b.o: cc
app: link
lib.a: link
c.o: cc
docs: phony
all: phony
quoted: say
build.ninja: gen
"""),
    "-t targets rule": Told(0, """conf
tool
a.c
a.h
b.c
c.c
readme
rules.ninja
"""),
    "-t targets rule cc": Told(0, """a.lst
a.o
b.o
c.o
"""),
    "-t targets rule nosuch": Told(0, ""),
    "-t targets dept": Told(1, "", "ninja: error: unknown target tool mode 'dept', did you mean 'depth'?\n"),
    "-t targets xyz": Told(1, "", "ninja: error: unknown target tool mode 'xyz', did you mean 'all'?\n"),
    "-t commands": Told(0, """gen conf
cc -c a.c -o a.o
cc -c b.c -o b.o
cc -c c.c -o c.o
ld -o lib.a c.o
ld -o app a.o b.o
echo '"a" \\ b' > quoted
"""),
    "-t commands app": Told(0, """gen conf
cc -c a.c -o a.o
cc -c b.c -o b.o
cc -c c.c -o c.o
ld -o lib.a c.o
ld -o app a.o b.o
"""),
    "-t commands a.o lib.a a.o": Told(0, """gen conf
cc -c a.c -o a.o
cc -c c.c -o c.o
ld -o lib.a c.o
"""),
    "-t commands -s app": Told(0, "ld -o app a.o b.o\n"),
    "-t commands ./lib.a": Told(0, """cc -c c.c -o c.o
ld -o lib.a c.o
"""),
    "-t commands a.c^": Told(0, """gen conf
cc -c a.c -o a.o
"""),
    "-t commands a.h": Told(0, ""),
    "-t commands c.c^ b.c^": Told(0, """cc -c c.c -o c.o
gen conf
cc -c b.c -o b.o
"""),
    "-t commands readme^": Told(0, ""),
    "-t commands app^": Told(0, """gen conf
cc -c a.c -o a.o
cc -c b.c -o b.o
cc -c c.c -o c.o
ld -o lib.a c.o
ld -o app a.o b.o
"""),
    "-t commands nosuch": Told(1, "", "ninja: error: unknown target 'nosuch'\n"),
    "-t commands lib.b": Told(1, "", "ninja: error: unknown target 'lib.b', did you mean 'lib.a'?\n"),
    "-t commands clean": Told(1, "", "ninja: error: unknown target 'clean', did you mean 'ninja -t clean'?\n"),
    "-t commands help": Told(1, "", "ninja: error: unknown target 'help', did you mean 'ninja -h'?\n"),
    "-t commands ''": Told(1, "", "ninja: error: empty path\n"),
    "-t commands -h": Told(1, """usage: ninja -t commands [options] [targets]

options:
  -s     only print the final command to build [target], not the whole chain
"""),
    "-t compdb cc": Told(0, """[
  {
    "directory": "FOLDER",
    "command": "cc -c a.c -o a.o",
    "file": "a.c",
    "output": "a.o"
  },
  {
    "directory": "FOLDER",
    "command": "cc -c b.c -o b.o",
    "file": "b.c",
    "output": "b.o"
  },
  {
    "directory": "FOLDER",
    "command": "cc -c c.c -o c.o",
    "file": "c.c",
    "output": "c.o"
  }
]
"""),
    "-t compdb -x link say": Told(0, """[
  {
    "directory": "FOLDER",
    "command": "ld -o app a.o b.o",
    "file": "a.o",
    "output": "app"
  },
  {
    "directory": "FOLDER",
    "command": "ld -o lib.a c.o",
    "file": "c.o",
    "output": "lib.a"
  }
]
"""),
    "-t compdb nosuch": Told(0, """[
]
"""),
    "-t clean": Told(0, "Cleaning... 8 files.\n", "", "a.o a.lst a.o.d b.o app c.o c.o.d quoted"),
    "-t clean -g": Told(0, "Cleaning... 10 files.\n", "", "gen.h a.o a.lst a.o.d b.o app c.o c.o.d quoted build.ninja"),
    "-t clean app": Told(0, "Cleaning... 7 files.\n", "", "gen.h a.o a.o.d b.o app c.o c.o.d"),
    "-t clean gen.h": Told(0, "Cleaning... 1 files.\n", "", "gen.h"),
    "-t clean a.o quoted": Told(0, "Cleaning... 4 files.\n", "", "gen.h a.o a.o.d quoted"),
    "-t clean -r link say": Told(0, "Cleaning... 2 files.\n", "", "app quoted"),
    "-t clean -gr gen": Told(0, "Cleaning... 2 files.\n", "", "gen.h build.ninja"),
    "-t clean docs": Told(0, "Cleaning... 0 files.\n"),
    "-n -t clean": Told(0, """Cleaning...
Remove a.o
Remove a.lst
Remove a.o.d
Remove b.o
Remove app
Remove c.o
Remove c.o.d
Remove quoted
8 files.
"""),
    "-n -t clean -g": Told(0, """Cleaning...
Remove gen.h
Remove a.o
Remove a.lst
Remove a.o.d
Remove b.o
Remove app
Remove c.o
Remove c.o.d
Remove quoted
Remove build.ninja
10 files.
"""),
    "-v -t clean": Told(0, """Cleaning...
Remove a.o
Remove a.lst
Remove a.o.d
Remove b.o
Remove app
Remove c.o
Remove c.o.d
Remove quoted
8 files.
""", "", "a.o a.lst a.o.d b.o app c.o c.o.d quoted"),
    "-v -t clean lib.a": Told(0, """Cleaning...
Target lib.a
Remove c.o
Remove c.o.d
2 files.
""", "", "c.o c.o.d"),
    "-n -v -t clean a.o": Told(0, """Cleaning...
Target a.o
Remove a.o
Remove a.o.d
Remove gen.h
3 files.
"""),
    "-nvt clean -r cc": Told(0, """Cleaning...
Rule cc
Remove a.o
Remove a.o.d
Remove a.lst
Remove b.o
Remove c.o
Remove c.o.d
6 files.
"""),
    "-v -t clean -r unused": Told(0, """Cleaning...
Rule unused
0 files.
"""),
    "-t clean -r": Told(1, "", "ninja: error: expected a rule to clean\n"),
    "-t clean -x": Told(1, """usage: ninja -t clean [options] [targets]

options:
  -g     also clean files marked as ninja generator output
  -r     interpret targets as a list of rules to clean instead
""", "clean: invalid option -- 'x'\n"),
    "-t clean -h app": Told(1, """usage: ninja -t clean [options] [targets]

options:
  -g     also clean files marked as ninja generator output
  -r     interpret targets as a list of rules to clean instead
"""),
    "-t clean app -x": Told(1, """usage: ninja -t clean [options] [targets]

options:
  -g     also clean files marked as ninja generator output
  -r     interpret targets as a list of rules to clean instead
""", "clean: invalid option -- 'x'\n"),
    "-t clean -- app": Told(0, "Cleaning... 7 files.\n", "", "gen.h a.o a.o.d b.o app c.o c.o.d"),
    "-f rules.ninja -t targets": Told(0, ""),
    "-f rules.ninja -t commands": Told(0, ""),
    "-t recompact": Told(0, ""),
    "-t restat": Told(0, ""),
    "-t restat -h": Told(1, "usage: ninja -t restat [outputs]\n"),
    "-t cleandead": Told(0, "Cleaning... 0 files.\n"),
    "-C . -t targets": Told(0, """a.lst: cc
all: phony
quoted: say
build.ninja: gen
"""),
}
# What only plan_build answers.
OWN = {
    "-t list": Told(0, """ninja subtools:
      clean  clean built files
   commands  list all commands required to rebuild given targets
    targets  list targets by their rule or depth in the DAG
     compdb  dump JSON compilation database to stdout
  recompact  recompacts ninja-internal data structures
     restat  restats all outputs in the build log
  cleandead  clean built files that are no longer produced by the manifest
    explain  say which commands would run, and why
"""),
    "-t list all": Told(1, "", "ninja: error: -t list takes no word 'all'\n"),
    "-t cleam": Told(1, "", "ninja: fatal: unknown tool 'cleam', did you mean 'clean'?\n"),
    "-t targets -h": Told(1, "usage: ninja -t targets [all | rule [NAME] | depth [N]]\n"),
    "-t cleandead -h": Told(1, "usage: ninja -t cleandead\n"),
    "-t cleandead app": Told(1, "", "ninja: error: -t cleandead takes no word 'app'\n"),
    "-t recompact -h": Told(1, "usage: ninja -t recompact\n"),
    "-t clean -- -g": Told(1, "", "ninja: error: unknown target '-g', did you mean 'a.o'?\n"),
    "-t clean app nosuch": Told(1, "", "ninja: error: unknown target 'nosuch'\n"),
    "-t clean -r cc nosuch": Told(1, "", "ninja: error: unknown rule 'nosuch'\n"),
    "-t clean -r phony": Told(0, "Cleaning... 0 files.\n"),
    "-t targets depth x": Told(0, SAME["-t targets depth 0"].printed),
    "-t clean ''": Told(1, "", "ninja: error: empty path\n"),
}


def told_by(builder: str, words: str, folder: pathlib.Path) -> Told:
    """Gives a builder words on the tree, and returns what it told."""
    programs.write(FILES, folder)
    done = programs.run([builder, *shlex.split(words)], folder)
    printed = done.stdout.decode().replace(str(folder.resolve()), "FOLDER")
    removed = [name for name in FILES if not (folder / name).exists()]
    return Told(done.returncode, printed, done.stderr.decode(), " ".join(removed))


def in_any_order(words: str, told: Told) -> Told:
    """Returns what was told, with its lines in the order of the alphabet if files of targets or rules are named."""
    if "-v" in words or "-n" in words:
        return told._replace(printed="".join(sorted(told.printed.splitlines(True))))
    return told


def words_tell(builder: str, words: str, wanted: Told, folder: pathlib.Path) -> str:
    """Returns how the answer to words differs, or an empty text."""
    found = told_by(builder, words, folder)
    return "" if in_any_order(words, found) == in_any_order(words, wanted) else f"{found}, wanted {wanted}"


def ninja_tells(words: str, wanted: Told, folder: pathlib.Path) -> str:
    """Returns how ninja's answer to words differs from the table, or an empty text."""
    ninja = shutil.which("ninja")
    if not ninja:
        raise LeftOut("ninja is missing")
    if programs.run([ninja, "--version"], folder).stdout[:5] != b"1.11.":
        raise LeftOut("ninja isn't version 1.11")
    return words_tell(ninja, words, wanted, folder)


# ---- cleaning

def says(place: Place, *words: str) -> tuple[str, str, int]:
    """Runs the builder, and returns what it printed, its errors, and its status."""
    done = place.done(*words)
    return done.stdout.decode(), done.stderr.decode(), done.returncode


def folders_are_cleaned(place: Place) -> None:
    """An output that is an empty folder is removed; one with files stays, and is a failure."""
    place.write("a mkdir $out", "b mkdir $out && touch $out/file", "c touch $out")
    expect("built", 0, place.done().returncode)
    error = "ninja: error: remove(b): Directory not empty\n"
    expect("said", ("Cleaning... 2 files.\n", error, 1), says(place, "-t", "clean"))
    expect("files", (False, True, False), (place.has("a"), place.has("b/file"), place.has("c")))


def cleaned_is_built_again(place: Place) -> None:
    place.write("a touch $out", ">b touch $out")
    expect("built", 0, place.done().returncode)
    expect("cleaned", ("Cleaning... 2 files.\n", "", 0), says(place, "-t", "clean"))
    expect("built again", ("[1/2] a\n[2/2] b\n", "", 0), says(place))


def clean_in_a_build(place: Place) -> None:
    """CMake's and Meson's targets for cleaning call the tool in a command."""
    place.write("a touch $out", f"b '{place.builder}' -t clean a", pool="console")
    expect("built", 0, place.done("a").returncode)
    expect("cleaned", "[0/1] b\nCleaning... 1 files.\n", says(place, "b")[0])
    expect("a is there", False, place.has("a"))


def outputs_of_the_past_are_cleaned(place: Place) -> None:
    """What no build line names any more is removed; what one names only as an input stays."""
    place.write("a touch $out", ">b touch $out", "c touch $out", "d touch $out")
    expect("built", 0, place.done().returncode)
    place.write("b touch $out", ">e cat c > $out")
    (place.folder / "build.ninja").write_text((place.folder / "build.ninja").read_text() + "build f: r0 c\n")
    named = says(place, "-n", "-t", "cleandead")[0].splitlines()
    expect("named", ["2 files.", "Cleaning...", "Remove a", "Remove d"], sorted(named))
    expect("said", ("Cleaning... 2 files.\n", "", 0), says(place, "-t", "cleandead"))
    expect("files", (False, True, True, False), tuple(place.has(name) for name in "abcd"))
    expect("again", ("Cleaning... 0 files.\n", "", 0), says(place, "-t", "cleandead"))


def dry_tool_does_not_wait(place: Place) -> None:
    """-n -t cleandead lists dead outputs while a build runs; -t cleandead waits for its end."""
    place.write("a touch $out", "b touch $out")
    expect("built", 0, place.done().returncode)
    place.write("b touch $out", f"c {GATED}")
    child = place.started("c")
    place.begun("c")
    listed = says(place, "-n", "-t", "cleandead")
    expect("listed", (["1 files.", "Cleaning...", "Remove a"], "", 0), (sorted(listed[0].splitlines()), *listed[1:]))
    expect("a is there", True, place.has("a"))
    tool = place.started("-t", "cleandead")
    time.sleep(0.3)
    expect("a is still there", (True, None), (place.has("a"), tool.poll()))
    (place.folder / "go").touch()
    expect("status of the build", 0, child.wait(PATIENCE))
    expect("status of the tool", 0, tool.wait(PATIENCE))
    expect("a is there then", False, place.has("a"))


# ---- standard output

def reader_goes_away(place: Place) -> None:
    """The list of targets is longer than a pipe holds, and its reader has gone."""
    place.write(*(f"{'long' * 40}{number} true" for number in range(1000)))
    child = subprocess.Popen([place.builder, "-t", "targets", "all"], cwd=place.folder, stdout=subprocess.PIPE,
                             stderr=subprocess.PIPE, stdin=subprocess.DEVNULL)
    assert child.stdout and child.stderr
    child.stdout.readline()
    child.stdout.close()
    error = child.stderr.read()
    child.stderr.close()
    expect("status", 1, child.wait(PATIENCE))
    expect("said", b"ninja: error: standard output can't be written [133 FileFault]\n", error)


def refused_manifest(place: Place) -> None:
    """A refusal has the line and a caret, and nothing is removed."""
    programs.write({"build.ninja": "rule r\n  command = true\nbuild a: r\nbuild b: nosuch\n", "a": ""}, place.folder)
    said = "ninja: error: build.ninja:4: unknown build rule 'nosuch' [31 UnknownRule]\n"
    wanted = ("", f"{said}build b: nosuch\n         ^ near here\n", 1)
    for words in ("clean", "commands", "compdb", "targets", "recompact", "cleandead"):
        expect(f"said by {words}", wanted, says(place, "-t", words))
    expect("files", ["a", "build.ninja"], sorted(os.listdir(place.folder)))


# ---- the build record

def entry(output: bytes, command: bytes) -> bytes:
    """Returns an entry of a record, without paths."""
    body = struct.pack(">H", len(output)) + output + struct.pack(">I", len(command)) + command + bytes(12)
    return struct.pack(">I", len(body)) + body


OLD = entry(b"a", b"old" * 100) * 8 + entry(b"a", b"true")
GROWN = entry(b"a", b"old" * 100) * 200 + entry(b"a", b"true")


def record(place: Place, entries: bytes = OLD) -> pathlib.Path:
    """Writes a record of an edge that is up to date by its last entry."""
    place.write("a true")
    path = place.folder / ".plan_record"
    path.write_bytes(entries)
    return path


def old_entries_are_dropped(place: Place) -> None:
    path = record(place)
    expect("said", ("", "", 0), says(place, "-t", "recompact"))
    expect("record", entry(b"a", b"true"), path.read_bytes())
    (place.folder / ".plan_record").unlink()
    expect("said without a record", ("", "", 0), says(place, "-t", "recompact"))


def grown_record_is_rewritten(place: Place) -> None:
    """A build rewrites a record with more than 100 entries, more than three times as many as outputs."""
    path = record(place)
    expect("status", 0, place.done().returncode)
    expect("a short one stays", True, path.read_bytes().startswith(OLD))
    path = record(place, GROWN)
    expect("status", 0, place.done().returncode)
    expect("a grown one", True, path.read_bytes().startswith(entry(b"a", b"true")))


def recompact_waits_for_the_lock(place: Place) -> None:
    path = record(place)
    with locks.held(path.with_name(f"{path.name}.lock")):
        child = place.started("-t", "recompact")
        time.sleep(0.5)
        expect("is over before the lock is free", None, child.poll())
        expect("record", OLD, path.read_bytes())
        with open(path, "ab") as late:
            late.write(entry(b"b", b"late"))
    child.communicate(timeout=PATIENCE)
    expect("status", 0, child.returncode)
    expect("record", entry(b"a", b"true") + entry(b"b", b"late"), path.read_bytes())


def record_held_above_stays(place: Place) -> None:
    """Below a builder that holds the lock, the record stays as it is."""
    path = record(place)
    lock = path.with_name(f"{path.name}.lock")
    with locks.held(lock) as holder:
        place.environment["PLAN_NINJA_RECORDS"] = f"1:2:3:4 {locks.name_of(lock, holder)}"
        expect("said", ("", "", 0), says(place, "-t", "recompact"))
    expect("record", OLD, path.read_bytes())


RESTAT = """rule keep
  command = cmp -s $in $out || cp $in $out
  restat = 1
build a: keep src
"""


def restat_takes_files_as_they_are(place: Place) -> None:
    """By `-t restat` an older output of a restat edge counts as made from what it is older than."""
    programs.write({"build.ninja": RESTAT, "src": "x"}, place.folder)
    os.utime(place.folder / "src", (1000, 1000))
    expect("built", 0, place.done().returncode)
    os.utime(place.folder / "a", (500, 500))
    expect("clean by its entry", "ninja: no work to do.\n", says(place)[0])
    expect("said", ("", "", 0), says(place, "-t", "restat", "nosuch"))
    expect("still clean", "ninja: no work to do.\n", says(place)[0])
    expect("said", ("", "", 0), says(place, "-t", "restat", "a"))
    expect("dirty by its file", True, says(place)[0].startswith("[1/1] "))
    os.utime(place.folder / "a", (500, 500))
    expect("said of all", ("", "", 0), says(place, "-t", "restat"))
    expect("dirty", True, says(place)[0].startswith("[1/1] "))


TRIALS: tuple[Callable[[Place], None], ...] = (
    folders_are_cleaned, cleaned_is_built_again, clean_in_a_build, outputs_of_the_past_are_cleaned,
    dry_tool_does_not_wait, reader_goes_away, refused_manifest, old_entries_are_dropped, grown_record_is_rewritten,
    recompact_waits_for_the_lock, record_held_above_stays, restat_takes_files_as_they_are)


def check(builder: str, trial: Callable[[Place], None], folder: pathlib.Path) -> None:
    """Does a trial in a fresh build folder, and ends what it started."""
    place = Place(builder, folder)
    try:
        trial(place)
    finally:
        place.end()


def cases(setting: Setting) -> Iterator[Case]:
    """Yields the words, and then the trials."""
    builder = programs.front(setting.program)
    for words, wanted in {**SAME, **OWN}.items():
        yield Case(f"words {words}", functools.partial(words_tell, builder, words, wanted))
    for words, wanted in SAME.items():
        yield Case(f"ninja {words}", functools.partial(ninja_tells, words, wanted))
    for trial in TRIALS:
        yield Case(trial.__name__, functools.partial(check, builder, trial))
