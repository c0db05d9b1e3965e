#!/usr/bin/env python3
"""Draws what plan_build and ninja print, as the pictures of docs/using/output.md.

    tools/screens.py PROGRAM [FOLDER]

PROGRAM is plan_build, and FOLDER gets the pictures. Each scene (SCENES) is a build that this script makes up. Its
commands are scripts of sh, so no compiler is needed. Both builders build it, on a terminal of 80 columns or in a pipe,
and one picture shows both. If a command of a scene waits, the screen is taken while it does.

This script needs ninja, Pillow and the font DejaVu Sans Mono. Run it with the Python that has Pillow.
"""
from __future__ import annotations

import fcntl
import os
import pathlib
import pty
import re
import select
import shutil
import struct
import subprocess
import sys
import tempfile
import termios
import time
from collections.abc import Sequence
from typing import Dict, NamedTuple, Tuple

import tests_path  # noqa: F401: it makes lib known
from lib import programs
from lib.screen import Screen

try:
    from PIL import Image, ImageDraw, ImageFont
except ImportError:
    sys.exit("tools/screens.py needs Pillow: apt-get install python3-pil, and then run it with /usr/bin/python3")

ROOT = pathlib.Path(__file__).resolve().parent.parent
COLUMNS, ROWS = 80, 24
QUIET = 2.0  # seconds without any text, after which a build that waits shows what it will show
ENVIRONMENT = {"PATH": "/usr/bin:/bin", "TERM": "xterm-256color", "LC_ALL": "C"}


# ---- builds

COMPILER = """\
#!/bin/sh
# cc FLAGS.. -c SOURCE -o OBJECT prints the text of SOURCE, line by line, as if it were the compiler's message.
while [ "$1" != -c ]; do shift; done
sleep 0.05
while IFS= read -r line; do printf '%s\\n' "$line" >&2; sleep 0.02; done < "$2"
: > "$4"
! [ -s "$2" ] || ! grep -q error: "$2"
"""
RULES = """\
rule cc
  command = ./cc -O2 -fdiagnostics-color=always -c $in -o $out
  description = Building C object $out
rule link
  command = touch begun; while [ -e begun -a ! -e go ]; do sleep 0.05; done; touch $out
  description = Linking C executable $out
rule deploy
  command = touch begun; printf 'Deploy version 2.4 to production? [y/N] '; read answer; touch $out
  description = Deploying version 2.4
  pool = console
"""


def coloured(codes: str, text: str) -> str:
    """Returns a text in a colour, as gcc writes it."""
    return f"\x1b[{codes}m\x1b[K{text}\x1b[m\x1b[K"


def message(source: str, kind: str, colour: str, text: str, line: str, marked: str) -> str:
    """Returns a message of gcc on a marked part of line 214 of a source."""
    before, _, after = line.partition(marked)
    place = coloured("01", f"{source}:214:{len(before) + 1}:")
    quoted = re.sub(r"'([^']+)'", lambda found: "'" + coloured("01", found[1]) + "'", text)
    return (f"{coloured('01', source + ':')} In function '{coloured('01', 'read_header')}':\n"
            f"{place} {coloured(colour, kind + ': ')}{quoted}\n"
            f"  214 | {before}{coloured(colour, marked)}{after}\n"
            f"      | {' ' * len(before)}{coloured(colour, '^' + '~' * (len(marked) - 1))}\n")


class Scene(NamedTuple):
    """A build, and how it is shown."""

    objects: int
    jobs: int
    odd: Tuple[int, str] = (0, "")  # the number of a source, and the compiler's message on it
    more: str = ""  # further statements of the manifest
    piped: bool = False
    waits: bool = False  # whether a command waits: then the screen is taken meanwhile
    around: str = ""  # only the lines around this text are shown

    def source(self, number: int) -> str:
        """Returns the path of a source."""
        return f"src/unit{number}.c"

    def write(self, folder: pathlib.Path) -> None:
        """Writes the manifest, the sources and the compiler."""
        numbers = range(1, self.objects + 1)
        edges = "".join(f"build obj/unit{number}.o: cc {self.source(number)}\n" for number in numbers)
        programs.write({self.source(number): "" for number in numbers}, folder)
        programs.write({"build.ninja": RULES + edges + self.more, "cc": COMPILER,
                        self.source(self.odd[0]): self.odd[1]}, folder)
        (folder / "cc").chmod(0o755)


ERROR = message("src/unit412.c", "error", "01;31", "'struct header' has no member named 'lenght'",
                "    size = header->lenght;", "lenght")
WARNING = message("src/unit150.c", "warning", "01;35", "unused variable 'count' [-Wunused-variable]",
                  "    int count = 0;", "count")
FIRST_TEN = " ".join(f"obj/unit{number}.o" for number in range(1, 11))
SCENES: Dict[str, Scene] = {
    "failure": Scene(1000, 8, (412, ERROR)),
    "warning": Scene(300, 32, (150, WARNING), piped=True, around="warning:"),
    "link": Scene(60, 4, more=f"build app: link {FIRST_TEN}\n", waits=True),
    "prompt": Scene(3, 4, more="build deployed: deploy obj/unit1.o obj/unit2.o obj/unit3.o\n", waits=True),
}


# ---- what a builder shows

class Coloured(Screen):
    """A terminal that also knows colours: the codes of each character, by its row and column."""

    def __init__(self, shown: bytes, width: int) -> None:
        self.codes: frozenset[int] = frozenset()
        self.styles: dict[tuple[int, int], frozenset[int]] = {}
        super().__init__(shown, width)

    def take(self, code: bytes) -> None:
        """Shows some bytes, or changes the colour."""
        if code.startswith(b"\x1b") and code.endswith(b"m"):
            found = frozenset(map(int, filter(None, code[2:-1].split(b";"))))
            self.codes = found - {0} if not found or 0 in found else self.codes | found
        else:
            super().take(code)

    def put(self, byte: int) -> None:
        """Shows a byte in the current colour."""
        super().put(byte)
        self.styles[self.row, self.column - 1] = self.codes


def received(terminal: int, pause: pathlib.Path | None) -> bytes:
    """Returns what is written to a terminal until it is closed, or until it is quiet if the file `pause` is there."""
    shown = b""
    end = time.monotonic() + programs.SECONDS
    while time.monotonic() < end:
        if select.select([terminal], [], [], QUIET)[0]:
            try:
                some = os.read(terminal, 65536)
            except OSError:  # the other end is closed
                return shown
            shown += some
        elif pause and pause.exists():
            return shown
    sys.exit(f"the builder doesn't end within {programs.SECONDS} s")


def on_terminal(words: Sequence[str], folder: pathlib.Path, waits: bool) -> bytes:
    """Builds on a terminal, and returns what was written to it: in the end, or while a command waits."""
    terminal, other = pty.openpty()
    fcntl.ioctl(other, termios.TIOCSWINSZ, struct.pack("4H", ROWS, COLUMNS, 0, 0))
    done = subprocess.Popen(words, cwd=folder, stdin=other, stdout=other, stderr=other, env=ENVIRONMENT)
    os.close(other)
    try:
        shown = received(terminal, folder / "begun" if waits else None)
        if waits:
            (folder / "go").touch()
            os.write(terminal, b"y\n")
            received(terminal, None)
        done.wait(timeout=programs.SECONDS)
    finally:
        done.kill()
        os.close(terminal)
    return shown


def in_pipe(words: Sequence[str], folder: pathlib.Path) -> bytes:
    """Builds with its output in a pipe, and returns what was written, as a terminal would get it."""
    done = subprocess.run(words, cwd=folder, stdin=subprocess.DEVNULL, stdout=subprocess.PIPE,
                          stderr=subprocess.STDOUT, env=ENVIRONMENT, timeout=programs.SECONDS)
    return done.stdout.replace(b"\n", b"\r\n")


class View(NamedTuple):
    """What a builder shows: the command of the user, the screen, and the rows that are drawn."""

    command: str
    screen: Coloured
    rows: range
    cursor: bool


def view(builder: str, scene: Scene) -> View:
    """Builds a scene, and returns what is shown."""
    words = [builder, "-j", str(scene.jobs)]
    with tempfile.TemporaryDirectory() as name:
        folder = pathlib.Path(name)
        scene.write(folder)
        shown = in_pipe(words, folder) if scene.piped else on_terminal(words, folder, scene.waits)
    screen = Coloured(shown, COLUMNS)
    command = " ".join([pathlib.Path(builder).name, *words[1:]]) + (" | cat" if scene.piped else "")
    rows = range(max(0, len(screen.rows) - ROWS), len(screen.rows))
    if scene.around:
        at = next(at for at, row in enumerate(screen.rows) if scene.around.encode() in row)
        rows = range(max(0, at - 4), min(at + 6, len(screen.rows)))  # a message of four lines, and some labels
    return View(command, screen, rows, not scene.piped)


# ---- pictures

FONT, SIZE = "DejaVuSansMono", 13
WIDE, HIGH, EDGE = 8, 16, 6  # pixels of a character, and of the margin
PAPER, INK, TITLE, CURSOR = "#1c1c1c", "#d0d0d0", "#3a4a5a", "#a0a0a0"
COLOURS = {31: "#ff5f5f", 32: "#5fd75f", 33: "#d7af5f", 35: "#d787ff", 36: "#5fd7d7"}
BOLD = 1


class Fonts(NamedTuple):
    """The font of a terminal."""

    normal: ImageFont.FreeTypeFont
    bold: ImageFont.FreeTypeFont


def fonts() -> Fonts:
    """Loads the font; ends this script if it is missing."""
    try:
        return Fonts(ImageFont.truetype(f"{FONT}.ttf", SIZE), ImageFont.truetype(f"{FONT}-Bold.ttf", SIZE))
    except OSError:
        sys.exit("tools/screens.py needs the font DejaVu Sans Mono: apt-get install fonts-dejavu-core")


class Canvas:
    """A picture of titles and other lines, which are drawn from the top."""

    def __init__(self, titles: int, lines: int, letters: Fonts) -> None:
        self.image = Image.new("RGB", (COLUMNS * WIDE + 2 * EDGE, titles * (HIGH + 3 * EDGE) + lines * HIGH), PAPER)
        self.draw = ImageDraw.Draw(self.image)
        self.letters, self.top = letters, 0

    def title(self, text: str) -> None:
        """Draws a line on a bar."""
        self.top += EDGE if self.top else 0
        self.draw.rectangle((0, self.top, self.image.width, self.top + HIGH + EDGE), fill=TITLE)
        self.draw.text((EDGE, self.top + EDGE // 2), text, font=self.letters.bold, fill="#ffffff")
        self.top += HIGH + 2 * EDGE

    def row(self, screen: Coloured, row: int, cursor: bool) -> None:
        """Draws a row of a screen, and the cursor if it is there."""
        if cursor and screen.row == row:
            left = EDGE + min(screen.column, COLUMNS - 1) * WIDE
            self.draw.rectangle((left, self.top, left + WIDE - 1, self.top + HIGH - 1), fill=CURSOR)
        for column, letter in enumerate(screen.rows[row].decode("latin-1")):
            codes = screen.styles.get((row, column), frozenset())
            ink = next((COLOURS[code] for code in codes if code in COLOURS), INK)
            font = self.letters.bold if BOLD in codes else self.letters.normal
            self.draw.text((EDGE + column * WIDE, self.top), letter, font=font, fill=ink)
        self.top += HIGH

    def save(self, path: pathlib.Path) -> None:
        """Writes the picture with a palette."""
        self.image.quantize(64, dither=0).save(path, optimize=True)


def draw(views: Sequence[View], letters: Fonts, path: pathlib.Path) -> None:
    """Draws screens one below the other."""
    canvas = Canvas(len(views), sum(len(shown.rows) for shown in views), letters)
    for shown in views:
        canvas.title(f"$ {shown.command}")
        for row in shown.rows:
            canvas.row(shown.screen, row, shown.cursor)
    canvas.save(path)


def main() -> None:
    parser = programs.parser(__doc__)
    parser.add_argument("program", metavar="PROGRAM", type=programs.program, help="plan_build, as make built it")
    parser.add_argument("folder", metavar="FOLDER", nargs="?", type=pathlib.Path,
                        default=ROOT / "docs" / "using" / "screens", help="of the pictures (docs/using/screens)")
    given = parser.parse_args()
    ninja = shutil.which("ninja")
    if not ninja:
        sys.exit("tools/screens.py needs ninja: apt-get install ninja-build")
    letters = fonts()
    given.folder.mkdir(parents=True, exist_ok=True)
    for name, scene in SCENES.items():
        draw([view(builder, scene) for builder in (given.program, ninja)], letters, given.folder / f"{name}.png")
        print(given.folder / f"{name}.png", flush=True)


if __name__ == "__main__":
    try:
        main()
    except KeyboardInterrupt:
        sys.exit(130)
