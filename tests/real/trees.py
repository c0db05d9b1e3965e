"""Build trees: how one is made and with which tool."""
from __future__ import annotations

import os
import pathlib
import shutil
import subprocess
from collections.abc import Callable, Mapping, Sequence
from typing import Any

from lib import programs

SECONDS = 300


class Tree:
    """Sources (texts by path, or a folder that is there), the tool that makes their manifests, and its options.

    The project is in the folder `place` of the sources. Where there is a text `above`, it is the manifest of the folder
    above the build folder, and stands for the whole.
    """

    def __init__(
        self, name: str, tool: str, files: Mapping[str, str] | pathlib.Path, *options: str, short: bool = False,
        needs: Sequence[str] = (), build: str = "build", above: str | None = None,
        environment: Mapping[str, str] | None = None, place: str = ".",
    ) -> None:
        self.name, self.tool, self.files, self.options, self.short = name, tool, files, options, short
        self.needs, self.build, self.above, self.environment = [tool, *needs], build, above, environment or {}
        self.own, self.place = not isinstance(files, pathlib.Path), place


COMPILERS = ("cc", "c++")


def of_tool(tool: str) -> Callable[..., Tree]:
    """Makes trees of a tool, which need compilers of C and C++ where nothing else is said."""
    def tree(
        name: str, files: Mapping[str, str], *options: str, needs: Sequence[str] = COMPILERS, **more: Any,
    ) -> Tree:
        return Tree(f"{tool} {name}", tool, files, *options, needs=needs, **more)

    return tree


def many_sources(manifest: str, count: int, text: Callable[[list[str]], str]) -> dict[str, str]:
    """Returns the files of one folder: a manifest, whose text is made of the names of its sources, and these."""
    names = [f"part{n // 50}/file{n}.c" for n in range(count)]
    return {manifest: text(names), "main.c": "", **{name: "" for name in names}}


def many_folders(manifest: str, count: int, top: str, text: Callable[[int], str]) -> dict[str, str]:
    """Returns a manifest above many folders, each with its own manifest and two sources."""
    files = {manifest: top}
    for n in range(count):
        files[f"part{n}/{manifest}"] = text(n)
        files[f"part{n}/given.c"] = files[f"part{n}/main.c"] = ""
    return files


class NotConfigured(Exception):
    """The tool failed, or wrote no manifest; what it said."""


def say_left_out(name: str, why: str) -> None:
    """Prints that a tree is left out."""
    print(f"{name}: left out, {why}", flush=True)


def lacking(tree: Tree) -> list[str]:
    """Returns the programs that a tree needs and that are missing here."""
    return [name for name in tree.needs if shutil.which(name) is None]


def command(tree: Tree, source: pathlib.Path, build: pathlib.Path) -> list[str]:
    """Returns the tool's words; `@source@` in an option is the folder of the sources."""
    options = [option.replace("@source@", str(source)) for option in tree.options]
    if tree.tool == "cmake":
        generator = [] if "-G" in options else ["-G", "Ninja"]
        return ["cmake", "-Wno-dev", *generator, "-S", str(source), "-B", str(build), *options]
    return ["meson", "setup", *options, str(build), str(source)]


def configured(tree: Tree, folder: pathlib.Path) -> pathlib.Path:
    """Makes a tree's sources and manifests below a folder; gives the folder of the manifests."""
    source, build = folder / "source", folder / tree.build
    if tree.own:
        programs.write(tree.files, source)
    else:
        source = tree.files
    environment = {**os.environ, "LC_ALL": "C.UTF-8", **tree.environment}
    done = subprocess.run(command(tree, source / tree.place, build), env=environment, stdin=subprocess.DEVNULL,
                          stdout=subprocess.PIPE, stderr=subprocess.STDOUT, timeout=SECONDS)
    if done.returncode != 0 or not manifests(build):
        raise NotConfigured(done.stdout.decode(errors="replace").strip())
    if tree.above is None:
        return build
    programs.write({"build.ninja": tree.above}, build.parent)
    return build.parent


def manifests(folder: pathlib.Path) -> list[str]:
    """Returns the manifests of a build folder: CMake writes one for each of several configurations."""
    return sorted(path.name for path in folder.glob("build*.ninja"))
