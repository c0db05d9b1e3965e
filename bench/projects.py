"""C projects as edges: one flat file, or a tree of files. manifests.py writes them for ninja, makefiles.py for make."""
from __future__ import annotations

from collections.abc import Iterable
from typing import Dict, NamedTuple

Variables = Dict[str, str]


class Edge(NamedTuple):
    rule: str
    outputs: list[str]
    inputs: list[str]
    implicit_outputs: list[str] = []
    implicit: list[str] = []
    order_only: list[str] = []
    variables: Variables = {}


class File(NamedTuple):
    """A file's own variables and edges, and the files that it includes, each with a scope of its own."""

    variables: Variables
    edges: list[Edge]
    taken_in: list[str] = []


class Project(NamedTuple):
    """Rules, as variables by name; the depths of pools; files by name, the first of which is `build`.

    `$name` stands for a variable.
    """

    rules: dict[str, Variables]
    pools: dict[str, int]
    files: dict[str, File]


VARIABLES = {
    "cflags": "-O2 -Wall -Wextra -std=c11", "ldflags": "-Wl,--as-needed", "builddir": "out", "cc": "gcc", "ar": "ar"}

RULES = {
    "compile": {"command": "$cc -MMD -MF $out.d $defines $includes $cflags $extra -c $in -o $out"},
    "archive": {"command": "rm -f $out && $ar crs $out $in"},
    "link": {"command": "$cc $cflags $ldflags $in -o $out $libs"},
}

SHARED = {
    "compile": {
        "depfile": "$out.d", "deps": "gcc",
        "command": "$cc $defines $includes $cflags $extra -MMD -MF $out.d -c $in -o $out",
        "description": "CC $out"},
    "archive": {"command": "rm -f $out && $ar crs $out $in", "description": "AR $out"},
    "link": {
        "pool": "link_pool", "command": "$cc $cflags $in -o $out $ldflags $libs", "description": "LINK $out",
        "restat": "1"},
    "generate": {"command": "python3 gen.py $in > $out", "restat": "1", "generator": "1"},
}


def compile_edge(number: int) -> Edge:
    module = number // 50
    name = f"src/m{module}/f{number}"
    variables = {"defines": f"-DMODULE={module} -DFILE={number}", "includes": f"-Iinclude -Isrc/m{module}"}
    return Edge("compile", [f"$builddir/{name}.o"], [f"{name}.c"], variables=variables)


def archive_edge(module: int) -> Edge:
    objects = [f"$builddir/src/m{module}/f{n}.o" for n in range(module * 50, module * 50 + 50)]
    return Edge("archive", [f"$builddir/lib{module}.a"], objects)


def flat(count: int) -> Project:
    """This many edges, one in 51 of them an archive of the 50 objects above it."""
    edges = []
    modules, more = divmod(count, 51)
    for module in range(modules):
        edges += [compile_edge(n) for n in range(module * 50, module * 50 + 50)]
        edges.append(archive_edge(module))
    edges += [compile_edge(n) for n in range(modules * 50, modules * 50 + more)]
    return Project(RULES, {}, {"build": File(VARIABLES, edges)})


def module_file(module: int, sources: Iterable[int]) -> File:
    """A module: its own variables, its sources with a header of their own, an archive and a program."""
    name, headers = f"$builddir/m{module}", ["headers"]
    objects = [f"{name}/f{n}.o" for n in sources]
    own = [f"src/m{module}/all.h"]
    edges = [
        Edge("compile", [path], [f"src/m{module}/f{n}.c"], [], own, headers, {"defines": f"-DFILE={n}"})
        for n, path in zip(sources, objects)]
    edges.append(Edge("archive", [f"{name}.a"], objects))
    link = Edge("link", [f"{name}/run"], objects[:1], [f"{name}/run.map"], [f"{name}.a"], headers, {"libs": "-lm"})
    edges.append(link)
    return File({"cflags": f"-O2 -Wall -DMODULE={module}", "includes": f"-Iinclude -Isrc/m{module}"}, edges)


def tree(count: int) -> Project:
    """About this many edges: a module of 48 sources in each file that is included."""
    numbers = range(max(1, count // 50))
    modules = {f"m{module}": module_file(module, range(module * 48, module * 48 + 48)) for module in numbers}
    made = [
        Edge("generate", ["$builddir/config.h"], ["config.in"], [], ["gen.py"]),
        Edge("phony", ["headers"], ["$builddir/config.h"])]
    return Project(SHARED, {"link_pool": 4}, {"build": File(VARIABLES, made, list(modules)), **modules})
