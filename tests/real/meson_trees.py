"""Meson projects that this repository writes itself."""
from __future__ import annotations

from real import trees
from real.odd_names import but

TOP = """\
project('shapes', 'c', 'cpp', version: '1.2.3', default_options: ['warning_level=2', 'cpp_std=c++14'], subproject_dir: 'subprojects')
add_project_arguments('-DTEXT="a b $c #d & \\'e\\'; f"', '-DBLANK= ', language: 'c')
add_project_link_arguments('-Wl,--as-needed', language: ['c', 'cpp'])
python = import('python').find_installation()
settings = configure_file(output: 'settings.h', configuration: {'VERSION': meson.project_version()})
subdir('libraries')
subdir('commands')
subdir('programs')
subdir('folder with blanks')
inner = subproject('inner').get_variable('inner')
executable('outer', 'programs/main.cc', dependencies: inner)
summary('done', true)
"""

LIBRARIES = """\
fixed = static_library('fixed', 'one.c', 'two.cc', 'start.S', pic: true)
dynamic = shared_library('dynamic', 'one.c', 'two.cc', version: '1.2.3', soversion: '1', link_with: fixed, install: true)
module = shared_module('module', 'one.c', name_prefix: '', name_suffix: 'plugin', install: true)
twice = both_libraries('twice', 'three.c', link_whole: fixed)
extracted = get_option('unity') == 'on' ? [] : fixed.extract_objects('one.c')
of_objects = static_library('of_objects', 'three.c', objects: extracted)
of_all = static_library('of_all', objects: twice.extract_all_objects(recursive: true))
precompiled = static_library('precompiled', 'three.c', 'four.c', c_pch: 'pch/common.h')
in_unity = static_library('in_unity', 'one.c', 'three.c', 'four.c', override_options: ['unity=on', 'unity_size=2'])
versioned = shared_library('versioned', 'four.c', link_args: '-Wl,--version-script,' + meson.current_source_dir() / 'a map.txt', link_depends: 'a map.txt')
library_dependency = declare_dependency(link_with: dynamic, include_directories: include_directories('.', 'with blank'), compile_args: '-DUSED="$x y"')
import('pkgconfig').generate(dynamic)
install_headers('common.h', subdir: 'shapes')
"""

COMMANDS = """\
maker = executable('maker', 'maker.c', native: true)
made = custom_target('made', output: ['made.h', 'made.c'], input: 'input.txt', command: [maker, '@OUTPUT@', '@INPUT@'], install: true,
  install_dir: ['include', false])
captured = custom_target('captured $ it\\'s', output: 'captured & #.h', input: 'input.txt', command: ['cat', '@INPUT@'], capture: true)
fed = custom_target('fed', output: 'fed.txt', input: 'input.txt', command: ['sort'], feed: true, capture: true, env: {'NAME': 'a b'})
depending = custom_target('depending', output: 'depending.c', input: 'input.txt', depfile: 'depending.d', depend_files: '../libraries/common.h',
  command: [python, '-c', 'import sys; print("$x", sys.argv)', '@INPUT@', '@OUTPUT@', '@DEPFILE@', 'a b', '*', ';', '"', 'back\\\\slash', ''])
custom_target('always', output: 'always.txt', command: ['touch', '@OUTPUT@'], build_always_stale: true, build_by_default: true, console: true)
custom_target('lines', output: 'lines.txt', command: ['printf', 'one\\ntwo', '@OUTPUT@'], depends: made)
each = generator(maker, output: ['@BASENAME@.made.c', '@BASENAME@.made.h'], arguments: ['@INPUT@', '@OUTPUT0@', '@OUTPUT1@', '@EXTRA_ARGS@'])
lists = generator(find_program('cp'), output: '@PLAINNAME@.list', depfile: '@BASENAME@.d', arguments: ['--', '@INPUT@', '@OUTPUT@'])
with_made = static_library('with_made', made, depending, captured, settings,
  each.process('input.txt', 'a b.txt', extra_args: ['-x', 'y z']), lists.process('input.txt', preserve_path_from: meson.current_source_dir()))
run_target('hello', command: ['echo', 'hello $USER', '&&', '#'], depends: made)
alias_target('several', made, fed)
vcs_tag(input: 'tag.h.in', output: 'tag.h', fallback: 'none')
"""

PROGRAMS = """\
app = executable('app', 'main.cc', link_with: with_made, dependencies: [library_dependency, dependency('threads')], export_dynamic: true,
  install: true, install_rpath: '$ORIGIN/../lib', build_rpath: '/opt/some where')
executable('not by default', 'main.cc', build_by_default: false)
foreach number : range(12)
  program = executable('test@0@'.format(number), 'main.cc', link_with: fixed)
  test('test number @0@'.format(number), program, args: [app, 'a b'], suite: 'odd: suite')
endforeach
benchmark('slow', app)
"""

INNER = "project('inner', 'c')\ninner = declare_dependency(link_with: static_library('inner', 'inner.c'), include_directories: '.')\n"

PROJECT = {
    "meson.build": TOP,
    "libraries/meson.build": LIBRARIES,
    **{f"libraries/{name}.c": f"int {name}(void) {{ return 0; }}\n" for name in ("one", "three", "four")},
    "libraries/two.cc": "int two() { return 2; }\n",
    "libraries/start.S": ".globl start\nstart:\n",
    "libraries/common.h": "#pragma once\n",
    "libraries/with blank/common.h": "#pragma once\n",
    "libraries/pch/common.h": "#pragma once\n",
    "libraries/a map.txt": "{ global: *; };\n",
    "commands/meson.build": COMMANDS,
    "commands/maker.c": "int main(void) { return 0; }\n",
    **{f"commands/{name}": "int input;\n" for name in ("input.txt", "a b.txt")},
    "commands/tag.h.in": "@VCS_TAG@\n",
    "programs/meson.build": PROGRAMS,
    "programs/main.cc": "int main() { return 0; }\n",
    "folder with blanks/meson.build": "static_library('blank', 'a b.c', 'deeper one/c.c')\n",
    "folder with blanks/a b.c": "int a;\n",
    "folder with blanks/deeper one/c.c": "int c;\n",
    "subprojects/inner/meson.build": INNER,
    "subprojects/inner/inner.c": "int inner;\n",
}


def quoted(name: str) -> str:
    return "'" + name.replace("\\", "\\\\").replace("'", "\\'") + "'"


def odd_names() -> dict[str, str]:
    """Sources, outputs of commands, folders and arguments with odd names."""
    sources, made, folders = but(), but("|", "\\"), but("|", "\\")
    top = ["project('odd', 'c')\n"]
    for at, name in enumerate(sources):
        top.append(f"static_library('source{at}', {quoted(name + '.c')}, c_args: {quoted('-DNAME=' + name)})\n")
    for at, name in enumerate(made):
        top.append(f"custom_target('made{at}', input: {quoted('made.' + name)}, output: {quoted(name + '.out')},\n")
        top.append(f"  command: ['cp', '@INPUT@', '@OUTPUT@', {quoted(name)}], build_by_default: true)\n")
    files = {**{name + ".c": "" for name in sources}, **{"made." + name: "" for name in made}}
    for at, name in enumerate(folders):
        top.append(f"subdir({quoted('in.' + name)})\n")
        files[f"in.{name}/meson.build"] = f"static_library('folder{at}', 'a.c', include_directories: '.')\n"
        files[f"in.{name}/a.c"] = ""
    return {"meson.build": "".join(top), **files}


def many_sources(count: int) -> dict[str, str]:
    """One library of many sources and a program beside it."""
    return trees.many_sources("meson.build", count, lambda names:
        f"project('many', 'c')\nmany = shared_library('many', {', '.join(map(quoted, names))})\nexecutable('app', 'main.c', link_with: many)\n")


def part(n: int) -> str:
    """A library, a program that uses it, and a command."""
    return (f"made = custom_target('made{n}', output: 'made{n}.c', command: ['touch', '@OUTPUT@'])\n"
            f"part = static_library('part{n}', made, 'given.c')\nexecutable('app{n}', 'main.c', link_with: part)\n")


def many_targets(count: int) -> dict[str, str]:
    """Many folders with a few targets each."""
    return trees.many_folders("meson.build", count, "project('many', 'c')\n" + "".join(f"subdir('part{n}')\n" for n in range(count)), part)


tree = trees.of_tool("meson")

CROSS = """\
[binaries]
c = ['cc', '-m64']
cpp = ['c++', '-m64']
ar = 'ar'
strip = 'strip'
[host_machine]
system = 'linux'
cpu_family = 'x86_64'
cpu = 'x86_64'
endian = 'little'
"""

TREES = [
    tree("project", PROJECT, "-Dbackend_max_links=2", short=True),
    tree("project in unity", PROJECT, "--buildtype=release", "-Dunity=on", "-Db_lto=true", "-Db_pch=false"),
    tree("project flat and static", PROJECT, "--layout=flat", "--default-library=static", "-Db_staticpic=false", "--strip"),
    tree("project with coverage", PROJECT, "--buildtype=plain", "-Db_coverage=true", "-Db_sanitize=address", "-Db_lundef=false"),
    tree("project by clang", PROJECT, needs=("clang", "clang++"), environment={"CC": "clang", "CXX": "clang++", "CFLAGS": "-DA='b c'"}),
    tree("project for another machine", {**PROJECT, "cross.txt": CROSS}, "--cross-file=@source@/cross.txt"),
    tree("project in an odd folder", PROJECT, build="b $in it's #é & (x)"),
    tree("project with response files", PROJECT, environment={"MESON_RSP_THRESHOLD": "0"}),
    tree("odd names", odd_names(), short=True, needs=("cc",)),
    tree("many sources", many_sources(600), needs=("cc",)),
    tree("a wide link line", many_sources(4000), needs=("cc",)),
    tree("many targets", many_targets(200), needs=("cc",)),
]
