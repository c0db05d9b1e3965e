"""More projects of this repository's own that Meson configures and that can be built: a kind of edge in each."""
from __future__ import annotations

from real import trees
from real.buildable_cmake import ALWAYS, ASSEMBLER, JOINER, LINKED, MAKER, PRECOMPILED, TEMPLATES
from real.odd_names import but

GENERATED = {
    "meson.build": """\
project('generated', 'c')
maker = executable('maker', 'maker.c', native: true)
joiner = executable('joiner', 'joiner.c', native: true)
made = custom_target('made', output: 'made.h', input: 'numbers.txt', command: [maker, '@INPUT@', '@OUTPUT@'])
each = generator(maker, output: '@BASENAME@.made.h', arguments: ['@INPUT@', '@OUTPUT@', '@EXTRA_ARGS@'])
lists = generator(joiner, output: '@BASENAME@.joined.c', depfile: '@BASENAME@.joined.d',
  arguments: ['@INPUT@', '@OUTPUT@', '@DEPFILE@'])
here = {'here': meson.current_source_dir()}
configured = configure_file(input: 'list.txt.in', output: 'list.txt', configuration: here)
configure_file(input: 'three.txt.in', output: 'three.txt', configuration: here)
joined = custom_target('joined', output: 'joined.c', input: configured, depfile: 'joined.d',
  command: [joiner, '@INPUT@', '@OUTPUT@', '@DEPFILE@'])
captured = custom_target('captured', output: 'captured.h', input: 'sorted.txt', command: ['sort', '@INPUT@'], capture: true)
fed = custom_target('fed', output: 'fed.h', input: 'sorted.txt', command: ['sort', '-r'], feed: true, capture: true)
copied = custom_target('copied', output: 'copied.h', input: made, command: ['cp', '@INPUT@', '@OUTPUT@'], build_by_default: true)
library = static_library('library', 'library.c', joined, made, captured, fed, each.process('numbers.txt', 'other.txt'),
  lists.process(meson.current_build_dir() / 'three.txt'))
program = executable('program', 'main.c', link_with: library)
test('runs', program)
""",
    "maker.c": MAKER, "joiner.c": JOINER, "numbers.txt": "1 2 3\n", "other.txt": "4\n",
    "list.txt.in": "@here@/one.part\n@here@/two.part\n",
    "three.txt.in": "@here@/three.part\n", "three.part": "int three(void) { return 3; }\n",
    "one.part": "int one(void) { return 1; }\n", "two.part": "int two(void) { return 2; }\n",
    "sorted.txt": "#define SORTED 1\n",
    "library.c": """\
#include "made.h"
int made(void) { return SUM; }
#undef SUM
#include "other.made.h"
#include "captured.h"
#include "fed.h"
int library(void) { return SUM + SORTED; }
""",
    "main.c": "int one(void);\nint two(void);\nint library(void);\nint main(void) { return one() + two() + library() - 8; }\n",
}

# What always runs, and a header of a revision that mostly stays as it is.
ALWAYS_BY_MESON = {
    "meson.build": """\
project('always', 'c')
tag = vcs_tag(command: ['echo', '7'], input: 'revision.h.in', output: 'revision.h', fallback: '1')
first = static_library('first', 'first.c', tag)
program = executable('program', 'main.c', link_with: first)
custom_target('always', output: 'always.txt', command: ['touch', '@OUTPUT@'], build_always_stale: true, build_by_default: true)
custom_target('console', output: 'console.txt', command: ['touch', '@OUTPUT@'], console: true, build_by_default: true, depends: program)
run_target('say', command: ['echo', 'hello'])
alias_target('several', program)
""",
    "revision.h.in": "#define REVISION @VCS_TAG@\n",
    "first.c": ALWAYS["first.c"], "main.c": ALWAYS["main.c"],
}

SUBPROJECTS = {
    "meson.build": """\
project('outer', 'c', 'cpp', version: '1.2.3', default_options: ['cpp_std=c++17'])
inner = dependency('inner', fallback: ['inner', 'inner_dependency'])
settings = configure_file(input: 'settings.h.in', output: 'settings.h', configuration: {'VERSION': meson.project_version()})
subdir('library')
program = executable('program', 'main.cc', dependencies: [inner, library_dependency, dependency('threads')], install: true)
test('runs', program)
benchmark('slow', program)
install_headers('library/library.h', subdir: 'outer')
import('pkgconfig').generate(library.get_shared_lib())
""",
    "settings.h.in": "#define VERSION \"@VERSION@\"\n",
    "library/meson.build": """\
low = static_library('low', 'low.c', pic: true)
library = both_libraries('library', 'library.c', 'part.c', link_whole: low, version: '3.2.1', soversion: '3', install: true,
  link_args: '-Wl,--version-script,' + meson.current_source_dir() / 'a map.txt', link_depends: 'a map.txt')
objects = static_library('objects', objects: library.extract_objects('part.c'))
all_of_it = static_library('all_of_it', objects: low.extract_all_objects(recursive: true))
plugin = shared_module('plugin', 'plugin.c', name_prefix: '', name_suffix: 'plugin', link_with: library)
library_dependency = declare_dependency(link_with: library, include_directories: include_directories('.', '..'),
  compile_args: '-DUSED="$x y"')
""",
    "library/a map.txt": "{ global: *; };\n",
    "library/library.h": "#ifdef __cplusplus\nextern \"C\"\n#endif\nint library(void);\n",
    "library/low.c": "int low(void) { return 1; }\n",
    "library/part.c": "int part(void) { return 2; }\n",
    "library/library.c": "#include \"library.h\"\nint low(void);\nint part(void);\nint library(void) { return low() + part(); }\n",
    "library/plugin.c": "#include \"library.h\"\nint plugin(void) { return library(); }\n",
    "main.cc": "#include <inner.h>\n#include <library.h>\n#include <settings.h>\nint main() { return library() + inner() - 3 + (sizeof VERSION > 1 ? 0 : 1); }\n",
    "subprojects/inner/meson.build": """\
project('inner', 'c')
inner = static_library('inner', 'inner.c')
inner_dependency = declare_dependency(link_with: inner, include_directories: 'include')
""",
    "subprojects/inner/include/inner.h": "#ifdef __cplusplus\nextern \"C\"\n#endif\nint inner(void);\n",
    "subprojects/inner/inner.c": "int inner(void) { return 0; }\n",
}

ASSEMBLER_BY_MESON = {
    **ASSEMBLER, "CMakeLists.txt": "",
    "meson.build": """\
project('assembler', 'c')
start = static_library('start', 'start.S', include_directories: 'include')
other = static_library('other', 'other.s')
executable('program', 'main.c', link_with: [start, other])
""",
}

PRECOMPILED_BY_MESON = {
    **{name: text for name, text in PRECOMPILED.items() if name.startswith(("first", "common"))},
    "second.c": "#include <stddef.h>\nsize_t second(void) { return ONE; }\n",
    "pch/all.h": "#include \"../common.h\"\n", "pch/all.hh": "#include \"../common.h\"\n", "main.c": "int main(void) { return 0; }\n",
    "meson.build": """\
project('precompiled', 'c', 'cpp')
first = static_library('first', 'first.c', 'second.c', 'first.cc', c_pch: 'pch/all.h', cpp_pch: 'pch/all.hh')
in_unity = static_library('in_unity', 'first.c', 'second.c', c_args: ['-include', meson.current_source_dir() / 'common.h'],
  override_options: ['unity=on', 'unity_size=2'])
executable('program', 'main.c', link_with: first)
""",
}

LINKED_BY_MESON = {
    **{name: text for name, text in LINKED.items() if name != "CMakeLists.txt"},
    "meson.build": """\
project('linked', 'c')
low = static_library('low', 'low.c', pic: true)
map = meson.current_source_dir() / 'a map.txt'
middle = shared_library('middle', 'middle.c', link_whole: low, version: '3.2.1', link_depends: 'a map.txt',
  link_args: '-Wl,--version-script,' + map)
high = shared_library('high-named', 'high.c', link_with: middle, soversion: '9')
shared_module('module', 'module.c', name_prefix: '', name_suffix: 'plugin')
executable('a program', 'main.c', link_with: high, export_dynamic: true, build_rpath: '/opt/some where', install: true)
""",
}

TEMPLATES_BY_MESON = {
    **{name: text for name, text in TEMPLATES.items() if name != "CMakeLists.txt"},
    "meson.build": """\
project('templates', 'cpp', default_options: ['cpp_std=c++17', 'buildtype=debugoptimized'])
users = []
foreach number : range(1, 7)
  users += configure_file(input: 'user.cc.in', output: 'user@0@.cc'.format(number), configuration: {'number': number})
endforeach
executable('program', 'main.cc', users, include_directories: 'include', cpp_args: ['-DTEXT="a $b & \\'c\\'"', '-DDEBUGGING=1'])
""",
}

# Names that Meson takes for a source and its header.
NAMED = but("$", ":", "\\", "/", "*", "?", '"', "<", "|", "`", "日", "é", "'", "^", ";", "[", "{", "~", "!", "(", "&", "=", ",")


def named() -> dict[str, str]:
    files = {"main.c": "int main(void) { return 0; }\n"}
    for number, name in enumerate(NAMED):
        files[f"odd folder/{name}.h"] = f"#define NUMBER {number}\n"
        files[f"odd folder/{name}.c"] = f"#include \"{name}.h\"\nint named{number}(void) {{ return NUMBER; }}\n"
    sources = ", ".join(f"'odd folder/{name}.c'" for name in NAMED)
    files["meson.build"] = f"project('named', 'c')\nstatic_library('named', {sources})\nexecutable('program', 'main.c')\n"
    return files


tree = trees.of_tool("meson")
TREES = [
    tree("generated", GENERATED),
    tree("what always runs", ALWAYS_BY_MESON),
    tree("subprojects", SUBPROJECTS),
    tree("subprojects, static, -O2", SUBPROJECTS, "--default-library=static", "-Doptimization=2"),
    tree("assembler", ASSEMBLER_BY_MESON),
    tree("precompiled headers", PRECOMPILED_BY_MESON),
    tree("linked libraries", LINKED_BY_MESON),
    tree("templates", TEMPLATES_BY_MESON),
    tree("odd names", named()),
]
