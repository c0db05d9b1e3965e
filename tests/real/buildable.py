"""Projects of this repository's own that can be built by CMake and Meson: what a build makes depends on each source."""
from __future__ import annotations

from real import buildable_cmake, buildable_meson, trees

TOP = """\
cmake_minimum_required(VERSION 3.16...3.31)
project(built LANGUAGES C CXX)
include(CTest)
configure_file(settings.h.in settings.h @ONLY)
include_directories("${CMAKE_CURRENT_BINARY_DIR}" include)
add_executable(maker maker.c)
set(here "${CMAKE_CURRENT_SOURCE_DIR}")
add_custom_command(OUTPUT made.h COMMAND maker "${here}/numbers.txt" made.h DEPENDS maker numbers.txt)
add_custom_command(OUTPUT copied.h COMMAND "${CMAKE_COMMAND}" -E copy_if_different "${here}/given.h" copied.h
    DEPENDS given.h)
add_library(first one.c two.c made.h)
add_library(second SHARED three.c copied.h)
add_library(objects OBJECT four.cc)
add_executable(program main.c $<TARGET_OBJECTS:objects>)
set_target_properties(program PROPERTIES LINKER_LANGUAGE CXX)
target_link_libraries(program first second)
add_custom_target(listing ALL COMMAND "${CMAKE_COMMAND}" -E echo listed > listing.txt BYPRODUCTS listing.txt)
add_test(NAME runs COMMAND program)
install(TARGETS program second)
"""

SOURCES = {
    "settings.h.in": "#define SETTING \"@CMAKE_BUILD_TYPE@\"\n",
    "numbers.txt": "1 2 3\n",
    "given.h": "#define GIVEN 7\n",
    "include/common.h": """\
int one(void);
int two(void);
int three(void);
#ifdef __cplusplus
extern "C"
#endif
int four(void);
""",
    "maker.c": """\
#include <stdio.h>
int main(int count, char **words) {
    FILE *from = fopen(words[1], "r"), *to = fopen(words[2], "w");
    int number, sum = 0;
    if (count < 3 || !from || !to) return 1;
    while (fscanf(from, "%d", &number) == 1) sum += number;
    fprintf(to, "#define SUM %d\\n", sum);
    return fclose(to);
}
""",
    "one.c": "#include \"common.h\"\n#include \"made.h\"\nint one(void) { return SUM; }\n",
    "two.c": "#include \"common.h\"\n#include \"settings.h\"\nint two(void) { return sizeof SETTING > 0 ? 1 : 0; }\n",
    "three.c": "#include \"common.h\"\n#include \"copied.h\"\nint three(void) { return GIVEN; }\n",
    "four.cc": "#include \"common.h\"\nint four(void) { return 4; }\n",
    "main.c": "#include \"common.h\"\nint main(void) { return one() + two() + three() + four() == 18 ? 0 : 1; }\n",
}

MANY = """\
cmake_minimum_required(VERSION 3.16...3.31)
project(many LANGUAGES C)
include_directories(include)
foreach(library RANGE 1 6)
    set(sources "")
    foreach(part RANGE 1 8)
        list(APPEND sources "l${library}_${part}.c")
    endforeach()
    add_library(l${library} STATIC ${sources})
endforeach()
add_executable(all_of_them main.c)
target_link_libraries(all_of_them l1 l2 l3 l4 l5 l6)
"""


def many() -> dict[str, str]:
    """Six libraries of eight sources, with headers that several share."""
    files = {"CMakeLists.txt": MANY, "main.c": '#include "h1.h"\nint main(void) { return BASE1 - 1; }\n'}
    for library in range(1, 7):
        files[f"include/h{library}.h"] = f"#define BASE{library} {library}\n"
        for part in range(1, 9):
            includes = "".join(f'#include "h{number}.h"\n' for number in range(1, library + 1))
            body = f"int f{library}_{part}(void) {{ return BASE{library} + {part}; }}\n"
            files[f"l{library}_{part}.c"] = includes + body
    return files


MESON = """\
project('built', 'c', 'cpp', version: '1.0')
settings = configure_file(output: 'settings.h', configuration: {'SETTING': '"' + get_option('buildtype') + '"'})
headers = include_directories('include', '.')
maker = executable('maker', 'maker.c', native: true)
made = custom_target('made', output: 'made.h', input: 'numbers.txt', command: [maker, '@INPUT@', '@OUTPUT@'])
copied = custom_target('copied', output: 'copied.h', input: 'given.h', command: ['cp', '@INPUT@', '@OUTPUT@'])
first = static_library('first', 'one.c', 'two.c', made, settings, include_directories: headers)
second = shared_library('second', 'three.c', copied, include_directories: headers, install: true)
program = executable('program', 'main.c', 'four.cc', link_with: [first, second], include_directories: headers,
  install: true)
test('runs', program)
"""

ONE = {"CMakeLists.txt": TOP, **SOURCES}
ONE_BY_MESON = {"meson.build": MESON, **SOURCES}
tree = trees.of_tool("cmake")
by_meson = trees.of_tool("meson")
TREES = [
    tree("built", ONE, short=True),
    tree("built, Release", ONE, "-DCMAKE_BUILD_TYPE=Release"),
    tree("built, all shared", ONE, "-DBUILD_SHARED_LIBS=ON", "-DCMAKE_BUILD_TYPE=Debug"),
    tree("built by unity", ONE, "-DCMAKE_UNITY_BUILD=ON"),
    tree("many", many()),
    tree("many, -O2", many(), "-DCMAKE_C_FLAGS=-O2"),
    by_meson("built", ONE_BY_MESON, short=True),
    by_meson("built, release, static", ONE_BY_MESON, "--buildtype=release", "--default-library=static"),
    by_meson("built in unity", ONE_BY_MESON, "-Dunity=on"),
    *buildable_cmake.TREES,
    *buildable_meson.TREES,
]
