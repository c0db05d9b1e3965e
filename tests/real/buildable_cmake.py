"""More projects of this repository's own that CMake configures and that can be built: a kind of edge in each."""
from __future__ import annotations

from real import trees
from real.odd_names import but

HEAD = "cmake_minimum_required(VERSION 3.20...3.31)\n"

# A program that writes the sum of the numbers in its input as a header.
MAKER = """\
#include <stdio.h>
int main(int count, char **words) {
    FILE *from = fopen(words[1], "r"), *to = fopen(words[2], "w");
    int number, sum = 0;
    if (count < 3 || !from || !to) return 1;
    while (fscanf(from, "%d", &number) == 1) sum += number;
    fprintf(to, "#define SUM %d\\n", sum);
    return fclose(to);
}
"""

# A program that joins the files that its input names, and writes a depfile of them.
JOINER = """\
#include <stdio.h>
int main(int count, char **words) {
    char name[4096];
    int byte;
    FILE *list = fopen(words[1], "r"), *to = fopen(words[2], "w"), *depfile = fopen(words[3], "w");
    if (count < 4 || !list || !to || !depfile) return 1;
    fprintf(depfile, "%s: %s", words[2], words[1]);
    while (fscanf(list, "%4095s", name) == 1) {
        FILE *part = fopen(name, "r");
        if (!part) return 1;
        while ((byte = fgetc(part)) != EOF) fputc(byte, to);
        fclose(part);
        fprintf(depfile, " \\\\\\n  %s", name);
    }
    fprintf(depfile, "\\n");
    return fclose(to) | fclose(depfile);
}
"""

FOLDERS = {
    "CMakeLists.txt": HEAD + """\
project(folders VERSION 2.1 LANGUAGES C CXX)
add_subdirectory(tables)
add_subdirectory(core)
add_subdirectory(programs)
""",
    "tables/CMakeLists.txt": """\
add_executable(maker maker.c)
add_custom_command(OUTPUT table.h table.c COMMAND maker "${CMAKE_SOURCE_DIR}/numbers.txt" table.h
    COMMAND "${CMAKE_COMMAND}" -E copy table.h table.c COMMAND "${CMAKE_COMMAND}" -E echo "int table = SUM;" >> table.c
    DEPENDS maker ../numbers.txt COMMENT "Making the table")
add_custom_target(table DEPENDS table.h)
add_library(tables STATIC table.c)
target_include_directories(tables PUBLIC "${CMAKE_CURRENT_BINARY_DIR}")
""",
    "tables/maker.c": MAKER,
    "core/CMakeLists.txt": """\
configure_file(version.h.in version.h)
add_library(parts OBJECT part.cc more/part.cc)
set_target_properties(parts PROPERTIES POSITION_INDEPENDENT_CODE ON)
add_library(core SHARED core.cc $<TARGET_OBJECTS:parts>)
set_target_properties(core PROPERTIES VERSION 2.1.0 SOVERSION 2)
target_include_directories(core PUBLIC include PRIVATE "${CMAKE_CURRENT_BINARY_DIR}")
add_dependencies(core table)
add_library(plugin MODULE plugin.cc)
target_link_libraries(plugin PRIVATE core)
""",
    "core/version.h.in": "#define VERSION \"@PROJECT_VERSION@\"\n",
    "core/include/core/core.h": "int core();\nint part();\nint other_part();\n",
    "core/part.cc": "int part() { return 1; }\n",
    "core/more/part.cc": "int other_part() { return 2; }\n",
    "core/core.cc": "#include <core/core.h>\n#include \"version.h\"\nint core() { return part() + other_part() + sizeof VERSION; }\n",
    "core/plugin.cc": "#include <core/core.h>\nextern \"C\" int plugin() { return core(); }\n",
    "programs/CMakeLists.txt": """\
add_library(headers INTERFACE)
target_include_directories(headers INTERFACE headers)
add_executable(program main.cc)
target_link_libraries(program PRIVATE core tables headers)
add_custom_command(TARGET program POST_BUILD COMMAND "${CMAKE_COMMAND}" -E copy $<TARGET_FILE:program> program.copy
    BYPRODUCTS program.copy)
add_executable(seldom EXCLUDE_FROM_ALL main.cc)
add_custom_command(OUTPUT said.txt COMMAND program > said.txt DEPENDS program)
add_custom_target(said ALL DEPENDS said.txt)
""",
    "programs/headers/greeting.h": "#define GREETING \"hello\"\n",
    "programs/main.cc": """\
#include <cstdio>
#include <core/core.h>
#include "greeting.h"
#include "table.h"
int main() { std::printf("%s %d %d\\n", GREETING, core(), SUM); }
""",
    "numbers.txt": "1 2 3\n",
}

# A command whose output stays as it is where nothing of it changed, and what is made of that.
UNCHANGED = {
    "CMakeLists.txt": HEAD + """\
project(unchanged LANGUAGES C)
include_directories("${CMAKE_CURRENT_BINARY_DIR}")
add_executable(maker maker.c)
add_custom_command(OUTPUT made.h COMMAND maker "${CMAKE_CURRENT_SOURCE_DIR}/numbers.txt" made.new
    COMMAND "${CMAKE_COMMAND}" -E copy_if_different made.new made.h DEPENDS maker numbers.txt)
add_custom_command(OUTPUT again.h COMMAND "${CMAKE_COMMAND}" -E copy_if_different made.h again.h DEPENDS made.h)
add_custom_command(OUTPUT last.c COMMAND "${CMAKE_COMMAND}" -E copy again.h last.c DEPENDS again.h)
add_library(first STATIC first.c made.h)
add_library(second STATIC second.c last.c again.h)
add_executable(program main.c)
target_link_libraries(program first second)
""",
    "maker.c": MAKER, "numbers.txt": "1 2 3\n",
    "first.c": "#include \"made.h\"\nint first(void) { return SUM; }\n",
    "second.c": "#include \"again.h\"\nint second(void) { return SUM; }\n",
    "main.c": "int first(void);\nint second(void);\nint main(void) { return first() - second(); }\n",
}

DEPFILES = {
    "CMakeLists.txt": HEAD + """\
project(depfiles LANGUAGES C)
add_executable(joiner joiner.c)
set(here "${CMAKE_CURRENT_SOURCE_DIR}")
configure_file(list.txt.in list.txt)
add_custom_command(OUTPUT joined.c COMMAND joiner list.txt joined.c joined.d DEPENDS joiner "${CMAKE_CURRENT_BINARY_DIR}/list.txt"
    DEPFILE joined.d)
add_subdirectory(inner)
add_executable(program main.c joined.c)
target_link_libraries(program inner)
""",
    "list.txt.in": "@here@/one.part\n@here@/two.part\n",
    "one.part": "int one(void) { return 1; }\n",
    "two.part": "int two(void) { return 2; }\n",
    "joiner.c": JOINER,
    "inner/CMakeLists.txt": """\
set(inner "${CMAKE_CURRENT_SOURCE_DIR}")
configure_file(list.txt.in list.txt)
add_custom_command(OUTPUT "in_folder/joined.c" COMMAND "${CMAKE_COMMAND}" -E make_directory in_folder
    COMMAND joiner list.txt "in_folder/joined.c" joined.d
    DEPENDS joiner "${CMAKE_CURRENT_BINARY_DIR}/list.txt" DEPFILE joined.d WORKING_DIRECTORY "${CMAKE_CURRENT_BINARY_DIR}" VERBATIM)
add_library(inner STATIC "${CMAKE_CURRENT_BINARY_DIR}/in_folder/joined.c")
""",
    "inner/list.txt.in": "@inner@/three.part\n",
    "inner/three.part": "int three(void) { return 3; }\n",
    "main.c": "int one(void);\nint two(void);\nint three(void);\nint main(void) { return one() + two() - three(); }\n",
}

# What always runs: with outputs, with none, on the terminal, in a pool, and behind a header that mostly stays as it is.
ALWAYS = {
    "CMakeLists.txt": HEAD + """\
project(always LANGUAGES C)
set_property(GLOBAL PROPERTY JOB_POOLS compiling=2 linking=1)
set(CMAKE_JOB_POOL_COMPILE compiling)
set(CMAKE_JOB_POOL_LINK linking)
include_directories("${CMAKE_CURRENT_BINARY_DIR}")
add_custom_target(revision COMMAND "${CMAKE_COMMAND}" -P "${CMAKE_CURRENT_SOURCE_DIR}/revision.cmake" BYPRODUCTS revision.h)
add_library(first STATIC first.c)
add_dependencies(first revision)
add_executable(program main.c)
target_link_libraries(program first)
add_custom_command(OUTPUT symbolic COMMAND "${CMAKE_COMMAND}" -E echo made > symbolic.txt)
set_source_files_properties(symbolic PROPERTIES SYMBOLIC TRUE)
add_custom_target(symbols ALL DEPENDS symbolic)
add_custom_target(on_terminal ALL COMMAND program USES_TERMINAL)
add_custom_target(seldom COMMAND program)
add_custom_target(both ALL)
add_dependencies(both symbols on_terminal)
""",
    "revision.cmake": """\
file(WRITE revision.new "#define REVISION 7\\n")
execute_process(COMMAND "${CMAKE_COMMAND}" -E copy_if_different revision.new revision.h)
""",
    "first.c": "#include \"revision.h\"\nint first(void) { return REVISION; }\n",
    "main.c": "int first(void);\nint main(void) { return first() - 7; }\n",
}

ASSEMBLER = {
    "CMakeLists.txt": HEAD + """\
project(assembler LANGUAGES C ASM)
include_directories(include)
add_library(start STATIC start.S other.s)
add_executable(program main.c)
target_link_libraries(program start)
""",
    "include/numbers.inc": "#define NUMBER 7\n",
    "start.S": """\
#include "numbers.inc"
.globl start
start:
    mov $NUMBER, %eax
    ret
.section .note.GNU-stack, "", @progbits
""",
    "other.s": ".globl other\nother:\n    mov $1, %eax\n    ret\n.section .note.GNU-stack, \"\", @progbits\n",
    "main.c": "int start(void);\nint other(void);\nint main(void) { return start() + other() - 8; }\n",
}

PRECOMPILED = {
    "CMakeLists.txt": HEAD + """\
project(precompiled LANGUAGES C CXX)
add_library(first STATIC first.c second.c first.cc)
target_precompile_headers(first PRIVATE common.h <stddef.h>)
add_library(again STATIC again.c again.cc)
target_precompile_headers(again REUSE_FROM first)
add_library(others SHARED others.cc)
target_precompile_headers(others PUBLIC "$<$<COMPILE_LANGUAGE:CXX>:<vector$<ANGLE-R>>" PRIVATE others.h)
add_executable(program main.cc)
target_link_libraries(program first again others)
""",
    "common.h": "#ifdef __cplusplus\nextern \"C\"\n#endif\nint first(void);\n#define ONE 1\n",
    "others.h": "int others();\n",
    "first.c": "int first(void) { return ONE; }\n",
    "second.c": "size_t second(void) { return ONE; }\n",
    "first.cc": "int first_of_two() { return first(); }\n",
    "again.c": "int again(void) { return ONE; }\n",
    "again.cc": "int again_of_two() { return first(); }\n",
    "others.cc": "int others() { return std::vector<int>(3).size(); }\n",
    "main.cc": "int others();\nint main() { return others() - 3; }\n",
}

# Scripts, versions and links between the files of libraries.
LINKED = {
    "CMakeLists.txt": HEAD + """\
project(linked LANGUAGES C)
set(map "${CMAKE_CURRENT_SOURCE_DIR}/a map.txt")
add_library(low STATIC low.c)
set_target_properties(low PROPERTIES POSITION_INDEPENDENT_CODE ON)
add_library(middle SHARED middle.c)
target_link_libraries(middle PRIVATE -Wl,--whole-archive low -Wl,--no-whole-archive)
set_target_properties(middle PROPERTIES VERSION 3.2.1 SOVERSION 3 LINK_DEPENDS "${map}")
target_link_options(middle PRIVATE "LINKER:--version-script,${map}")
add_library(high SHARED high.c)
target_link_libraries(high PUBLIC middle)
set_target_properties(high PROPERTIES SOVERSION 9 OUTPUT_NAME "high-named")
add_library(module MODULE module.c)
set_target_properties(module PROPERTIES PREFIX "" SUFFIX .plugin)
add_executable(program main.c)
target_link_libraries(program high ${CMAKE_DL_LIBS})
set_target_properties(program PROPERTIES ENABLE_EXPORTS ON BUILD_RPATH "/opt/some where" OUTPUT_NAME "a program")
install(TARGETS middle high program)
""",
    "a map.txt": "{ global: *; };\n",
    "common.h": "int low(void);\nint middle(void);\nint high(void);\n",
    **{f"{name}.c": f"#include \"common.h\"\nint {name}(void) {{ return {body}; }}\n"
       for name, body in (("low", "1"), ("middle", "low()"), ("high", "middle()"), ("module", "2"))},
    "main.c": "#include \"common.h\"\nint main(void) { return high() - 1; }\n",
}

# A project inside a project, which is configured and built by a command of the outer one.
INNER = {
    "CMakeLists.txt": HEAD + """\
project(outer LANGUAGES C)
include(ExternalProject)
ExternalProject_Add(inner SOURCE_DIR "${CMAKE_CURRENT_SOURCE_DIR}/inner" BINARY_DIR "${CMAKE_CURRENT_BINARY_DIR}/inner"
    INSTALL_COMMAND "" BUILD_BYPRODUCTS "<BINARY_DIR>/libinner.a")
add_executable(program main.c)
target_link_libraries(program "${CMAKE_CURRENT_BINARY_DIR}/inner/libinner.a")
add_dependencies(program inner)
""",
    "main.c": "int inner(void);\nint main(void) { return inner(); }\n",
    "inner/CMakeLists.txt": HEAD + "project(inner LANGUAGES C)\nadd_library(inner STATIC inner.c)\n",
    "inner/inner.c": "int inner(void) { return 0; }\n",
}

TEMPLATES = {
    "CMakeLists.txt": HEAD + """\
project(templates LANGUAGES CXX)
set(CMAKE_CXX_STANDARD 17)
add_library(shapes INTERFACE)
target_include_directories(shapes INTERFACE include)
foreach(number RANGE 1 6)
    configure_file(user.cc.in user${number}.cc @ONLY)
    list(APPEND users "${CMAKE_CURRENT_BINARY_DIR}/user${number}.cc")
endforeach()
add_executable(program main.cc ${users})
target_link_libraries(program PRIVATE shapes)
target_compile_definitions(program PRIVATE TEXT="a $b & 'c'" $<$<CONFIG:Debug>:DEBUGGING=1>)
""",
    "user.cc.in": "#include <shapes/shape.h>\nint user@number@() { return Shape<@number@>{}.size(); }\n",
    "include/shapes/shape.h": "#include <shapes/base.h>\ntemplate <int n> struct Shape { int size() { return n * BASE; } };\n",
    "include/shapes/base.h": "#pragma once\n#define BASE 1\n",
    "main.cc": "#include <shapes/shape.h>\n#include <cstring>\nint main() { return Shape<1>{}.size() + std::strlen(TEXT) - 11; }\n",
}

# Names that CMake takes for a source and its header, and that the compiler's depfile spells with escapes.
NAMED = but("$", ";", "\\", "[", "{", '"', ":", "*", "?", "<", "|", "`", "^", "~", "=", "'", "&", "!", "(", "日", "é", ",")


def named() -> dict[str, str]:
    files = {"main.c": "int main(void) { return 0; }\n"}
    for number, name in enumerate(NAMED):
        files[f"odd folder/{name}.h"] = f"#define NUMBER {number}\n"
        files[f"odd folder/{name}.c"] = f"#include \"{name}.h\"\nint named{number}(void) {{ return NUMBER; }}\n"
    sources = " ".join(f'"odd folder/{name}.c"' for name in NAMED)
    files["CMakeLists.txt"] = f"{HEAD}project(named LANGUAGES C)\nadd_library(named STATIC {sources})\nadd_executable(program main.c)\n"
    return files


tree = trees.of_tool("cmake")
TREES = [
    tree("folders", FOLDERS),
    tree("folders, several configurations", FOLDERS, "-G", "Ninja Multi-Config"),
    tree("unchanged outputs", UNCHANGED, short=True),
    tree("depfiles by hand", DEPFILES),
    tree("what always runs", ALWAYS),
    tree("assembler", ASSEMBLER),
    tree("precompiled headers", PRECOMPILED),
    tree("linked libraries", LINKED),
    tree("a project inside", INNER),
    tree("templates", TEMPLATES, "-DCMAKE_BUILD_TYPE=Debug"),
    tree("odd names", named()),
]
