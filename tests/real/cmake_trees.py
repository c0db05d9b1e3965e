"""CMake projects that this repository writes itself."""
from __future__ import annotations

from real import trees
from real.odd_names import but

TOP = """\
cmake_minimum_required(VERSION 3.16...3.31)
project(shapes VERSION 1.2.3 LANGUAGES C CXX ASM)
set_property(GLOBAL PROPERTY JOB_POOLS compiling=4 linking=1 "generating=2")
set(CMAKE_JOB_POOL_COMPILE compiling)
set(CMAKE_JOB_POOL_LINK linking)
set(CMAKE_CXX_STANDARD 14)
include(CTest)
include(GNUInstallDirs)
add_compile_options(-Wall "SHELL:-include stddef.h" $<$<COMPILE_LANGUAGE:C>:-std=gnu11>)
add_subdirectory(libraries)
add_subdirectory(commands)
add_subdirectory(programs)
add_subdirectory("folder with blanks")
add_subdirectory(external)
include(CPack)
"""

LIBRARIES = """\
add_library(fixed STATIC one.c two.cc start.S)
set_target_properties(fixed PROPERTIES POSITION_INDEPENDENT_CODE ON)
add_library(shared SHARED one.c two.cc)
set_target_properties(shared PROPERTIES VERSION 1.2.3 SOVERSION 1 OUTPUT_NAME "named-otherwise" LINK_FLAGS "-Wl,--as-needed")
add_library(module MODULE one.c)
set_target_properties(module PROPERTIES PREFIX "" SUFFIX .plugin)
add_library(objects OBJECT one.c two.cc)
add_library(of_objects STATIC $<TARGET_OBJECTS:objects>)
add_library(interface INTERFACE)
target_include_directories(interface INTERFACE . "${CMAKE_CURRENT_BINARY_DIR}/with blank" SYSTEM INTERFACE /opt/none)
target_compile_definitions(interface INTERFACE FROM_INTERFACE=1 [[TEXT="a b $c & 'e'"]])
target_link_libraries(shared PUBLIC interface PRIVATE fixed m)
add_library(also::shared ALIAS shared)
add_library(outside SHARED IMPORTED)
set_target_properties(outside PROPERTIES IMPORTED_LOCATION /usr/lib/liboutside.so)
target_link_libraries(module PRIVATE outside)
add_library(in_unity STATIC one.c three.c four.c two.cc)
set_target_properties(in_unity PROPERTIES UNITY_BUILD ON UNITY_BUILD_BATCH_SIZE 2)
add_library(precompiled STATIC three.c four.c two.cc)
target_precompile_headers(precompiled PRIVATE common.h <stddef.h>)
add_library(precompiled_again STATIC three.c)
target_precompile_headers(precompiled_again REUSE_FROM precompiled)
set_source_files_properties(four.c PROPERTIES COMPILE_FLAGS "-O1 -DONLY=\\"four words here\\"" OBJECT_DEPENDS "${CMAKE_CURRENT_SOURCE_DIR}/common.h")
set_target_properties(of_objects PROPERTIES INTERPROCEDURAL_OPTIMIZATION ON)
install(TARGETS fixed EXPORT shapes)
install(TARGETS shared)
install(TARGETS module LIBRARY DESTINATION lib/plugins)
install(EXPORT shapes DESTINATION lib/cmake)
install(FILES common.h DESTINATION include)
"""

COMMANDS = """\
add_executable(maker maker.c)
configure_file(settings.h.in settings.h @ONLY)
add_custom_command(OUTPUT made.h made.c COMMAND maker made.h made.c DEPENDS maker input.txt COMMENT "Making a $header: 50% & more")
add_custom_command(OUTPUT "with blank.h" COMMAND ${CMAKE_COMMAND} -E touch "with blank.h" DEPENDS made.h VERBATIM)
add_custom_command(OUTPUT depending.c COMMAND cp "${CMAKE_CURRENT_SOURCE_DIR}/input.txt" depending.c DEPFILE depending.d BYPRODUCTS depending.d)
add_custom_command(OUTPUT quoted.c VERBATIM
  COMMAND echo "a b" "it's" "say \\"x\\"" [[$HOME]] "#" "&&" "a;b" "<in" ">out" "|" "*" "back\\\\slash" "" "%" "`pwd`" é > quoted.c
  COMMAND ${CMAKE_COMMAND} -E env "NAME=a b" true WORKING_DIRECTORY "${CMAKE_CURRENT_SOURCE_DIR}" JOB_POOL generating)
add_custom_command(OUTPUT bare.c COMMAND echo $$HOME a&&b > bare.c || true)
add_custom_command(OUTPUT never COMMAND true)
set_source_files_properties(never PROPERTIES SYMBOLIC TRUE)
add_library(with_made STATIC made.c depending.c quoted.c bare.c "with blank.h" never)
target_include_directories(with_made PUBLIC "${CMAKE_CURRENT_BINARY_DIR}")
add_custom_command(TARGET with_made PRE_BUILD COMMAND echo before $<TARGET_FILE:with_made>)
add_custom_command(TARGET with_made PRE_LINK COMMAND echo linking "$<CONFIG>")
add_custom_command(TARGET with_made POST_BUILD COMMAND echo "$<JOIN:$<TARGET_OBJECTS:with_made>, >" VERBATIM)
add_custom_target(always ALL COMMAND echo "always $<CONFIG>" BYPRODUCTS always.log SOURCES input.txt)
add_custom_target(on_terminal COMMAND echo hello USES_TERMINAL DEPENDS made.h)
add_custom_target(nothing)
add_dependencies(nothing always on_terminal)
"""

PROGRAMS = """\
add_executable(app main.cc)
target_link_libraries(app PRIVATE shared with_made interface)
set_target_properties(app PROPERTIES ENABLE_EXPORTS ON BUILD_RPATH "/opt/some where;$ORIGIN/../lib" INSTALL_RPATH "$ORIGIN/../lib")
target_compile_definitions(app PRIVATE NAME="x;y" AND=a&b DOLLAR=$x$$y QUOTE=it's)
target_compile_options(app PRIVATE "-DHASH=#1" [[-DTEXT="$b #c; d"]])
target_link_options(app PRIVATE "LINKER:--no-undefined,-z,now" LINKER:-rpath,\\$ORIGIN)
add_executable(bare EXCLUDE_FROM_ALL main.cc)
foreach(n RANGE 1 12)
  add_executable(test_${n} main.cc)
  target_link_libraries(test_${n} PRIVATE fixed)
  add_test(NAME test_number_${n} COMMAND test_${n} "$<TARGET_FILE:app>")
endforeach()
install(TARGETS app RUNTIME)
install(CODE "message(STATUS done)")
"""

EXTERNAL = """\
include(ExternalProject)
ExternalProject_Add(inner SOURCE_DIR "${CMAKE_CURRENT_SOURCE_DIR}/inner" INSTALL_COMMAND "" BUILD_BYPRODUCTS inner.a USES_TERMINAL_BUILD ON)
ExternalProject_Add_Step(inner checked COMMAND echo "checked a b" DEPENDEES build ALWAYS ON)
add_library(uses_inner STATIC ../libraries/one.c)
add_dependencies(uses_inner inner)
"""

SMALL = "cmake_minimum_required(VERSION 3.16...3.31)\nproject(small C)\n"

PROJECT = {
    "CMakeLists.txt": TOP,
    "libraries/CMakeLists.txt": LIBRARIES,
    **{f"libraries/{name}.c": f"int {name}(void) {{ return 0; }}\n" for name in ("one", "three", "four")},
    "libraries/two.cc": "int two() { return 2; }\n",
    "libraries/start.S": ".globl start\nstart:\n",
    "libraries/common.h": "#pragma once\n",
    "commands/CMakeLists.txt": COMMANDS,
    "commands/maker.c": "int main(void) { return 0; }\n",
    "commands/settings.h.in": "#define VERSION \"@PROJECT_VERSION@\"\n",
    "commands/input.txt": "int input;\n",
    "programs/CMakeLists.txt": PROGRAMS,
    "programs/main.cc": "int main() { return 0; }\n",
    "folder with blanks/CMakeLists.txt": "add_library(blank STATIC \"a b.c\" \"deeper one/c.c\")\n",
    "folder with blanks/a b.c": "int a;\n",
    "folder with blanks/deeper one/c.c": "int c;\n",
    "external/CMakeLists.txt": EXTERNAL,
    "external/inner/CMakeLists.txt": SMALL + "add_library(inner STATIC inner.c)\n",
    "external/inner/inner.c": "int inner;\n",
}

FORTRAN = {
    "CMakeLists.txt": "cmake_minimum_required(VERSION 3.16...3.31)\nproject(modules Fortran)\nadd_executable(app main.f90 part.f90)\n",
    "main.f90": "program main\n  use part\nend program\n",
    "part.f90": "module part\nend module\n",
}


def quoted(name: str) -> str:
    """A CMake argument in which nothing is expanded."""
    return "[==[" + name.replace(";", "\\;") + "]==]"


def odd_names() -> dict[str, str]:
    """Sources, outputs of commands, folders and definitions with odd names."""
    sources, made, folders = but("~first", "a:b", "${out}", "\\"), but("#", "<", "|", "\\", ";"), but("~first", "|", ";", "\\")
    top = [SMALL]
    for at, name in enumerate(sources):
        top.append(f"add_library(source{at} STATIC {quoted(name + '.c')})\n")
        top.append(f"set_target_properties(source{at} PROPERTIES OUTPUT_NAME {quoted(name)})\n")
        top.append(f"target_compile_definitions(source{at} PRIVATE {quoted('NAME=' + name)})\n")
    for at, name in enumerate(made):
        output = quoted(name + ".out")
        top.append(f"add_custom_command(OUTPUT {output} COMMAND cp {quoted('made.' + name)} {output} DEPENDS {quoted('made.' + name)} VERBATIM\n")
        top.append(f"  COMMENT {quoted('making ' + name)})\nadd_custom_target(made{at} ALL DEPENDS {output})\n")
    for name in folders:
        top.append(f"add_subdirectory({quoted('in.' + name)})\n")
    files = {"CMakeLists.txt": "".join(top), **{name + ".c": "" for name in sources}, **{"made." + name: "" for name in made}}
    for at, name in enumerate(folders):
        files[f"in.{name}/CMakeLists.txt"] = f"add_library(folder{at} STATIC a.c)\ntarget_include_directories(folder{at} PRIVATE .)\n"
        files[f"in.{name}/a.c"] = ""
    return files


def many_sources(count: int) -> dict[str, str]:
    """One library of many sources and a program beside it."""
    return trees.many_sources("CMakeLists.txt", count, lambda names:
        f"{SMALL}add_library(many SHARED {' '.join(names)})\nadd_executable(app main.c)\ntarget_link_libraries(app many)\n")


def part(n: int) -> str:
    """A library, a program that uses those of the folders above it, and a command."""
    used = " ".join(f"part{m}" for m in range(max(0, n - 3), n + 1))
    return (f"add_custom_command(OUTPUT made.c COMMAND echo {n} > made.c)\nadd_library(part{n} made.c given.c)\n"
            f"add_executable(app{n} main.c)\ntarget_link_libraries(app{n} {used})\n")


def many_targets(count: int) -> dict[str, str]:
    """Many folders with a few targets each."""
    return trees.many_folders("CMakeLists.txt", count, SMALL + "".join(f"add_subdirectory(part{n})\n" for n in range(count)), part)


SEVERAL = ("-G", "Ninja Multi-Config")
CROSS = ("-DCMAKE_CROSS_CONFIGS=all", "-DCMAKE_DEFAULT_BUILD_TYPE=Release", "-DCMAKE_DEFAULT_CONFIGS=all")
TOLD = ("-DCMAKE_EXPORT_COMPILE_COMMANDS=ON", "-DCMAKE_C_COMPILER_LAUNCHER=env;A=b c", "-DCMAKE_LINK_WHAT_YOU_USE=ON", "-DCMAKE_C_CLANG_TIDY=true;-x")
ABOVE = "rule CUSTOM_COMMAND\n  command = above $COMMAND\nsubninja lower/build.ninja\nbuild own: CUSTOM_COMMAND lower/all\n  COMMAND = true\n"

tree = trees.of_tool("cmake")

TREES = [
    tree("project", PROJECT, short=True),
    tree("project of several configurations", PROJECT, *SEVERAL, short=True),
    tree("project of crossed configurations", PROJECT, *SEVERAL, *CROSS),
    tree("project for debugging", PROJECT, "-DCMAKE_BUILD_TYPE=Debug", "-DBUILD_SHARED_LIBS=ON"),
    tree("project in unity", PROJECT, "-DCMAKE_BUILD_TYPE=Release", "-DCMAKE_UNITY_BUILD=ON", "-DCMAKE_INTERPROCEDURAL_OPTIMIZATION=ON"),
    tree("project with launchers", PROJECT, "-DCMAKE_BUILD_TYPE=MinSizeRel", *TOLD),
    tree("project by clang", PROJECT, "-DCMAKE_C_COMPILER=clang", "-DCMAKE_CXX_COMPILER=clang++", needs=("clang", "clang++")),
    tree("project with launchers of its tests", PROJECT, "-DCTEST_USE_LAUNCHERS=ON", "-DCMAKE_DEPENDS_USE_COMPILER=OFF"),
    tree("project in a subninja file", PROJECT, "-DCMAKE_NINJA_OUTPUT_PATH_PREFIX=lower", build="upper/lower", above=ABOVE),
    tree("project in an odd folder", PROJECT, build="b $in it's é & (x)"),
    tree("project with response files", PROJECT, "-DCMAKE_NINJA_FORCE_RESPONSE_FILE=ON", short=True),
    tree("odd names", odd_names(), short=True, needs=("cc",)),
    tree("many sources", many_sources(600), short=True, needs=("cc",)),
    tree("a wide link line", many_sources(4000), needs=("cc",)),
    tree("many targets", many_targets(400), needs=("cc",)),
    tree("many targets of several configurations", many_targets(40), *SEVERAL, needs=("cc",)),
    tree("Fortran modules", FORTRAN, needs=("gfortran",)),
]
