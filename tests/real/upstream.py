"""Projects of Debian's source packages, fetched from the mirror that /etc/apt names into a folder of one's own; the system is not changed."""
from __future__ import annotations

import pathlib
import re
import shutil
import subprocess
from collections.abc import Callable, Iterator, Sequence

from lib import programs
from real.trees import Tree

SECONDS = 20
WIDTH = 300

# A source package, the tool, the folder of its project, and options that keep out what is seldom installed.
PROJECTS: list[tuple[str, ...]] = [
    ("zlib", "cmake", "."),
    ("lz4", "cmake", "build/cmake"),
    ("fmtlib", "cmake", ".", "-DFMT_TEST=OFF"),
    ("libpng1.6", "cmake", "."),
    ("libzstd", "cmake", "build/cmake", "-DZSTD_BUILD_TESTS=ON", "-DZSTD_BUILD_CONTRIB=ON"),
    ("libzstd", "meson", "build/meson"),
    ("googletest", "cmake", ".", "-Dgtest_build_tests=ON", "-Dgmock_build_tests=ON", "-Dgtest_build_samples=ON"),
    ("googletest", "cmake", ".", "-G", "Ninja Multi-Config"),
    ("json-c", "cmake", "."),
    ("pugixml", "cmake", ".", "-DPUGIXML_BUILD_TESTS=ON", "-DPUGIXML_BUILD_SHARED_AND_STATIC_LIBS=ON"),
    ("spdlog", "cmake", ".", "-DSPDLOG_BUILD_ALL=ON", "-DSPDLOG_BUILD_BENCH=OFF", "-DSPDLOG_BUILD_TESTS=OFF"),
    ("yaml-cpp", "cmake", ".", "-DYAML_CPP_BUILD_TESTS=OFF"),
    ("tinyxml2", "cmake", "."),
    ("abseil", "cmake", ".", "-DABSL_PROPAGATE_CXX_STD=ON"),
    ("libjpeg-turbo", "cmake", ".", "-DWITH_SIMD=OFF"),
    ("libuv1", "cmake", "."),
    ("freetype", "cmake", "."),
    ("freetype", "meson", "."),
    ("libjsoncpp", "cmake", "."),
    ("libjsoncpp", "meson", "."),
    ("dav1d", "meson", ".", "-Denable_asm=false"),
    ("libepoxy", "meson", ".", "-Degl=no", "-Dglx=no", "-Dx11=false"),
    ("wayland", "meson", ".", "-Ddocumentation=false", "-Ddtd_validation=false"),
    ("pixman", "meson", ".", "-Dgtk=disabled"),
    ("harfbuzz", "meson", ".", "-Dauto_features=disabled", "-Dtests=enabled"),
    ("fribidi", "meson", ".", "-Ddocs=false"),
    ("expat", "cmake", "expat", "-DEXPAT_BUILD_DOCS=OFF"),
    ("cjson", "cmake", ".", "-DENABLE_CJSON_UTILS=ON"),
    ("leveldb", "cmake", ".", "-DLEVELDB_BUILD_TESTS=OFF", "-DLEVELDB_BUILD_BENCHMARKS=OFF"),
    ("snappy", "cmake", ".", "-DSNAPPY_BUILD_TESTS=OFF", "-DSNAPPY_BUILD_BENCHMARKS=OFF"),
    ("double-conversion", "cmake", ".", "-DBUILD_TESTING=ON"),
    ("check", "cmake", "."),
    ("libyaml", "cmake", "."),
    ("brotli", "cmake", "."),
    ("inih", "meson", "."),
    ("lz4", "meson", "build/meson", "-Dprograms=true"),
]
TOO_LONG = ("abseil", "harfbuzz", "dav1d")  # to be built thrice
BUILT = [project for project in PROJECTS if project[0] not in TOO_LONG]
LEFT_OUT = {"zlib": ["win32/zlib1.rc"]}  # what Debian leaves out and a project wants to find


class Mirror:
    """Debian's source packages, by apt-get with lists, sources and cache below one folder."""

    def __init__(self, folder: pathlib.Path) -> None:
        self.folder, self.said = folder, ""
        for name in ("parts", "lists/partial", "cache/archives/partial"):
            (folder / name).mkdir(parents=True)
        for path in [pathlib.Path("/etc/apt/sources.list"), *pathlib.Path("/etc/apt/sources.list.d").glob("*")]:
            if path.suffix in (".list", ".sources") and path.is_file():
                (folder / "parts" / path.name).write_text(of_sources(path.read_text()))

    def run(self, *words: str) -> None:
        """Runs apt-get; keeps what it complains of."""
        places = {
            "Dir::Etc::SourceList": "/dev/null", "Dir::Etc::SourceParts": self.folder / "parts", "Dir::State::Lists": self.folder / "lists",
            "Dir::Cache": self.folder / "cache", "APT::Sandbox::User": "root", "Acquire::http::Timeout": SECONDS}
        options = [word for name, value in places.items() for word in ("-o", f"{name}={value}")]
        done = subprocess.run(["apt-get", "-q", *options, *words], cwd=self.folder, stdin=subprocess.DEVNULL,
                              stdout=subprocess.DEVNULL, stderr=subprocess.PIPE)
        self.said = " ".join(done.stderr.decode(errors="replace").split())

    def fetched(self, package: str) -> pathlib.Path | None:
        """Returns the folder of a package's sources as upstream published them, or None."""
        unpacked = self.folder / "unpacked" / package
        if not unpacked.exists():
            self.run("source", "--download-only", package)
            unpacked.mkdir(parents=True)
            for path in self.folder.glob(f"{package}_*.orig.tar.*"):
                if path.suffix != ".asc":
                    subprocess.run(["tar", "-xf", path, "-C", unpacked], stderr=subprocess.DEVNULL)
        return next(unpacked.iterdir(), None)


def of_sources(text: str) -> str:
    """Returns a list of package sources that names only source packages."""
    return re.sub(r"^deb(?=[ \t])", "deb-src", re.sub(r"^Types:.*$", "Types: deb-src", text, flags=re.MULTILINE), flags=re.MULTILINE)


def title(project: Sequence[str]) -> str:
    package, tool, _, *options = project
    return " ".join([package, "by", tool, *options])


def fetched(
    folder: pathlib.Path, wanted: Callable[[str], bool], skip: Callable[[str, str], None],
    projects: Sequence[tuple[str, ...]] = PROJECTS,
) -> Iterator[Tree]:
    """Yields the trees of upstream projects whose names are wanted, one after the other, as they are fetched."""
    projects = [project for project in projects if wanted(title(project))]
    if not projects:
        return
    if shutil.which("apt-get") is None:
        return skip("upstream projects", "without apt-get")
    mirror = Mirror(folder)
    mirror.run("update")
    if not any((folder / "lists").glob("*Sources*")):
        return skip("upstream projects", f"no mirror of source packages: {mirror.said[:WIDTH]}")
    for project in projects:
        package, tool, place, *options = project
        source = mirror.fetched(package)
        if source is None:
            skip(title(project), f"not fetched: {mirror.said[:WIDTH]}")
            continue
        programs.write({path: "" for path in LEFT_OUT.get(package, [])}, source)
        yield Tree(title(project), tool, source, *options, place=place)
