#!/usr/bin/env python3
"""Builds the library for C and C++, build/lib/libdrillolive.a and build/lib/libdrillolive.so, and tests it.

    tools/build_library.py
    tools/build_library.py --test
    tools/build_library.py --after-gate --test

`rt lib` proves the exports of crates/far_c first, with all crates below, and builds their archive. With `--after-gate` the
crates below are the libraries that `.ci/run` proved and left in this checkout. With `--archive FILE` the archive is the
caller's, and the libraries go to build/given. The script compiles the C code of bindings/c, and joins it with the archive and
with the toolchain's code of the heap. Both libraries hide all symbols but `drillolive_*`.

`--test` runs the tests of bindings/c/test in C, under AddressSanitizer and the sanitizer of undefined behaviour too, and in
C++ with exceptions and without. It runs the examples of examples/c and examples/cpp. It skips what a compiler lacks, and says
so in a line. The last line is then `the library: N programs passed`.

The exit status is 0 where all is built and passed. It is 0 too where there is no C compiler, with a line that says so. It is 1
where a build or a test fails, and 2 where the exports could not be proved and built.
"""

from __future__ import annotations

import argparse
import os
import shutil
import subprocess
import sys
from pathlib import Path
from typing import Any, Iterable

from paths import PROGRAM, TOP

CRATE = TOP / "crates/far_c"
SOURCES = TOP / "bindings/c"
TESTS = SOURCES / "test"
BUILD = TOP / "build"
C = ["-std=c11", "-Wall", "-Wextra", "-Werror", f"-I{TOP / 'include'}"]
CXX = ["-std=c++17", "-Wall", "-Wextra", "-Werror", f"-I{TOP / 'include'}"]
OPTIMISED = ["-O3", "-fPIC"]
SANITIZED = ["-g", "-O1", "-fsanitize=address,undefined", "-fno-sanitize-recover=all"]
WRAPPED = ["-Wl,--wrap=malloc,--wrap=realloc"]
TEST_FILES = ["test.c", "rows.c", "misuse.c", "refuse.c", "random.c"]


class Failed(Exception):
    """A command that failed, or a thing that is missing, and the exit status for it."""

    def __init__(self, what: str, status: int = 1):
        super().__init__(what)
        self.status = status


def run(words: Iterable[str | int | Path], **options: Any) -> str:
    """Runs a command, whose words may be paths, and returns what it prints."""
    words = [str(word) for word in words]
    done = subprocess.run(words, stdout=subprocess.PIPE, stderr=subprocess.STDOUT, universal_newlines=True, **options)
    if done.returncode != 0:
        raise Failed(f"{' '.join(words)}\n{done.stdout}ended with status {done.returncode}")
    return done.stdout


def compiler(variable: str, name: str) -> list[str] | None:
    """The compiler that an environment variable names, or else this one; None where it is not there."""
    words = os.environ.get(variable, name).split()
    return words if words and shutil.which(words[0]) else None


def prove_exports() -> Path:
    """Proves the exports, and returns their archive."""
    if not shutil.which("rt"):
        raise Failed("the exports cannot be proved: the command rt of the toolchain is missing", 2)
    if not CRATE.is_dir():
        raise Failed(f"the exports cannot be proved: there is no folder {CRATE}", 2)
    try:
        run(["rt", "lib"], cwd=CRATE)
    except Failed as fault:
        raise Failed(str(fault), 2)
    return CRATE / "out/libfar_c.a"


def libraries_of(name: str) -> list[str]:
    """The crates that a line of crates.txt lists."""
    for line in (TOP / "crates.txt").read_text(encoding="utf-8").splitlines():
        head, _, rest = line.partition(":")
        if head.split()[:1] == [name]:
            return rest.split()
    raise Failed(f"crates.txt has no line for {name}", 2)


def built(name: str) -> Path:
    """The library of a crate that the gate proved and left, or one of the toolchain's."""
    left = TOP / f"crates/{name}/out/rlib/{name}.rlib"
    kit = toolchain() / f"rlibs/{name}.rlib"
    found = next((path for path in (left, kit) if path.is_dir()), None)
    if found is None:
        raise Failed(f"the library of {name} is missing: .ci/run leaves it", 2)
    return found


def prove_over_libraries() -> Path:
    """Proves the exports over the libraries that the gate left, and returns their archive. It calls the toolchain's checker
    itself, since `rt lib` takes no library that the gate left."""
    kit, archive = toolchain(), CRATE / "out/libfar_c.a"
    words = [kit / "bin/rattle", "build", "--crate-name", "far_c", "src/lib.rt"]
    words += ["--extern", f"std={built('std')}", "-L", f"dependency={kit / 'rlibs'}"]
    for name in libraries_of("far_c"):
        words += ["--extern", f"{name}={built(name)}"]
    for path in sorted(TOP.glob("crates/*/out/rlib")):
        words += ["-L", f"dependency={path}"]
    words += ["--antt-project", kit / "rattle/logic/antt-project.json", "--logic-built", kit / "logic_built"]
    words += ["--jobs", str(os.cpu_count() or 1)]
    words += ["--crate-type", "staticlib", "--toolchain", kit / "toolchain", "--backend", "llvm", "-o", archive]
    archive.parent.mkdir(parents=True, exist_ok=True)
    try:
        run(words, cwd=CRATE)
    except Failed as fault:
        raise Failed(str(fault), 2)
    return archive


def toolchain() -> Path:
    """The folder of the toolchain: it has the page that `rt doc` names."""
    return Path(run(["rt", "doc"]).strip().splitlines()[-1]).parent


def heap_of_toolchain() -> Path:
    """The toolchain's archive of the heap."""
    return toolchain() / "c/liblibc_c.a"


class Library:
    """The builds of the library, and the programs that passed on it."""

    def __init__(self, archive: Path, proved: bool, heap: Path, cc: list[str], cxx: list[str] | None, sequences: int):
        self.archive, self.heap, self.cc, self.cxx, self.sequences = archive, heap, cc, cxx, sequences
        self.objects, self.programs = BUILD / "obj", BUILD / "test"
        # What is installed is the library of exports that were proved here.
        self.folder = BUILD / ("lib" if proved else "given")
        self.static, self.shared = self.folder / "libdrillolive.a", self.folder / "libdrillolive.so"
        self.passed = 0
        for folder in (self.objects, self.folder, self.programs):
            folder.mkdir(parents=True, exist_ok=True)

    def join(self) -> Path:
        """Compiles the C code, and joins all into one object that shows only `drillolive_*`."""
        made = []
        for source in sorted(SOURCES.glob("*.c")):
            made.append(self.objects / f"{source.stem}.o")
            run([*self.cc, *C, *OPTIMISED, "-c", source, "-o", made[-1]])
        joined, shown = self.objects / "joined.o", self.objects / "drillolive.o"
        whole = ["-Wl,--whole-archive", self.archive, self.heap, "-Wl,--no-whole-archive"]
        run([*self.cc, "-r", "-nostdlib", "-o", joined, *made, *whole])
        run(["objcopy", "--wildcard", "--keep-global-symbol=drillolive_*", joined, shown])
        return shown

    def build(self) -> None:
        joined = self.join()
        script = self.objects / "drillolive.map"
        script.write_text("{ global: drillolive_*; local: *; };\n")
        if self.static.exists():
            self.static.unlink()
        run(["ar", "rcs", self.static, joined])
        linked = ["-Wl,-z,defs", f"-Wl,--version-script={script}", "-Wl,-soname,libdrillolive.so"]
        run([*self.cc, "-shared", "-o", self.shared, joined, *linked])
        for path, words in ((self.static, ["nm", "-g"]), (self.shared, ["nm", "-D"])):
            listed = run([*words, "--defined-only", path]).splitlines()
            others = [line for line in listed if len(line.split()) == 3 and not line.split()[2].startswith("drillolive_")]
            if others or not any("drillolive_run" in line for line in listed):
                raise Failed(f"{path} shows other symbols: {others}")

    def try_program(self, name: str, compiled: list, arguments: Iterable = (), wanted: str = "passed") -> None:
        """Compiles a program and runs it. Its last line has to have this text."""
        program = self.programs / name
        run([*compiled, "-o", program])
        said = run([program, *arguments], env={**os.environ, "LD_LIBRARY_PATH": str(self.folder)})
        last = (said.strip().splitlines() or [""])[-1]
        if wanted not in last:
            raise Failed(f"{name} ended with {last!r}")
        print(f"{name}: {last}")
        self.passed += 1

    def test_c(self) -> None:
        tests = [TESTS / name for name in TEST_FILES]
        program = TOP / PROGRAM
        arguments = [self.sequences, *([program] if program.is_file() else [])]
        self.try_program("c_static", [*self.cc, *C, "-O1", *tests, self.static, *WRAPPED, "-lm"], arguments)
        shared = ["-L", self.folder, "-ldrillolive"]
        threads = TOP / "examples/c/threads.c"
        self.try_program("threads_static", [*self.cc, *C, "-O2", threads, self.static, "-pthread"], wanted="the same points")
        self.try_program("threads_shared", [*self.cc, *C, "-O2", threads, *shared, "-pthread"], wanted="the same points")
        run([*self.cc, *C, "-O2", TESTS / "bench.c", self.static, "-lm", "-o", self.programs / "bench"])
        if not self.has_sanitizers():
            print("the compiler has no sanitizers: skipped")
            return
        sources = [*sorted(SOURCES.glob("*.c")), *tests, self.archive, self.heap]
        self.try_program("c_sanitized", [*self.cc, *C, *SANITIZED, f"-I{SOURCES}", *sources, *WRAPPED, "-lm"], arguments)

    def has_sanitizers(self) -> bool:
        program = self.programs / "empty"
        source = self.programs / "empty.c"
        source.write_text("int main(void) { return 0; }\n")
        try:
            run([*self.cc, *SANITIZED, source, "-o", program])
            run([program])
        except Failed:
            return False
        return True

    def test_cxx(self) -> None:
        if not self.cxx:
            print("there is no C++ compiler: skipped")
            return
        wrappers = TESTS / "test.cpp"
        self.try_program("cpp_results", [*self.cxx, *CXX, "-O1", "-fno-exceptions", wrappers, self.static])
        self.try_program("cpp_exceptions", [*self.cxx, *CXX, "-O1", "-DDRILLOLIVE_EXCEPTIONS", wrappers, self.static])
        example = TOP / "examples/cpp/opensubdiv.cpp"
        compiled = [*self.cxx, *CXX, "-Wno-error", "-O2", example, self.static]
        try:
            self.try_program("opensubdiv", [*compiled, "-losdCPU"], wanted="units in the last place")
        except Failed as fault:
            if "losdCPU" not in str(fault):
                raise
            self.try_program("opensubdiv", compiled, wanted="skipped")


def main() -> int:
    parser = argparse.ArgumentParser(description="Builds and tests the library for C and C++.")
    parser.add_argument("--test", action="store_true", help="run the tests and the examples")
    parser.add_argument("--sequences", type=int, default=2000, help="how many random sequences of calls the tests make")
    parser.add_argument("--after-gate", action="store_true", help="prove the exports over the libraries that .ci/run left here")
    parser.add_argument("--archive", type=Path, help="an archive of the exports, in the place of the one that is proved here")
    given = parser.parse_args()
    cc = compiler("CC", "cc")
    if not cc:
        print("there is no C compiler: the library is not built")
        return 0
    try:
        archive = given.archive.resolve() if given.archive else prove_over_libraries() if given.after_gate else prove_exports()
        library = Library(archive, not given.archive, heap_of_toolchain(), cc, compiler("CXX", "c++"), given.sequences)
        library.build()
        if given.test:
            library.test_c()
            library.test_cxx()
    except Failed as fault:
        print(fault, file=sys.stderr)
        return fault.status
    print(f"the library: {library.passed} programs passed" if given.test else f"the library: {library.static}, {library.shared}")
    return 0


if __name__ == "__main__":
    sys.exit(main())
