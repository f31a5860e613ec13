#!/usr/bin/env python3
# SPDX-License-Identifier: Apache-2.0
"""Tests of the library that `tools/build-libvdb` builds: its symbols, headers and examples, and random calls compared with a map.

They need gcc, and the archive of the crate vdb_c: the variable VDB_ARCHIVE, else crates/vdb_c/out/libvdb_c.a. Tests for which a
further tool is missing are skipped. FUZZ_CALLS is the number of random calls, 100,000 if it isn't set.
"""
from __future__ import annotations

import ctypes
import functools
import importlib.util
import itertools
import os
import re
import shutil
import subprocess
import sys
import tempfile
import unittest
from pathlib import Path

CHECKS = Path(__file__).resolve().parent
TOP = CHECKS.parents[1]
TOOLS = TOP / "tools"
ARCHIVE = Path(os.environ.get("VDB_ARCHIVE") or TOP / "crates" / "vdb_c" / "out" / "libvdb_c.a")
FUZZ_CALLS = os.environ.get("FUZZ_CALLS", "100000")
#: The calls that may allocate, each of whose allocations fails in turn, once for each shape of its arguments.
ALLOCATING = {
    *(f"grid_{it}" for it in ("new copy set set_value set_active fill clip voxelise dilate erode unite subtract intersect maximum minimum sum replace"
                              " write_many write_box from_box_bool from_box_u8 from_box_i16 from_box_u16 from_box_i32 from_box_i64").split()),
    *("view_new view_share view_copy scene_new scene_load scene_save scene_put scene_take scene_copy scene_meta_set").split(),
}  # fmt: skip
#: Those that allocate only if a box or another grid cuts a tile, which is seldom in random calls. The rows make each of these allocate.
SELDOM = {"grid_clip", "grid_intersect", "grid_subtract", "grid_voxelise"}
FUZZ_SECONDS = 180  # of the processor: some 50 at full speed, which the host of a machine may halve
INTERPRETERS = [sys.executable, "/usr/bin/python3"]
STRICT = ["-O1", "-g", "-Wall", "-Wextra", "-pedantic", "-Werror"]
LANGUAGES = [("gcc", "c99"), ("clang", "c99"), ("g++", "c++17"), ("g++", "c++20"), ("clang++", "c++17"), ("clang++", "c++20")]
SANITIZERS = [("-fsanitize=address,undefined", "-fno-sanitize-recover=all"), ("-fsanitize=thread",)]
VALGRIND = ["valgrind", "--quiet", "--leak-check=full", "--show-leak-kinds=all", "--errors-for-leak-kinds=all", "--error-exitcode=99"]
WAIT = 300

#: The calls of the C library that libvdb may make: those of its memory.
SYSTEM = {"malloc", "realloc", "free", "memcpy", "memmove", "memset", "memcmp", "bcmp"}

#: What the examples print: a cube of 20 voxels grows by 2 to 20^3 + 6 * (2 * 400) + 12 * 20 voxels; without the cube, and without
#: the two layers of 10 by 20 voxels that lie in the vessel, 4,640 are left.
REPORT = "4640 voxels from 18 18 18 to 41 41 41, centre 28.55 29.50 29.50\n"

sys.path[:0] = [str(CHECKS), str(TOP / "tests"), str(TOP / "tests" / "rows")]
import encoding  # noqa: E402
from reached import of_cpp  # noqa: E402
from header import Header  # noqa: E402


def run(words, seconds=WAIT, **more):
    """Runs a command, and returns its status and output."""
    return subprocess.run(
        [str(word) for word in words], stdin=subprocess.DEVNULL, stdout=subprocess.PIPE, stderr=subprocess.PIPE, text=True, timeout=seconds, **more
    )


def done(words, **more):
    """Runs a command that must succeed, and returns what it prints."""
    ran = run(words, **more)
    if ran.returncode:
        raise AssertionError(f"{' '.join(map(str, words))} ended with status {ran.returncode}:\n{ran.stdout}{ran.stderr}")
    return ran.stdout


@functools.lru_cache(None)
def work() -> Path:
    """The folder of all tests, with the file that the examples load."""
    holder = tempfile.TemporaryDirectory(prefix="libvdb-")
    unittest.addModuleCleanup(holder.cleanup)
    folder = Path(holder.name)
    folder.joinpath("labels.vdbs").write_bytes(encoding.save(labels()))
    return folder


def labels():
    """The scene of the examples: an organ of 20 voxels along each axis, and a vessel of 10, 10 and 20 next to it."""
    boxes = {b"organ": ((20, 40),) * 3, b"vessel": ((40, 50), (25, 35), (20, 40))}
    return [encoding.Grid(name, 0, 0, roots=[((0, 0, 0), body_of(box, (0, 0, 0), 4096))]) for name, box in boxes.items()]


def body_of(box, low, side):
    """The body of the block at `low` with `side` voxels along each axis, of which those in the box are active and true. None for none."""
    parts = [(max(first, at), min(last, at + side)) for (first, last), at in zip(box, low)]
    if any(first >= last for first, last in parts):
        return None
    if all(last - first == side for first, last in parts):
        return 2, 1
    below = {4096: 128, 128: 8, 8: 1}[side]
    entries = []
    for index, steps in enumerate(itertools.product(range(side // below), repeat=3)):
        body = body_of(box, tuple(at + step * below for at, step in zip(low, steps)), below)
        if body:
            entries.append((index, body))
    return entries


@functools.lru_cache(None)
def prefix() -> Path:
    """The folder with the built library."""
    if not ARCHIVE.is_file():
        raise AssertionError(f"there is no archive {ARCHIVE}: build it by .ci/run --proofs, or name one in VDB_ARCHIVE")
    made = work() / "prefix"
    done([TOOLS / "build-libvdb", made])
    return made


@functools.lru_cache(None)
def program(source, name, compiler="gcc", standard="c99", shared=False, flags=()) -> Path:
    """Builds a program with the library, and returns its path."""
    made = work() / f"{name}-{compiler}-{standard}{'-shared' if shared else ''}{''.join(flags)}"
    library = [f"-L{prefix() / 'lib'}", "-lvdb", f"-Wl,-rpath,{prefix() / 'lib'}"] if shared else [prefix() / "lib" / "libvdb.a"]
    done([compiler, f"-std={standard}", *STRICT, *flags, f"-I{prefix() / 'include'}", source, *library, "-o", made])
    return made


@functools.lru_cache(None)
def checks(standard="c++17", other="c++20", flags=()) -> Path:
    """Builds the checks of vdb.hpp by one standard, with calls that are built by another one, and returns their path."""
    made = work() / f"checks-{standard}{''.join(flags)}"
    words = ["g++", *STRICT, *flags, f"-I{prefix() / 'include'}"]
    done([*words, f"-std={other}", "-c", CHECKS / "spans.cpp", "-o", f"{made}.o"])
    done([*words, f"-std={standard}", CHECKS / "checks.cpp", CHECKS / "loops.cpp", f"{made}.o", prefix() / "lib" / "libvdb.a", "-o", made])
    return made


def c_example(**more) -> Path:
    return program(TOP / "examples" / "c" / "labels.c", "labels", **more)


def cpp_example(**more) -> Path:
    return program(TOP / "examples" / "cpp" / "labels.cpp", "labels", **{"compiler": "g++", "standard": "c++17", **more})


@functools.lru_cache(None)
def with_numpy():
    """An interpreter that has NumPy, or None."""
    for interpreter in INTERPRETERS:
        if shutil.which(interpreter) and not run([interpreter, "-c", "import numpy"]).returncode:
            return interpreter
    return None


def for_python():
    """The environment of a program in Python that uses the library."""
    return {**os.environ, "PYTHONPATH": str(TOP / "python"), "VDB_LIBRARY": str(prefix() / "lib" / "libvdb.so")}


def symbols(*words):
    """The names that nm lists, without versions."""
    return {line.split()[-1].partition("@")[0] for line in done(["nm", *words]).splitlines() if line.strip() and not line.endswith(":")}


def needs(tool):
    return unittest.skipUnless(shutil.which(tool), f"{tool} is missing")


class Symbols(unittest.TestCase):
    def test_the_shared_library_exports_the_calls_of_the_header_alone(self):
        self.assertEqual(symbols("-D", "--defined-only", prefix() / "lib" / "libvdb.so"), {*Header().calls})

    def test_the_static_library_exports_the_calls_of_the_header_alone(self):
        self.assertEqual(symbols("-g", "--defined-only", prefix() / "lib" / "libvdb.a"), {*Header().calls})

    def test_each_call_begins_a_line_of_the_cache(self):
        for line in done(["nm", "-D", "--defined-only", prefix() / "lib" / "libvdb.so"]).splitlines():
            self.assertEqual(int(line.split()[0], 16) % 64, 0, line)

    def test_the_libraries_call_the_system_for_memory_alone(self):
        self.assertLessEqual(symbols("-u", prefix() / "lib" / "libvdb.a"), {*SYSTEM, "_GLOBAL_OFFSET_TABLE_"})


class Headers(unittest.TestCase):
    def test_the_headers_compile_without_a_warning(self):
        compiled = 0
        for compiler, standard in LANGUAGES:
            if not shutil.which(compiler):
                continue
            for name, use in (("vdb.h", "vdb_grid grid = VDB_GRID_INIT; return grid.at != 0;"), ("vdb.hpp", "return !vdb_message(0);"), ("vdb_files.hpp", "return 0;"), ("vdb_labels.hpp", "return 0;")):
                if name == "vdb.h" or standard != "c99":
                    with self.subTest(compiler=compiler, standard=standard, header=name):
                        source = work() / f"header.{'c' if standard == 'c99' else 'cpp'}"
                        source.write_text(f"#include <{name}>\n#include <{name}>\nint main(void) {{ {use} }}\n", encoding="utf-8")
                        done([compiler, f"-std={standard}", *STRICT, f"-I{TOP / 'include'}", "-fsyntax-only", source])
                        compiled += 1
        self.assertGreaterEqual(compiled, 2)

    def test_compilers_find_null_pointers_and_codes_that_are_dropped(self):
        for line, warning in (("vdb_grid_prune(&grid);", "unused-result"), ("return vdb_grid_prune(0);", "nonnull"), ("return vdb_grid_prune(&grid);", "")):
            with self.subTest(line):
                source = work() / "attributes.c"
                source.write_text(f"#include <vdb.h>\nint main(void) {{ vdb_grid grid = VDB_GRID_INIT; {line} }}\n", encoding="utf-8")
                ran = run(["gcc", "-std=c99", *STRICT, "-Wno-unused-variable", f"-I{TOP / 'include'}", "-c", source, "-o", "/dev/null"])
                self.assertEqual((ran.returncode, re.findall(r"-Werror=([\w-]+)", ran.stderr)), (1, [warning]) if warning else (0, []))

    def test_each_code_has_a_text_in_c_and_in_python(self):
        header = Header()
        names = re.findall(r"^    (VDB_\w+) = \d+", re.search(r"/\* The codes\. \*/\nenum \{(.*?)\};", header_text(), re.S)[1], re.M)
        codes = {header.constants[name] for name in names}
        self.assertGreater(len(codes), 30)
        library = header.load(prefix() / "lib" / "libvdb.so")
        texts = {code: message(library, code) for code in range(-2, 100)}
        self.assertEqual({code for code, text in texts.items() if text != "unknown code"}, codes)
        self.assertEqual({**errors().TEXTS, 0: "done"}, {code: texts[code] for code in codes})
        self.assertEqual([message(library, code) for code in (2**31 - 1, -(2**31))], ["unknown code"] * 2)

    def test_the_library_has_the_version_of_its_header(self):
        library = Header().load(prefix() / "lib" / "libvdb.so")
        major, minor, patch = (TOP / "VERSION").read_text(encoding="ascii").split(".")
        self.assertEqual(library.vdb_version(), 10**6 * int(major) + 10**3 * int(minor) + int(patch))
        source = work() / "version.c"
        source.write_text("#include <vdb.h>\nint main(void) { return vdb_version() != VDB_VERSION; }\n", encoding="utf-8")
        done([program(source, "version")])

    def test_calls_on_two_handles_find_that_these_are_one(self):
        for compiler, standard in LANGUAGES:
            if shutil.which(compiler):
                with self.subTest(compiler=compiler, standard=standard):
                    source = work() / f"same.{'c' if standard == 'c99' else 'cpp'}"
                    shutil.copyfile(CHECKS / "same.c", source)
                    done([program(source, "same", compiler=compiler, standard=standard)])

    def test_python_declares_the_calls_of_the_header(self):
        text = (TOP / "python" / "vdb" / "library.py").read_text(encoding="utf-8")
        declared = dict(re.findall(r'^    "(vdb_\w+)": \((.*?),?\),$', text, re.M))
        self.assertEqual(declared.keys(), Header().calls.keys() - NOT_IN_PYTHON)
        for name in declared:
            arguments = Header().calls[name]
            with self.subTest(name):
                self.assertEqual(python_forms(declared[name]), [form_of(it) for it in arguments])

    def test_a_call_has_one_name_in_c_cpp_and_python(self):
        calls = {re.sub(r"_(bool|u8|i16|u16|i32|i64)\Z", "", it.removeprefix("vdb_grid_")) for it in Header().calls if it.startswith("vdb_grid_")}
        hpp = re.search(r"^class Grid \{(.*?)^private:", (TOP / "include" / "vdb.hpp").read_text(encoding="utf-8"), re.M | re.S)[1]
        package = "".join((TOP / "python" / "vdb" / it).read_text(encoding="utf-8") for it in ("grid.py", "engine.py", "reading.py"))
        cpp, python = {*re.findall(r"^    (?:[\w:<>]+ )+\*?(\w+)\(", hpp, re.M)}, {*re.findall(r"^    def (\w+)\(", package, re.M)}
        # which are the ranges voxels, leaves and, in C++ alone, parts
        walks = {f"{turn}_{it}" for turn in ("first", "next") for it in ("active", "leaves", "parts")}
        self.assertEqual(calls - cpp, {"new", "free", "probe", "count_in", "equal", *walks})
        self.assertEqual(calls - python, {"new", "free", "get", "probe", "set", "read_box", "from_box", "equal", *walks})
        self.assertLessEqual({"voxels", "leaves"}, cpp & python)
        self.assertIn("parts", cpp)
        self.assertTrue("operator==(" in hpp and "__eq__" in python)  # which are equal

    @needs("pkg-config")
    def test_the_package_file_gives_the_flags(self):
        environment = {**os.environ, "PKG_CONFIG_PATH": str(prefix() / "lib" / "pkgconfig")}
        flags = done(["pkg-config", "--cflags", "--libs", "libvdb"], env=environment).split()
        found = [it[:2] + str(Path(it[2:]).resolve()) if it.startswith(("-I", "-L")) else it for it in flags]
        self.assertEqual(found, [f"-I{prefix() / 'include'}", f"-L{prefix() / 'lib'}", "-lvdb"])


#: Calls that the Python package has no use for: it knows the texts of the codes, and loads a library with all calls that it needs.
NOT_IN_PYTHON = {"vdb_version", "vdb_message_at"}


def message(library, code):
    """The text of a code."""
    text = ctypes.c_char_p()
    library.vdb_message_at(code, ctypes.byref(text))
    return text.value.decode("ascii")


def header_text():
    return (TOP / "include" / "vdb.h").read_text(encoding="utf-8")


def errors():
    """The module of the package's errors, without the package, which needs NumPy and the library."""
    spec = importlib.util.spec_from_file_location("errors", TOP / "python" / "vdb" / "errors.py")
    made = importlib.util.module_from_spec(spec)
    spec.loader.exec_module(made)
    return made


def form_of(kind):
    """A type of an argument by its name, as python_forms has it."""
    pointed = getattr(kind, "_type_", kind)
    if kind.__name__ == "c_char_p":
        return "char *"
    name = pointed.__name__ if isinstance(pointed, type) else kind.__name__
    return f"{name} *" if kind.__name__.startswith("LP_") else kind.__name__


#: The names of types in python/vdb/library.py.
PYTHON_TYPES = {
    "GRID": ["vdb_grid *"], "VIEW": ["vdb_view *"], "SCENE": ["vdb_scene *"], "BOX": ["vdb_box *"], "COORD": ["vdb_coord *"],
    "I16": ["c_short *"], "U16": ["c_ushort *"], "I32": ["c_int *"], "I64": ["c_long *"], "U32": ["c_uint *"], "U64": ["c_ulong *"], "SIZE": ["c_ulong *"], "BYTES": ["char *"], "BUFFER": ["c_ubyte *"],
    "*PLACE": ["c_int"] * 3, "*NAMED": ["vdb_scene *", "char *", "c_ulong"], "POINTER(Count)": ["vdb_count *"],
    "*DENSE": ["vdb_box *", "vdb_strides *", "c_long *", "c_ulong", "c_ubyte *", "c_ulong"],
    "*DENSE_BOOL": ["vdb_box *", "vdb_strides *", "c_ubyte *", "c_ulong", "c_ubyte *", "c_ulong"],
    "*DENSE_I32": ["vdb_box *", "vdb_strides *", "c_int *", "c_ulong", "c_ubyte *", "c_ulong"],
    "*LEAVES": ["vdb_coord *", "c_ulong", "c_long *", "c_ulong", "c_ulong *", "c_ulong", "c_ulong *"],
    "*PARTS": ["vdb_part *", "c_ulong", "c_ulong *"], "*ELEMENTS": ["c_long", "c_uint", "vdb_box *", "vdb_strides *"],
    "POINTER(CensusCounts)": ["vdb_census *"], "c_int32": ["c_int"], "c_int64": ["c_long"], "c_uint32": ["c_uint"], "c_size_t": ["c_ulong"],
}  # fmt: skip


def python_forms(arguments):
    return [form for word in arguments.split(", ") for form in PYTHON_TYPES[word.rstrip(",")]]


class Programs(unittest.TestCase):
    """The examples, and the checks of vdb.hpp."""

    def check_example(self, words, saved, **more):
        place = work() / saved
        place.unlink(missing_ok=True)
        ran = run([*words, work() / "labels.vdbs", place], **more)
        self.assertEqual((ran.returncode, ran.stdout, ran.stderr), (0, REPORT, ""))
        grids = {grid.name: grid for grid in encoding.load(place.read_bytes())}
        self.assertEqual([*grids], [b"margin", b"organ", b"vessel"])
        return place.read_bytes()

    def test_c(self):
        for shared in (False, True):
            with self.subTest(shared=shared):
                self.check_example([c_example(shared=shared)], "c.vdbs")

    def test_cpp(self):
        for standard in ("c++17", "c++20"):
            with self.subTest(standard):
                self.check_example([cpp_example(standard=standard)], "cpp.vdbs")

    def test_python(self):
        interpreter = with_numpy()
        if not interpreter:
            self.skipTest("no interpreter has NumPy")
        words = [interpreter, TOP / "examples" / "python" / "labels.py"]
        saved = self.check_example(words, "python.vdbs", env=for_python())
        self.assertEqual(saved, self.check_example([c_example()], "c.vdbs"))

    @needs("valgrind")
    def test_no_leak_and_no_wrong_access(self):
        for example in (c_example(), cpp_example()):
            with self.subTest(example.name):
                self.check_example([*VALGRIND, example], "valgrind.vdbs")

    @needs("valgrind")
    def test_no_leak_after_an_error(self):
        work().joinpath("bad.vdbs").write_bytes(b"VDBS\0\x02\0\x01")
        for example in (c_example(), cpp_example()):
            with self.subTest(example.name):
                ran = run([*VALGRIND, example, work() / "bad.vdbs", work() / "none.vdbs"])
                wanted = f"labels: {work()}/bad.vdbs: truncated: the file ends before a field or inside it\n"
                self.assertEqual((ran.returncode, ran.stdout, ran.stderr), (1, "", wanted))

    def test_a_missing_file_is_named(self):
        for example in (c_example(), cpp_example()):
            with self.subTest(example.name):
                ran = run([example, work() / "missing.vdbs", work() / "none.vdbs"])
                self.assertEqual((ran.returncode, ran.stdout), (1, ""))
                self.assertIn(f"{work()}/missing.vdbs: No such file or directory\n", ran.stderr)

    def is_silent(self, words):
        """Runs the checks of vdb.hpp in a folder of their own. Each that fails prints a line."""
        folder = work() / "checks"
        folder.mkdir(exist_ok=True)
        ran = run([*words, folder])
        self.assertEqual((ran.returncode, ran.stdout, ran.stderr), (0, "", ""))

    def test_the_calls_of_vdb_hpp_under_sanitizers(self):
        for (standard, other), flags in itertools.product((("c++17", "c++20"), ("c++20", "c++17")), SANITIZERS):
            with self.subTest(standard, flags=flags):
                self.is_silent([checks(standard, other, flags)])

    def test_the_examples_under_sanitizers(self):
        for example, flags in itertools.product((c_example, cpp_example), SANITIZERS):
            with self.subTest(example.__name__, flags=flags):
                self.check_example([example(flags=flags)], "sanitized.vdbs")

    @needs("valgrind")
    def test_the_calls_of_vdb_hpp_under_valgrind(self):
        self.is_silent([*VALGRIND, checks()])

    def test_the_checks_reach_vdb_hpp(self):
        flags = ("--coverage",)
        self.is_silent([checks("c++17", "c++20", flags)])
        text, suffices = of_cpp("vdb.hpp and vdb_files.hpp", work(), rf"{re.escape(str(prefix()))}/include/vdb(_files)?\.hpp")
        print(text, flush=True)
        self.assertTrue(suffices, text)

    @needs("valgrind")
    def test_no_race_between_views(self):
        self.is_silent(["valgrind", "--quiet", "--tool=helgrind", "--error-exitcode=99", checks()])


class Documents(unittest.TestCase):
    """The programs in docs/LIBRARY.md."""

    def block(self, title):
        """The indented lines of a section."""
        text = (TOP / "docs" / "LIBRARY.md").read_text(encoding="utf-8")
        section = re.search(rf"^##+ {re.escape(title)}\n(.*?)^##", text, re.M | re.S)[1]
        return "\n".join(line[4:] for line in section.splitlines() if line.startswith("    "))

    def compiled(self, name, compiler, standard, text):
        source = work() / name
        source.write_text(text, encoding="utf-8")
        done([compiler, f"-std={standard}", *STRICT, f"-I{TOP / 'include'}", "-fsyntax-only", source])

    def test_c(self):
        given = "uint8_t bytes[1] = {0};\nsize_t length = 1;\n"
        includes = "#include <stdio.h>\n#include <string.h>\n#include <vdb.h>\n"
        self.compiled("document.c", "gcc", "c99", f"{includes}int main(void)\n{{\n{given}{self.block('C')}\nreturn code;\n}}\n")

    def test_cpp(self):
        self.compiled("document.cpp", "g++", "c++17", f"#include <iostream>\n#include <vdb.hpp>\nint main()\n{{\n{self.block('C++')}\n}}\n")

    def test_python(self):
        interpreter = with_numpy()
        if not interpreter:
            self.skipTest("no interpreter has NumPy")
        make = "import numpy as np\nlabels = np.zeros((64, 64, 64), np.int32)\nlabels[20:40, 20:40, 20:40] = 1\nlabels[40:50, 25:35, 20:40] = 2\n"
        text = f"{make}np.save('labels.npy', labels)\n{self.block('Python')}\nassert (labels == 3).sum() == 4640\n"
        folder = work() / "document"
        folder.mkdir(exist_ok=True)
        done([interpreter, "-c", text], env=for_python(), cwd=folder)
        self.assertEqual([grid.name for grid in encoding.load((folder / "labels.vdbs").read_bytes())], [b"margin", b"organ"])


class RandomCalls(unittest.TestCase):
    def test_the_library_agrees_with_a_map(self):
        library = work() / "libvdb-failing.so"
        kit = Path(shutil.which("rt")).resolve().parent.parent / "c" / "liblibc_c.a"
        wrapped = [f"-Wl,--wrap={name}" for name in ("malloc", "realloc", "free")]
        whole = ["-Wl,--whole-archive", ARCHIVE, "-Wl,--no-whole-archive", kit]
        done(["gcc", "-O2", "-shared", "-fPIC", "-o", library, CHECKS / "failing.c", *whole, "-Wl,-z,defs", *wrapped])
        ran = run([with_numpy() or sys.executable, CHECKS / "fuzz.py", library, FUZZ_CALLS])
        print(ran.stdout, end="", flush=True)
        self.assertEqual((ran.returncode, ran.stderr), (0, ""))
        found = re.match(r"(\d+) seconds\nallocating: (.*)\nnever made: (.*)\n(\d+) calls, (\d+) failed allocations\n\Z", ran.stdout)
        self.assertEqual({*found[3].split(", ")}, NOT_IN_PYTHON | {"vdb_scene_length"})  # which each check of the scene calls
        self.assertEqual(int(found[4]), int(FUZZ_CALLS))
        self.assertLessEqual(int(found[1]), FUZZ_SECONDS)
        self.assertGreater(int(found[5]), int(FUZZ_CALLS) // 100)
        shapes = {name.removeprefix("vdb_"): int(count) for name, count in (it.split(" ") for it in found[2].split(", "))}
        self.assertEqual({*shapes} - ALLOCATING, set())
        self.assertEqual(ALLOCATING - {*shapes} - SELDOM, set())


class Command(unittest.TestCase):
    def fails(self, wanted, prefix, **variables):
        ran = run([TOOLS / "build-libvdb", prefix], env={**os.environ, **variables})
        self.assertEqual((ran.returncode, ran.stdout), (1, ""))
        self.assertIn(wanted, ran.stderr)

    def test_help_has_an_example(self):
        self.assertIn("Example:", done([TOOLS / "build-libvdb", "--help"]))

    def test_errors_name_the_file_and_the_reason(self):
        file = work() / "labels.vdbs"
        self.fails("/missing.a: no such archive", work() / "other", VDB_ARCHIVE="/missing.a")
        self.fails(f"{file}: file not recognized", work() / "other", VDB_ARCHIVE=str(file))
        self.fails(f"{file}/lib/pkgconfig: Not a directory", file, VDB_ARCHIVE=str(file))
        self.fails("/missing-compiler: No such file or directory", work() / "other", VDB_ARCHIVE=str(file), CC="/missing-compiler")


if __name__ == "__main__":
    unittest.main()
