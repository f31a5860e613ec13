#!/usr/bin/env python3
# SPDX-License-Identifier: Apache-2.0
"""Tests of what `tools/install` installs, of the packages that `tools/debian-packages` makes, and of `tools/release`.

They need what tests/c/test_libvdb.py needs, the program vdb (the variable VDB, else crates/vdb/out/vdb), an interpreter /usr/bin/python3 with
NumPy, shtab and build, and Debian's cmake, make, pkg-config, man-db, dpkg-dev, debhelper, dh-python, lintian and zsh.
"""
from __future__ import annotations

import functools
import hashlib
import importlib.machinery
import importlib.util
import io
import json
import os
import re
import shutil
import subprocess
import sys
import tarfile
import unittest
from pathlib import Path

sys.path.insert(0, str(Path(__file__).resolve().parents[1] / "c"))
from test_libvdb import REPORT, TOOLS, TOP, done, run, symbols, work  # noqa: E402

sys.path.insert(0, str(TOP / "tests" / "documents"))
import pages  # noqa: E402

VERSION = (TOP / "VERSION").read_text(encoding="ascii").strip()
LIBDIR = "lib/x86_64-linux-gnu"
PACKAGES = "lib/python3/dist-packages"
LINK = f"usr/{PACKAGES}/vdb/libvdb.so"
LIBRARIES = f"usr/{LIBDIR}"
EXAMPLES = {"c": TOP / "examples" / "c" / "labels.c", "cpp": TOP / "examples" / "cpp" / "labels.cpp"}
SPDX = "SPDX-License-Identifier: Apache-2.0"
SCRIPT = "grid a i32 0\nfill a 0 0 0 9 9 9 5 on\ncount a all\n"

#: The files of the library, as a user of C and C++ expects them.
LIBRARY = {
    "usr/include/vdb.h", "usr/include/vdb.hpp", "usr/include/vdb_files.hpp", "usr/include/vdb_labels.hpp",
    *(f"{LIBRARIES}/{it}" for it in ("libvdb.a", "libvdb.so", "libvdb.so.1", f"libvdb.so.{VERSION}", "pkgconfig/libvdb.pc")),
    *(f"{LIBRARIES}/cmake/vdb/{it}" for it in ("vdb-config.cmake", "vdb-config-version.cmake")),
}  # fmt: skip
CMAKE = """\
cmake_minimum_required(VERSION 3.16)
project(labels C CXX)
find_package(vdb {version} CONFIG REQUIRED)
foreach(language c cpp)
  add_executable(labels_${{language}} {examples}/${{language}}/labels.${{language}})
  target_link_libraries(labels_${{language}} PRIVATE vdb::vdb)
endforeach()
target_compile_features(labels_cpp PRIVATE cxx_std_17)
"""


@functools.lru_cache(None)
def installed() -> Path:
    """The root of a system in which everything is installed below /usr."""
    root = work() / "root"
    done([TOOLS / "install", "--prefix", "/usr", "--libdir", LIBDIR, "--destdir", root])
    return root


@functools.lru_cache(None)
def packages():
    """The Debian packages by name, and the root of a system into which all of them are unpacked."""
    folder, root = work() / "packages", work() / "unpacked"
    made = [Path(it) for it in done([TOOLS / "debian-packages", folder]).splitlines()]
    for package in made:
        done(["dpkg", "-x", package, root])
    return {it.name.split("_")[0]: it for it in made}, root


def files(root):
    """The files and links below a folder with their content, without those that Python writes."""
    found = [it for it in sorted(root.rglob("*")) if (it.is_symlink() or it.is_file()) and "__pycache__" not in it.parts]
    return {str(it.relative_to(root)): os.readlink(it) if it.is_symlink() else it.read_bytes() for it in found}


class Installed(unittest.TestCase):
    def is_right(self, program, root):
        """Runs a program of the examples with the library below a root."""
        environment = {**os.environ, "LD_LIBRARY_PATH": str(root / LIBRARIES)}
        (work() / "margin.vdbs").unlink(missing_ok=True)
        ran = run([program, work() / "labels.vdbs", work() / "margin.vdbs"], env=environment)
        self.assertEqual((ran.returncode, ran.stdout, ran.stderr), (0, REPORT, ""))

    def test_the_files_of_the_library(self):
        found = {it for it in files(installed()) if not it.startswith(("usr/bin/", "usr/share/", "usr/lib/python3/"))}
        self.assertEqual(found, LIBRARY)
        self.assertFalse([name for name, content in files(installed()).items() if isinstance(content, bytes) and str(work()).encode() in content])

    def test_the_soname(self):
        text = done(["readelf", "-d", installed() / LIBRARIES / "libvdb.so"])
        self.assertEqual(re.findall(r"\(SONAME\).*\[(.*)\]", text), ["libvdb.so.1"])

    def test_the_symbols_are_those_of_the_file(self):
        head, *lines = (TOOLS / "debian" / "libvdb1.symbols").read_text(encoding="ascii").splitlines()
        self.assertEqual(head, "libvdb.so.1 libvdb1 #MINVER#")
        listed = [re.fullmatch(r" (vdb_\w+)@Base \d+\.\d+\.\d+", line)[1] for line in lines]
        self.assertEqual({*listed}, symbols("-D", "--defined-only", installed() / LIBRARIES / "libvdb.so"))
        self.assertEqual(listed, sorted({*listed}))

    def test_programs_by_pkg_config(self):
        environment = {**os.environ, "PKG_CONFIG_LIBDIR": str(installed() / LIBRARIES / "pkgconfig")}
        self.assertEqual(done(["pkg-config", "--modversion", "libvdb"], env=environment).strip(), VERSION)
        flags = done(["pkg-config", "--cflags", "--libs", "libvdb"], env=environment).split()
        for compiler, example in (("gcc", EXAMPLES["c"]), ("g++", EXAMPLES["cpp"])):
            with self.subTest(compiler):
                made = work() / f"by-pkg-config-{compiler}"
                done([compiler, example, *flags, "-o", made])
                self.is_right(made, installed())

    def configure(self, version):
        """Configures a project of CMake that asks for a version."""
        source = work() / "project"
        source.mkdir(exist_ok=True)
        (source / "CMakeLists.txt").write_text(CMAKE.format(version=version, examples=TOP / "examples"), encoding="utf-8")
        return run(["cmake", "-S", source, "-B", work() / f"built-{version}", f"-DCMAKE_PREFIX_PATH={installed() / 'usr'}"])

    def test_programs_by_cmake(self):
        ran = self.configure("1.2")
        self.assertEqual(ran.returncode, 0, ran.stdout + ran.stderr)
        done(["cmake", "--build", work() / "built-1.2"])
        for language in EXAMPLES:
            self.is_right(work() / "built-1.2" / f"labels_{language}", installed())

    def test_cmake_refuses_another_version(self):
        for version in ("1.3", "2.0", "0.9"):
            with self.subTest(version):
                ran = self.configure(version)
                self.assertEqual(ran.returncode, 1)
                self.assertIn(f"version: {VERSION}", ran.stderr)

    def test_the_manual_pages(self):
        pages = sorted((installed() / "usr/share/man/man1").iterdir(), key=lambda it: it.stem)
        self.assertEqual([it.stem for it in pages], sorted(it.name for it in (installed() / "usr/bin").iterdir()))
        for page in pages:
            with self.subTest(page.name):
                ran = run(["man", "--warnings", "-l", page], env={**os.environ, "MANWIDTH": "200", "LC_ALL": "C.UTF-8"})
                self.assertEqual((ran.returncode, ran.stderr), (0, ""))
                shown, asked = ran.stdout.split(), done([installed() / "usr/bin" / page.stem, "--help"]).split()
                self.assertEqual([it for it in asked if it.startswith("--") and it not in shown], [])
                self.assertRegex(ran.stdout, rf"NAME\n +{page.stem} - \w")
        self.assertIn("--origin X Y Z", " ".join(done(["man", "-l", pages[0].with_name("vdb-scene.1")]).split()))
        self.assertIn("vdb-run(1) replaces", " ".join(done(["man", "-l", pages[0].with_name("vdb.1")]).split()))

    def test_the_completions_for_bash(self):
        for words, wanted in (
            (["vdb", "--l"], "--load"), (["vdb", "LIC"], "LICENSE"), (["vdb-run", "--sa"], "--save"), (["vdb-scene", "con"], "convert"),
            (["vdb-scene", "convert", "--or"], "--origin"), (["vdb-scene", "convert", "--type", "i"], "i32 i64"), (["vdb-scene", "info", "LIC"], "LICENSE"),
        ):  # fmt: skip
            with self.subTest(words):
                file, function = installed() / "usr/share/bash-completion/completions" / words[0], f"_shtab_{words[0].replace('-', '_')}"
                call = f"source {file}; COMP_WORDS=({' '.join(words)}); COMP_CWORD={len(words) - 1}; {function}; echo ${{COMPREPLY[*]}}; complete -p {words[0]}"
                self.assertEqual(done(["bash", "-c", call], cwd=TOP).splitlines(), [wanted, f"complete -o filenames -F {function} {words[0]}"])

    def test_the_completions_for_zsh(self):
        for file in sorted((installed() / "usr/share/zsh/vendor-completions").iterdir()):
            with self.subTest(file.name):
                done(["zsh", "-n", file])
                self.assertTrue(file.read_text(encoding="utf-8").startswith(f"#compdef {file.name[1:]}\n"))

    def test_the_package_finds_its_library(self):
        """As a user does who installs below a folder and then moves it: with no variable but the path of the package."""
        for libdir in ("lib", "lib64"):
            with self.subTest(libdir):
                prefix, moved = work() / f"prefix-{libdir}", work() / f"moved-{libdir}"
                done([TOOLS / "install", "--prefix", prefix, "--libdir", libdir])
                prefix.rename(moved)
                code = "import vdb; from vdb import library; print(vdb.Grid('i32').count, next(library.places()))"
                environment = {"PATH": os.environ["PATH"], "PYTHONPATH": str(moved / PACKAGES)}
                wanted = moved / PACKAGES / "vdb" / "libvdb.so"
                self.assertEqual(done(["/usr/bin/python3", "-c", code], env=environment, cwd=work()), f"0 {wanted}\n")
                self.assertEqual(wanted.resolve(), (moved / libdir / f"libvdb.so.{VERSION}").resolve())

    def test_the_programs(self):
        programs = installed() / "usr" / "bin"
        ran = subprocess.run([programs / "vdb"], input=SCRIPT, stdout=subprocess.PIPE, text=True, timeout=60)
        self.assertEqual((ran.returncode, ran.stdout), (0, "ok\nok\ncount 1000\n"))
        for name in ("vdb", "vdb-run", "vdb-scene"):
            self.assertEqual(done([programs / name, "--version"]), f"{name} {VERSION}\n")
        for program in programs.iterdir():
            self.assertTrue(os.access(program, os.X_OK), program)


class Packages(unittest.TestCase):
    def test_they_hold_what_is_installed_and_the_licence(self):
        made, root = packages()
        self.assertEqual({*made}, {"libvdb1", "libvdb-dev", "vdb-tools", "python3-vdb"})
        documents = {f"usr/share/doc/{name}/{file}" for name in made for file in ("copyright", "changelog.gz")}
        packed, pages = files(root), {name: f"{name}.gz" for name in files(installed()) if "/man1/" in name}
        self.assertEqual({*packed}, {pages.get(name, name) for name in files(installed()) if name != LINK} | documents)
        for name in made:
            self.assertEqual(packed[f"usr/share/doc/{name}/copyright"], (TOP / "NOTICE").read_bytes())

    def test_lintian_finds_no_error(self):
        ran = run(["lintian", "--allow-root", "--fail-on", "error", *packages()[0].values()])
        self.assertEqual((ran.returncode, ran.stdout), (0, ""), ran.stdout + ran.stderr)

    def test_the_fields(self):
        for name, package in packages()[0].items():
            with self.subTest(name):
                fields = dict(it.split(": ", 1) for it in done(["dpkg-deb", "--field", package]).splitlines() if ": " in it)
                self.assertEqual((fields["Package"], fields["Version"]), (name, VERSION))
                self.assertEqual(fields["Architecture"], "all" if name == "python3-vdb" else "amd64")
                self.assertRegex(fields["Depends"], "libc6" if name in ("libvdb1", "vdb-tools") else rf"libvdb1 \(>?= {VERSION}\)")

    def test_the_program_answers(self):
        ran = subprocess.run([packages()[1] / "usr/bin/vdb"], input=SCRIPT, stdout=subprocess.PIPE, text=True, timeout=60)
        self.assertEqual((ran.returncode, ran.stdout), (0, "ok\nok\ncount 1000\n"))

    def test_a_grid_is_shown(self):
        scene, page, root = work() / "shown.vdbs", work() / "shown.html", packages()[1]
        subprocess.run([root / "usr/bin/vdb", "--save", scene], input=SCRIPT, stdout=subprocess.DEVNULL, text=True, timeout=60, check=True)
        done([root / "usr/bin/vdb-scene", "view", scene, SCRIPT.split()[1], page])
        self.assertTrue(page.read_text(encoding="utf-8").endswith("</html>\n"))

    def test_the_quick_starts_of_the_readme_without_the_kit(self):
        """They print what README shows, with the packages' files and Debian's own tools alone."""
        root, folder = packages()[1], work() / "readme"
        folder.mkdir(exist_ok=True)
        environment = {
            "PATH": f"{root}/usr/bin:/usr/bin:/bin", "LD_LIBRARY_PATH": str(root / LIBRARIES), "VDB_LIBRARY": "libvdb.so.1",
            "PYTHONPATH": f"{root}/usr/lib/python3/dist-packages", "PKG_CONFIG_PATH": str(root / LIBRARIES / "pkgconfig"),
        }  # fmt: skip
        self.assertIsNone(shutil.which("rt", path=environment["PATH"]))
        self.assertEqual(pages.play("README.md", folder, environment, "Quick starts")[0], 4)


@functools.lru_cache(None)
def release():
    """The folder of a release that is made of what is built."""
    done([TOOLS / "release", work() / "release"])
    return work() / "release"


class Release(unittest.TestCase):
    def archive(self):
        return next(release().glob("vdb-*.tar.xz"))

    def test_the_files_and_their_sums(self):
        self.assertEqual(done(["sha256sum", "-c", "SHA256SUMS"], cwd=release()).split(), [f"{self.archive().name}:", "OK", "PROVENANCE.json:", "OK"])
        names = {it.partition("/")[2] for it in done(["tar", "-tf", self.archive()]).splitlines()}
        wheel = f"wheel/vdb-{VERSION}-py3-none-manylinux_2_17_x86_64.whl"
        wanted = {"bin/vdb", "include/vdb.h", f"lib/libvdb.so.{VERSION}", "lib/libvdb.a", "lib/static/libvdb_c.a", wheel}
        wanted |= {"LICENSE", "NOTICE", "CHANGELOG.md", "PROVENANCE.json"}
        self.assertEqual(wanted - names, set())

    def test_the_program_answers_and_a_program_links_the_archives(self):
        done(["tar", "-xf", self.archive(), "-C", work()])
        root, made = work() / self.archive().name.removesuffix(".tar.xz"), work() / "by-archives"
        ran = subprocess.run([root / "bin" / "vdb"], input=SCRIPT, stdout=subprocess.PIPE, text=True, timeout=60)
        self.assertEqual((ran.returncode, ran.stdout), (0, "ok\nok\ncount 1000\n"))
        done(["gcc", f"-I{root / 'include'}", EXAMPLES["c"], *(root / "lib" / "static" / it for it in ("libvdb_c.a", "liblibc_c.a")), "-o", made])
        Installed.is_right(self, made, root)

    def test_the_provenance(self):
        about = json.loads((release() / "PROVENANCE.json").read_text(encoding="utf-8"))
        self.assertEqual((about["version"], about["commit"]), (VERSION, done(["git", "rev-parse", "HEAD"], cwd=TOP).strip()))
        self.assertTrue(all([about["kit"], about["linker"], about["python"], *about["compilers"].values()]))
        self.assertEqual(about["ci"] is None, "-unchecked-" in self.archive().name)

    def test_the_archive_is_what_is_built(self):
        self.assertRegex(done([TOOLS / "release", "--verify", self.archive()]), r"^\d+ files are the same, byte for byte\n$")

    def test_a_changed_archive_differs(self):
        changed = work() / "changed.tar.xz"
        with tarfile.open(self.archive()) as old, tarfile.open(changed, "w:xz") as new:
            for entry in old:
                data = old.extractfile(entry).read() if entry.isfile() else None
                if entry.name.endswith("/include/vdb.h"):
                    data = bytes(len(data))
                new.addfile(entry, data and io.BytesIO(data))
        ran = run([TOOLS / "release", "--verify", changed])
        self.assertEqual((ran.returncode, ran.stdout, ran.stderr), (1, "include/vdb.h: differs\n", ""))

    def test_only_what_ci_passed_has_the_name(self):
        loader = importlib.machinery.SourceFileLoader("release", str(TOOLS / "release"))
        module = importlib.util.module_from_spec(importlib.util.spec_from_loader("release", loader))
        loader.exec_module(module)
        module.RECORD = work() / "ci.txt"
        sums = "".join(f"{hashlib.sha256(it.read_bytes()).hexdigest()}  {it}\n" for it in (module.PROGRAM, module.ARCHIVE))
        good = f"commit a1\n{sums}5 passed, 0 failed, 0 skipped\n"
        for record, commit, status, wanted in (
            (None, "a1", "", None), (good, "a1", "", "5 passed, 0 failed, 0 skipped"), (good, "b2", "", None), (good, "a1", " M include/vdb.h", None),
            (good.replace("0 failed", "1 failed"), "a1", "", None), (good.replace(sums, sums.swapcase()), "a1", "", None),
        ):  # fmt: skip
            with self.subTest(record=record, commit=commit, status=status):
                module.output = lambda *words: status
                if record:
                    module.RECORD.write_text(record, encoding="utf-8")
                self.assertEqual(module.passed(commit), wanted)


class Sources(unittest.TestCase):
    def test_the_versions_agree(self):
        header = (TOP / "include" / "vdb.h").read_text(encoding="utf-8")
        numbers = [re.search(rf"^#define VDB_VERSION_{part} (\d+)$", header, re.M)[1] for part in ("MAJOR", "MINOR", "PATCH")]
        project = re.search(r'^version = "(.*)"$', (TOP / "python/pyproject.toml").read_text(encoding="utf-8"), re.M)[1]
        package = re.search(r'^__version__ = "(.*)"$', (TOP / "python/vdb/__init__.py").read_text(encoding="utf-8"), re.M)[1]
        runner = re.search(r'^VERSION = "(.*)"$', (TOOLS / "vdb-run").read_text(encoding="utf-8"), re.M)[1]
        newest = re.search(r"^## (\d\S+)", (TOP / "CHANGELOG.md").read_text(encoding="utf-8"), re.M)[1]
        self.assertEqual([".".join(numbers), project, package, runner, newest], [VERSION] * 5)

    def test_the_entries_of_the_changelog_have_dates(self):
        heads = re.findall(r"^## (.*)$", (TOP / "CHANGELOG.md").read_text(encoding="utf-8"), re.M)
        heads = heads[1:] if heads[0] == "Unreleased" else heads
        self.assertTrue(heads and all(re.fullmatch(r"\d+\.\d+(\.\d+)? \(20\d\d-\d\d-\d\d\)", it) for it in heads), heads)

    def test_the_sources_name_the_licence(self):
        names = done(["git", "ls-files", "--cached", "--others", "--exclude-standard"], cwd=TOP).splitlines()
        bare = [name for name in names if is_source(name) and SPDX not in (TOP / name).read_text(encoding="utf-8").split("\n\n")[0]]
        self.assertEqual(bare, [])
        self.assertGreater(len([name for name in names if is_source(name)]), 100)
        self.assertRegex((TOP / "NOTICE").read_text(encoding="utf-8"), rf"^{SPDX}\n\nCopyright 20\d\d The Suqtaveng authors\n")
        self.assertIn("Apache License\n                           Version 2.0, January 2004\n", (TOP / "LICENSE").read_text(encoding="utf-8"))


def is_source(name):
    """Whether a file is code in C, C++, Python, JavaScript, HTML or a shell, by its ending or its first line."""
    path = TOP / name
    if not path.is_file() or name.startswith("crates/"):
        return False
    if path.suffix in (".c", ".h", ".cpp", ".hpp", ".py", ".js", ".html"):
        return True
    return not path.suffix and path.read_bytes().startswith(b"#!")


class Command(unittest.TestCase):
    def fails(self, words, wanted, status=1, **variables):
        ran = run(words, env={**os.environ, **variables})
        self.assertEqual((ran.returncode, ran.stdout), (status, ""))
        self.assertIn(wanted, ran.stderr)

    def test_help_has_an_example(self):
        for name in ("install", "debian-packages"):
            self.assertIn("Example:", done([TOOLS / name, "--help"]))

    def test_errors_name_the_file_and_the_reason(self):
        words = [TOOLS / "install", "--destdir", work() / "other"]
        self.fails([*words, "--prefix", "usr"], "--prefix usr: it is an absolute path", 2)
        self.fails([*words, "--libdir", "../lib"], "--libdir ../lib: it is a folder below PREFIX", 2)
        self.fails(words, "/missing: no such program", VDB="/missing")
        file = work() / "labels.vdbs"
        self.fails([*words[:2], file], f"{file}/usr/local/lib/pkgconfig: Not a directory")
        alone = work() / "python"
        alone.mkdir()
        (alone / "python3").symlink_to(sys.executable)
        self.fails([TOOLS / "debian-packages", work() / "none"], "dpkg-buildpackage is missing", PATH=str(alone))


if __name__ == "__main__":
    unittest.main()
