# SPDX-License-Identifier: Apache-2.0
"""Builds what is measured beside the program: the benchmarks over the crates' libraries, and the programs over OpenVDB. Where things lie in
the repository, and the one error that ends a part.

A benchmark is a text of bench/library. It is proved and linked over the libraries that .ci/run left in the crates' folders
out/, so that no crate is proved again. It is kept in bench/out, and built again only if the text, a library or the kit has changed.
"""
import hashlib
import os
import re
import shutil
import subprocess
import sys
import tempfile
import threading
from concurrent.futures import ThreadPoolExecutor

BENCH = os.path.dirname(os.path.dirname(os.path.abspath(__file__)))
TOP = os.path.dirname(BENCH)
OPENVDB = f"{BENCH}/openvdb"

# programs that are built once and kept, which git ignores
OUT = f"{BENCH}/out"

# the most memory that the build of one benchmark takes, in bytes
JOB = 4_000_000_000


class Failed(Exception):
    """A program or a library is missing, or a run of a program went wrong: the text says which, and what to do."""


def vdb():
    """Returns the program that is measured: the variable VDB, or the one that .ci/run --proofs leaves."""
    program = os.environ.get("VDB") or f"{TOP}/crates/vdb/out/vdb"
    if not os.access(program, os.X_OK) or os.path.isdir(program):
        raise Failed(f"{os.path.relpath(program)} isn't an executable program: build it by .ci/run --proofs, or name another one in the variable VDB")
    return os.path.abspath(program)


def say(text):
    """Prints a line of progress."""
    print(f"bench/all: {text}", file=sys.stderr, flush=True)


def kit():
    """Returns the folder of the kit whose `rt` is on the PATH."""
    found = shutil.which("rt")
    if not found:
        raise Failed("the kit's rt isn't on the PATH, so no benchmark can be linked")
    return os.path.dirname(os.path.dirname(os.path.realpath(found)))


def text_of(name):
    """Returns the text of a file of bench/library."""
    try:
        with open(f"{BENCH}/library/{name}.txt", encoding="utf-8") as file:
            return file.read()
    except OSError as error:
        raise Failed(f"bench/library/{name}.txt: {error.strerror}") from None


def sources_of(name):
    """Returns the files of a benchmark's crate, each with its text: `main`, and the modules that it names."""
    main = text_of(name)
    return {"main": main, **{module: text_of(module) for module in re.findall(r"^mod (\w+);$", main, re.M)}}


USES = re.compile(r"// uses: (.*)\n")


def is_benchmark(name):
    """Returns whether a text of bench/library is a benchmark, and no module of several."""
    return bool(USES.match(text_of(name)))


def libraries_of(name):
    """Returns the folders of the libraries that a benchmark's first line names, and fails if one isn't built."""
    names = USES.match(text_of(name))[1].split()
    found = {it: f"{TOP}/crates/{it}/out/rlib/{it}.rlib" for it in names}
    lacking = [it for it, folder in found.items() if not os.path.isfile(f"{folder}/format")]
    if lacking:
        raise Failed(f"crates/{lacking[0]}/out has no library: run .ci/run --proofs first")
    return found


def stamp_of(sources, libraries, folder):
    """Returns a checksum of all that a benchmark is made of. The file `format` of a library holds the checksums of its other files."""
    seen = hashlib.sha256(repr(sources).encode())
    for path in [*(f"{it}/format" for it in libraries.values()), f"{folder}/KIT-ID"]:
        with open(path, "rb") as file:
            seen.update(file.read())
    return seen.hexdigest()


def called(words, folder, what):
    """Calls a tool, and fails with the last lines that it wrote unless it succeeds."""
    ran = subprocess.run(words, cwd=folder, stdin=subprocess.DEVNULL, stdout=subprocess.PIPE, stderr=subprocess.STDOUT, text=True, errors="replace")
    if ran.returncode:
        lines = [it for it in ran.stdout.splitlines() if it.startswith(("error", "rattle", "fn ")) and not it.endswith(": proved")]
        raise Failed(f"{what} failed: {' / '.join((lines or ran.stdout.splitlines())[-3:])[:600]}")


def link(sources, libraries, folder, program, what):
    """Proves a benchmark and links it over its libraries."""
    with tempfile.TemporaryDirectory(prefix="bench-") as room:
        os.mkdir(f"{room}/src")
        for module, text in sources.items():
            with open(f"{room}/src/{module}.rt", "w", encoding="utf-8") as file:
                file.write(text)
        words = [f"{folder}/bin/rattle", "build", "--crate-name", "bench", "src/main.rt", "--extern", f"std={folder}/rlibs/std.rlib"]
        for name, library in libraries.items():
            words += ["--extern", f"{name}={library}", "-L", f"dependency={os.path.dirname(library)}"]
        words += ["-L", f"dependency={folder}/rlibs", "--antt-project", f"{folder}/rattle/logic/antt-project.json"]
        words += ["--logic-built", f"{folder}/logic_built", "--toolchain", f"{folder}/toolchain", "--jobs", "1", "-o", "bench.o"]
        called(words, room, f"{what}: the build over the crates' libraries (if they don't fit one another, remove crates/*/out/rlib and run .ci/run --proofs)")
        words = [f"{folder}/bin/rattle-link", "--target", "x86_64-unknown-linux-gnu", "--toolchain", f"{folder}/toolchain", "-o", "bench", "bench.o"]
        called([*words, f"{folder}/c/libos_c.a", f"{folder}/c/liblibc_c.a"], room, f"{what}: the link")
        os.makedirs(OUT, exist_ok=True)
        shutil.copy(f"{room}/bench", f"{program}.new")
        os.replace(f"{program}.new", program)


def benchmark(name):
    """Returns the program of a benchmark, which is built if need be."""
    sources, libraries, folder, program = sources_of(name), libraries_of(name), kit(), f"{OUT}/{name}"
    stamp = stamp_of(sources, libraries, folder)
    try:
        with open(f"{program}.stamp", encoding="utf-8") as file:
            if file.read() == stamp and os.access(program, os.X_OK):
                return program
    except OSError:
        pass
    say(f"building the benchmark {name}, which takes one to three minutes")
    link(sources, libraries, folder, program, name)
    with open(f"{program}.stamp", "w", encoding="utf-8") as file:
        file.write(stamp)
    return program


def peer(name, making=threading.Lock()):
    """Returns a program over OpenVDB, `openvdb` or `loops`, which is built if need be."""
    with making:
        if not shutil.which("make"):
            raise Failed("make isn't installed: bench/README.md has the packages")
        if subprocess.run(["make", "-q", name], cwd=OPENVDB, capture_output=True).returncode:
            say(f"building bench/openvdb/{name}, which takes one to three minutes")
        called(["make", name], OPENVDB, f"make {name} in bench/openvdb")
    return f"{OPENVDB}/{name}"


def runner(making=threading.Lock()):
    """Returns the program that runs others and measures them, which is built if need be."""
    source, program = f"{BENCH}/measure/runner.c", f"{OUT}/runner"
    with making:
        if not os.path.exists(program) or os.path.getmtime(program) < os.path.getmtime(source):
            os.makedirs(OUT, exist_ok=True)
            called(["cc", "-O2", "-o", program, source], OUT, "the build of bench/measure/runner.c")
    return program


def side_by_side():
    """Returns how many benchmarks may be built at once."""
    with open("/proc/meminfo", encoding="utf-8") as file:
        free = next(1024 * int(line.split()[1]) for line in file if line.startswith("MemAvailable:"))
    return max(1, min(len(os.sched_getaffinity(0)), free // JOB))


def build(benchmarks, peers):
    """Builds programs side by side, and returns for each name the program or what failed."""

    def tried(call, name):
        try:
            return call(name)
        except Failed as failed:
            return failed

    with ThreadPoolExecutor(side_by_side()) as pool:
        calls = {name: pool.submit(tried, peer, name) for name in peers}
        calls.update({name: pool.submit(tried, benchmark, name) for name in benchmarks})
        return {name: it.result() for name, it in calls.items()}
