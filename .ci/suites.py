#!/usr/bin/env python3
# SPDX-License-Identifier: Apache-2.0
"""CI: installs packages, proves and builds every crate, and runs all tests: .ci/run [--anew] [--proofs | --quick]

  --quick   proves and installs nothing: plays all rows through the unproved program, and runs what needs the kit and NumPy alone
  --anew    proves everything anew: takes nothing that earlier runs on this machine kept
  --proofs  only proves, and builds the program crates/vdb/out/vdb and the archive crates/vdb_c/out/libvdb_c.a

It ends after the first stage in which something failed. The last lines say how long it took and how much is of earlier runs. The very last
is 'N passed, M failed', and ', K skipped' if any were. The status is 0 if nothing failed.

Example: .ci/run --anew
"""
import concurrent.futures
import os
import re
import resource
import shutil
import signal
import subprocess
import sys
import time
from typing import List, NamedTuple

TOP = os.path.dirname(os.path.dirname(os.path.abspath(__file__)))
# the only variables that reach the suites, since others change what they test, such as VDB and FUZZ_CALLS
VARIABLES = ("PATH", "HOME", "USER", "LANG", "TERM", "TMPDIR", "VDB_KEPT")
# what tests compile over OpenVDB: it needs no proof, so it fills the gaps of the proofs
EARLY = """flock tools/openvdb make -s -j2 -C tools/openvdb all probe sanitized counted &
flock bench/openvdb make -s -C bench/openvdb unoptimised; wait"""
# the tests that may be skipped, each as (SUITE, TEST), with the reason beside it
SKIPS = set()
# what a release is made of
BUILT = ("crates/vdb/out/vdb", "crates/vdb_c/out/libvdb_c.a")
CLOSING = re.compile(r"^(\d+) passed, (\d+) failed(?:, (\d+) skipped)?$", re.M)
UNITTEST = re.compile(r"^Ran (\d+) tests? in .*\n\n(?:OK|FAILED)(?: \((.*)\))?$", re.M)
SKIPPED = re.compile(r"^(\w+) \([^)]*\)(?:\n[^\n]*)?? \.\.\. skipped ", re.M)


# the programs whose calls on files fail in turn, and those whose saves are killed, each in a process of its own
SAVERS = ("vdb", "vdb_run", "child", "cpp", "library", "scenefile", "vdb_scene", "vdbs2vdb", "vdb2vdbs")
KILLED = ("vdb_run", "child", "cpp", "library", "scenefile", "vdbs2vdb", "vdb2vdbs")
IO_FAULTS = [*(f"calls.py {it}" for it in SAVERS), *(f"crashes.py {it}" for it in KILLED), "streams.py"]


class Suite(NamedTuple):
    """A command at the top. Its output ends with 'N passed, M failed' or as that of unittest does; of another command the status is the
    result. With fewer results than `least` it fails."""

    name: str
    words: List[str]
    least: int


class Result(NamedTuple):
    suite: Suite
    passed: int
    failed: int
    skipped: int
    seconds: float
    processor_seconds: float
    kept: List[str]


def stages(options):
    """The suites of CI. Those of a stage run side by side, one more than there are processors, the stages one after the other."""
    python = with_numpy()

    def unittest(*words):
        return [python, "-m", "unittest", *words, "-v"]

    if "--quick" in options:
        of_scenefile = [f"tests/python/test_{name}.py" for name in ("format", "grids", "mesh")]
        return [
            [
                Suite("unproved rows", ["tests/rows/unproved.py"], 240),
                Suite("tests of vdb.scenefile", unittest(*of_scenefile), 50),
                Suite("tests of rows and of the model", unittest("discover", "-s", "tests/rows"), 11),
                Suite("documents", [python, "tests/documents/documents.py"], 1),
            ]
        ]
    return [
        [Suite("texts of edits", ["tests/edits/run", "--texts"], 400)],
        [Suite("proofs", [python, ".ci/proofs.py", *(it for it in options if it == "--anew")], 20)],
        [Suite("libvdb", ["tools/build-libvdb"], 1)],
        [
            Suite("edits", ["nice", "-n", "10", "tests/edits/run", "--ci"], 28),
            Suite("library tests", ["tests/library/run"], 230),
            Suite("tests of tools/openvdb", ["tests/openvdb/run", "round_trips", "vdb_files", "notices", "faults", "failures"], 1),
            Suite("mutated .vdb files", ["tests/openvdb/run", "mutations"], 1),
            Suite("coverage of tools/openvdb", ["tests/openvdb/run", "counted"], 1),
            Suite("fault injection", ["tests/faults/run"], 100_000),
            Suite("fuzzing", [python, "tests/fuzz/run"], 4_000),
            Suite("planted bugs", [python, "tests/bugs/run", "--ci"], 40),
            Suite("rows", ["tests/rows/rows.py"], 240),
            Suite("public calls", ["tests/called.py"], 300),
            Suite("limits", ["tests/rows/limits.py"], 20),
            Suite("tests of rows and of the model", unittest("discover", "-s", "tests/rows"), 11),
            Suite("tests of tools/vdb-run", unittest("tests/tools/test_vdb_run.py"), 23),
            Suite("tests of libvdb", unittest("tests/c/test_libvdb.py"), 28),
            Suite("tests of limits through C", unittest("tests/c/test_limits.py"), 4),
            Suite("tests of tools/install", unittest("tests/tools/test_install.py"), 25),
            Suite("tests of the Python packages", ["tests/reached.py", "python"], 203),
        ],
        [
            Suite("I/O faults", ["tests/faults/run", *IO_FAULTS], 10_000),
            Suite("tests of saving", unittest("tests/tools/test_files.py"), 12),
            Suite("pages for users", [python, "tests/documents/documents.py", "--run"], 76),
            Suite("references", ["tools/build-docs"], 1),
            Suite("documents", [python, "tests/documents/documents.py"], 1),
        ],
    ]


def with_numpy():
    """An interpreter that has NumPy, if there is one."""
    for python in (sys.executable, "/usr/bin/python3"):
        if shutil.which(python) and not subprocess.run([python, "-c", "import numpy"], capture_output=True).returncode:
            return python
    return sys.executable


def install():
    """Installs the packages that are missing, if that is possible without asking."""
    def is_missing(name):
        asked = ["dpkg-query", "-W", "-f=${db:Status-Status}", name]
        return not shutil.which("dpkg-query") or subprocess.run(asked, capture_output=True, text=True).stdout != "installed"

    with open(f"{TOP}/.ci/packages", encoding="utf-8") as file:
        needed = [line.partition(":")[0].strip() for line in file if line.strip() and not line.startswith("#")]
    lacking = [name for name in needed if is_missing(name)]
    may = not os.geteuid() and shutil.which("apt-get")
    for words in [["update"], ["install", "-y", "--no-install-recommends", *lacking]] if lacking and may else []:
        subprocess.run(["apt-get", "-q", *words], stdin=subprocess.DEVNULL, timeout=600)
    if lacking and not may:
        print(f"These packages are missing, so tests may fail: {' '.join(lacking)}", flush=True)


def run(suite, is_alone):
    """Runs a suite and prints its output: at once if it runs alone, else at its end."""
    begun, said = time.time(), []
    environment = {name: os.environ[name] for name in VARIABLES if name in os.environ}
    how = {"stdin": subprocess.DEVNULL, "stdout": subprocess.PIPE, "stderr": subprocess.STDOUT, "text": True, "errors": "replace"}
    process = subprocess.Popen(["env", *suite.words], cwd=TOP, env=environment, **how)  # env reports a command that is missing
    for line in process.stdout:
        said.append(line)
        if is_alone:
            print(line, end="", flush=True)
    _, status, usage = os.wait4(process.pid, 0)
    process.returncode = os.waitstatus_to_exitcode(status)
    text = "".join(said)
    passed, failed, skipped, why = counted(suite, text, process.returncode)
    print("" if is_alone else f"== {suite.name}\n{text}", *(f"{suite.name}: {it}\n" for it in why), sep="", end="", flush=True)
    kept = re.findall(r"^kept from earlier runs: .*$", text, re.M)
    return Result(suite, passed, failed, skipped, time.time() - begun, usage.ru_utime + usage.ru_stime, kept)


def counted(suite, text, status):
    """How many tests of a suite passed, failed and were skipped, and why some failed beside those that it counted itself."""
    closing, ran = CLOSING.findall(text), UNITTEST.search(text)
    passed, failed, skipped, why = int(not status), 0, 0, []
    if ran:
        counts = {word: int(count) for word, count in re.findall(r"(\w+)=(\d+)", ran[2] or "")}
        failed, skipped = sum(counts.get(word, 0) for word in ("failures", "errors", "successes")), counts.get("skipped", 0)
        passed = max(0, int(ran[1]) - failed - skipped)
    elif closing:
        passed, failed, skipped = (int(it or 0) for it in closing[-1])
    named = SKIPPED.findall(text)
    unlisted = [it for it in named if (suite.name, it) not in SKIPS]
    if unlisted or skipped != len(named):
        why.append(f"{', '.join(unlisted) or skipped} skipped, which SKIPS of .ci/suites.py doesn't have")
    if status and not failed:
        why.append(f"ended with status {status}")
    elif passed + failed + skipped < suite.least:
        why.append(f"{passed + failed + skipped} results, where at least {suite.least} are expected")
    return passed, failed + len(why), skipped, why


def close(results, begun, is_whole):
    """Prints the last lines, and returns the status. Those of a whole run stay in out/ci.txt, below the commit and the sums of what it built."""
    lines = [f"{'suite':<30} {'passed':>7} {'failed':>7} {'skipped':>7} {'minutes':>8} {'processor seconds':>18}"]
    for it in results:
        lines.append(f"{it.suite.name:<30} {it.passed:7} {it.failed:7} {it.skipped:7} {it.seconds / 60:8.1f} {it.processor_seconds:18,.0f}")
    lines += [line for it in results for line in it.kept]
    both = [resource.getrusage(it) for it in (resource.RUSAGE_CHILDREN, resource.RUSAGE_SELF)]
    lines.append(f"{(time.time() - begun) / 60:.1f} minutes, {sum(it.ru_utime + it.ru_stime for it in both):,.0f} processor seconds")
    failed = sum(it.failed for it in results)
    skipped = sum(it.skipped for it in results)
    lines.append(f"{sum(it.passed for it in results)} passed, {failed} failed" + (f", {skipped} skipped" if skipped else ""))
    if is_whole:
        head = subprocess.run(["git", "rev-parse", "HEAD"], cwd=TOP, capture_output=True, text=True).stdout.strip()
        sums = subprocess.run(["sha256sum", *BUILT], cwd=TOP, capture_output=True, text=True).stdout.splitlines()
        os.makedirs(f"{TOP}/out", exist_ok=True)
        with open(f"{TOP}/out/ci.txt", "w", encoding="utf-8") as record:
            record.write("\n".join([f"commit {head}", *sums, *lines, ""]))
    print("\n".join(["", *lines]))
    return int(failed > 0)


def main():
    options = sys.argv[1:]
    unknown = [it for it in options if it not in ("--anew", "--proofs", "--quick")]
    if unknown:
        print(__doc__.strip())
        return 0 if unknown == ["--help"] else 2
    begun, results = time.time(), []
    signal.signal(signal.SIGINT, signal.default_int_handler)  # tests of Ctrl-C need it, and a shell's background commands ignore it
    if "--quick" not in options:
        install()
    is_whole = not {"--proofs", "--quick"} & {*options}
    quiet = {"stdin": subprocess.DEVNULL, "stdout": subprocess.DEVNULL, "stderr": subprocess.DEVNULL}
    early = subprocess.Popen(["nice", "-n", "19", "sh", "-c", EARLY if is_whole else ""], cwd=TOP, **quiet)  # the tests report what fails
    for stage in stages(options):
        if "--proofs" in options and stage[0].name != "proofs":
            continue
        if len(stage) > 1:
            early.wait()
        with concurrent.futures.ThreadPoolExecutor(len(os.sched_getaffinity(0)) + 1) as pool:
            ended = [pool.submit(run, suite, len(stage) == 1) for suite in stage]
        results += [it.result() for it in ended]
        if any(it.failed for it in results):
            break
    early.wait()
    return close(results, begun, is_whole)


if __name__ == "__main__":
    sys.exit(main())
