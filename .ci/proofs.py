#!/usr/bin/env python3
# SPDX-License-Identifier: Apache-2.0
"""Runs the kit's rt ci in another order, and keeps what it proves: .ci/proofs.py [--anew]

What is proved, run and tried, and what fails, is rt's own. These functions of rt are replaced:

- `in_lanes`, which runs the tasks. rt never starts more jobs than there are processors, but the end of a proof keeps only one busy (Lanes).
- `Crate.prove`, which runs rattle. rt ci only checks a static library, and `rt lib` would prove it again for its archive. Here the check
  writes its result, from which the archive is built: crates/vdb_c/out/libvdb_c.a.
- `Crate.ci`, which proves a crate or its tests: what it proves is kept for later runs (kept.py). --anew takes nothing from earlier ones.
- `put_back`, which returns the libraries of before the run to crates/NAME/out: those of the run stay there.

The last two stay rt's own if it keeps what it proves, as later kits do. Of rt it also calls `main`, `processors` and `free`. With a kit
that has other functions it runs `RT_JOBS=$(nproc) rt ci`, and says so.
"""
import contextlib
import importlib.machinery
import importlib.util
import operator
import os
import queue
import shutil
import subprocess
import sys
import tempfile
import threading
import time

import kept
from crates import KIT, TOP, command_of, crates_below, library_of, named_by

STATIC = "vdb_c"  # the crate that is a static library
PROOF, OTHER = 3_800_000_000, 2_800_000_000  # the most bytes of a job of a proof, and of another task, measured for the largest crate
BEGUN = time.time()
SPENT = []  # of each ended process of rattle the crate, 'proof' or 'tests', and its processor seconds


def load():
    """Loads rt as a module."""
    loader = importlib.machinery.SourceFileLoader("rt", os.path.realpath(shutil.which("rt")))
    made = importlib.util.module_from_spec(importlib.util.spec_from_loader("rt", loader))
    loader.exec_module(made)
    return made


class Lanes:
    """Runs rt's tasks side by side. The key of a task is a crate's name and an action. The task has the keys of those that it waits for,
    its length in lines, the bytes of memory of a job, and a call that gets the results so far and a number of jobs. Length 0 doesn't count.

    Four jobs of one proof don't keep four processors busy, because its last part is one chain. So with four processors two proofs may run
    side by side. Other tasks fill the gaps: they have a lower priority, and leave the memory of the next proof free. Tasks with the longest
    chain of others behind them start first.
    """

    def __init__(self, tasks, processors, memory):
        self.tasks, self.processors, self.memory = tasks, processors, memory
        self.running, self.given, self.ended = {}, {}, queue.Queue()  # running: the jobs of each task
        behind = {key: 0 for key in tasks}
        for key in reversed([*tasks]):
            behind[key] += tasks[key][1]
            for below in tasks[key][0]:
                behind[below] = max(behind[below], behind[key])
        self.left = sorted(tasks, key=lambda key: -behind[key])

    def memory_of(self, key, jobs):
        """The memory of a task with so many jobs."""
        return min(self.tasks[key][2], PROOF if is_proof(key) else OTHER) * (1 + 0.6 * (jobs - 1))

    def jobs_for(self, key, ready):
        """The number of jobs with which a task may start now, or 0. `ready` has the tasks of its sort that may start, from this one on."""
        if not self.tasks[key][1]:
            return 1
        counted = [it for it in self.running if self.tasks[it][1]]
        proofs = [it for it in counted if is_proof(it)]
        free = self.memory - sum(self.memory_of(it, self.running[it]) for it in counted)
        if is_proof(key):
            most = 2 if self.processors >= 4 else 1
            others = sum(self.tasks[it][1] for it in ready[1:])
            is_alone = most == 1 or not proofs and 10 * others < self.tasks[key][1]
            jobs = 0 if len(proofs) == most else self.processors if is_alone else 3 * self.processors // 4
        else:
            idle = self.processors - sum(self.running[it] for it in counted)
            has_place = len(counted) - len(proofs) < self.processors + 1 - 2 * len(proofs)
            jobs = max(1, idle // len(ready)) if has_place else 0
            next_proof = max((self.memory_of(it, self.processors) for it in self.left if is_proof(it)), default=0)
            free -= max(0, next_proof - sum(self.memory_of(it, self.running[it]) for it in proofs))
        while jobs > (not counted) and self.memory_of(key, jobs) > free:
            jobs -= 1
        return jobs

    def run(self, key, jobs):
        """Runs a task in a thread of its own, which hands over the result or what was raised."""
        begun, result, error = time.time(), None, None
        try:
            if not is_proof(key):
                os.setpriority(os.PRIO_PROCESS, threading.get_native_id(), 10)  # of this thread and of its processes
            result = self.tasks[key][3](self.given, jobs)
        except BaseException as raised:
            error = raised
        if time.time() - begun >= 1:
            print(f"{' '.join(key)}: {time.time() - begun:.0f} s by {jobs}, ended at {(time.time() - BEGUN) / 60:.1f} min", flush=True)
        self.ended.put((key, result, error))

    def results(self):
        """Runs all tasks, and returns the result of each. Raises what a task raises."""
        while self.left or self.running:
            ready = [key for key in self.left if all(below in self.given for below in self.tasks[key][0])]
            for kind in (True, False):
                alike = [key for key in ready if is_proof(key) is kind]
                for number, key in enumerate(alike):
                    jobs = self.jobs_for(key, alike[number:])
                    if jobs:
                        self.left.remove(key)
                        self.running[key] = jobs
                        threading.Thread(target=self.run, args=(key, jobs), daemon=True).start()
            key, self.given[key], error = self.ended.get()
            if error:
                raise RuntimeError(f"the task {' '.join(key)} broke off: {type(error).__name__}: {error}") from error
            del self.running[key]
        return self.given


def is_proof(key):
    return key[1] == "proof"


def in_lanes(tasks):
    """Runs rt's tasks, and prints the processor seconds of each crate."""
    with getattr(rt, "ending", contextlib.nullcontext)():  # if rt has it, it ends the processes of tasks
        given = Lanes(tasks, rt.processors(), 0.85 * rt.free()).results()
    report([key for key, task in tasks.items() if key[1] in ("proof", "tests") and task[1] and given[key]])
    return given


def report(proved):
    """Prints the processor seconds of each crate, and how many of the proofs are of earlier runs."""
    spent = {}
    for name, action, seconds in SPENT:
        spent[name, action] = spent.get((name, action), 0) + seconds
    print(f"{'processor seconds':<24} {'proof':>8} {'tests':>8}")
    for name in named_by(TOP):
        both = [(name, "proof"), (name, "tests")]
        print(f"{name:<24} " + " ".join(f"{spent[it]:8.0f}" if it in spent else f"{'kept' if it in proved else '-':>8}" for it in both))
    print(f"kept from earlier runs: {sum(it not in spent for it in proved)} of {len(proved)} proofs", flush=True)


def count_seconds():
    """Has each process that ends counted in SPENT, with its own processes, if it is one of rattle for a crate."""

    def waited(process, flags):
        try:
            number, status, usage = os.wait4(process.pid, flags)
        except ChildProcessError:
            return process.pid, 0
        words = [*process.args]
        if number and "--crate-name" in words:
            action = "tests" if "--test" in words else "proof"
            SPENT.append((words[words.index("--crate-name") + 1], action, usage.ru_utime + usage.ru_stime))
        return number, status

    subprocess.Popen._try_wait = waited


def kept_or(prove, anew):
    """Crate.ci: takes what earlier runs kept, unless anew is set, and keeps what it proves."""

    def ci(crate, flags, tests):
        key = key_of(crate.name, "tests" if tests else "proof")
        names = [f"{crate.name}_tests"] if tests else ["rlib", crate.name, f"{crate.name}.by-rattle"]
        return kept.made(key, lambda: prove(crate, flags, tests), f"{crate.folder}/out", names, anew, crate.out)

    return ci


def without_libraries(put_back):
    """rt.put_back: returns what the run set aside, but no library: those of the run stay."""

    def put(root, aside, **more):
        for name in os.listdir(aside):
            shutil.rmtree(f"{aside}/{name}/rlib", ignore_errors=True)
        put_back(root, aside, **more)

    return put


def with_archive(prove):
    """Crate.prove: also builds and keeps the archive of a static library."""

    def proved(crate, *commands):
        verb, *words = commands[0]
        if not crate.is_static or verb != "check":
            return prove(crate, *commands)

        def make():
            with tempfile.TemporaryDirectory(prefix="proofs-") as room:
                checked, rest = f"{room}/checked", without(words, "--logic-built", "--jobs")
                return prove(crate, [verb, *words, "-o", checked]) or built(crate.name, [*rest, "--crate-checked", checked], crate.out)

        return kept.made(key_of(crate.name, "archive"), make, f"{crate.folder}/out", [f"lib{crate.name}.a"], True, crate.out)

    return proved


def key_of(name, action):
    """The call that gives the sum of all that an action on a crate depends on."""
    return lambda: kept.key_of(TOP, KIT, name, action)


def without(words, *flags):
    """These words without these flags and their values."""
    return [it for before, it in zip(["", *words], words) if before not in flags and it not in flags]


def built(name, words, out):
    """Builds the archive of a static library by rattle, and returns its status."""
    out.flush()
    os.makedirs(f"{TOP}/crates/{name}/out", exist_ok=True)
    whole = [f"{KIT}/bin/rattle", "build", *words, "--toolchain", f"{KIT}/toolchain", "-o", f"out/lib{name}.a"]
    return subprocess.run(whole, cwd=f"{TOP}/crates/{name}", stdin=subprocess.DEVNULL, stdout=out, stderr=subprocess.STDOUT).returncode


def build_the_rest(anew):
    """Builds the programs and the archive that rt ci left out, because their proofs are kept, and returns the status."""
    status, named = 0, named_by(TOP)
    for name in named:
        folder = f"{TOP}/crates/{name}"
        if os.path.exists(f"{folder}/src/main.rt") and not os.path.exists(f"{folder}/out/{name}"):
            status |= subprocess.run(["rt", "run"], cwd=folder, stdin=subprocess.DEVNULL, stdout=subprocess.DEVNULL).returncode
    folder, library = f"{TOP}/crates/{STATIC}/out", f"lib{STATIC}.a"
    if STATIC in named and not os.path.exists(f"{folder}/{library}"):
        libraries = {it: library_of(it) for it in crates_below(STATIC, named)}
        words = [*command_of(STATIC, named, libraries)[2:], "--crate-type", "staticlib", "--links", f"{STATIC}=", "--jobs", "2"]
        status |= kept.made(key_of(STATIC, "archive"), lambda: built(STATIC, words, sys.stdout), folder, [library], anew, sys.stdout)
    return status


def has(*paths):
    """Whether rt has all these functions."""
    try:
        return all(map(callable, operator.attrgetter("main", *paths)(rt)))
    except AttributeError:
        return False


def main():
    anew = "--anew" in sys.argv[1:]
    os.chdir(TOP)
    words = ["ci", *(["--anew"] if anew else [])]  # of a kit that keeps what it proves
    count_seconds()
    if has("in_lanes", "processors", "free", "Crate.prove"):
        rt.in_lanes, rt.Crate.prove = in_lanes, with_archive(rt.Crate.prove)
        if has("Crate.ci", "put_back") and not has("ending"):  # later kits have that, and keep what they prove
            rt.Crate.ci, rt.put_back = kept_or(rt.Crate.ci, anew), without_libraries(rt.put_back)
            status = rt.main(["ci"])
        else:
            print("rt itself keeps what it proves", flush=True)
            status = rt.main(words)
    else:
        print("rt itself orders the proofs: its functions have other names than this script knows", flush=True)
        status = subprocess.run(["rt", *words], env={**os.environ, "RT_JOBS": str(os.cpu_count())}).returncode
    status = status or build_the_rest(anew)
    kept.prune()
    sys.exit(status)


if __name__ == "__main__":
    if sys.argv[1:] not in ([], ["--anew"]):
        sys.exit(print(__doc__.strip()) if "--help" in sys.argv[1:] else "proofs.py: the only options are --anew and --help")
    if not shutil.which("rt"):
        sys.exit("proofs.py: rt, the command of Rattle's kit, is not on the PATH")
    rt = load()
    main()
