# SPDX-License-Identifier: Apache-2.0
"""Runs a built program, with faults injected into its calls of the C library on request."""
import os
import signal
import subprocess
import sys
import tempfile
import threading
import time
from contextlib import contextmanager
from dataclasses import dataclass, field, replace
from pathlib import Path

HERE = Path(__file__).resolve().parent
sys.path.append(str(HERE.parents[1] / "tests" / "rows"))  # encoding.py and vectors.py
PROGRAM = os.environ.get("VDB", str(HERE.parents[1] / "crates" / "vdb" / "out" / "vdb"))
TIMEOUT = int(os.environ.get("TIMEOUT", "60"))
#: where the files of many runs lie, in memory if there is such a place: on a busy disk a file takes milliseconds, and fsync seconds
FAST = "/dev/shm" if os.access("/dev/shm", os.W_OK) else None
LOAD_LIMIT = 268_435_456
SCRIPT_LIMIT = 16_777_216


@dataclass
class Run:
    """The result of a run: the exit status, the answers, the text on standard error, the saved file (None if there is none),
    the shim's counts, the files beside the saved one that were made, changed or removed, and the names of the calls on own files."""

    status: int
    answers: bytes
    errors: bytes
    saved: "bytes | None"
    counts: dict = field(default_factory=dict)
    left: set = field(default_factory=set)
    calls: list = field(default_factory=list)


class Workplace:
    """A folder for one set of runs, with the built shim, or that of another workplace."""

    def __init__(self, program=PROGRAM, variable="VDB", shim=None):
        if not os.access(program, os.X_OK):
            crate = f"crates/{Path(program).name}"
            sys.exit(f"no program {program}: build it with 'rt run < /dev/null' in {crate}, or name another in {variable}")
        self.program = program
        self.holder = tempfile.TemporaryDirectory(prefix="faults-")
        self.folder = Path(self.holder.name)
        self.shim = shim or self.folder / "faults.so"
        if not shim:
            sources = [HERE / f"{name}.c" for name in ("faults", "calls", "branches")]
            subprocess.run(["gcc", "-O2", "-shared", "-fPIC", "-o", self.shim, *sources], check=True)

    def run(self, script, load=None, save_as=None, seconds=TIMEOUT, named=False, more=(), **injected):
        """Runs a script (bytes, or the path of a file) from standard input, or as a SCRIPT word if `named`. `load` is the
        scene file to load (bytes, or a path), `save_as` the file to save instead of one in the folder, and `more` the last
        words of the command line. `injected` is as in `execute`."""
        saved, words = str(save_as or self.folder / "saved"), []
        if save_as is None:
            remove(saved)
        if load is not None:
            words += ["--load", self.path_of("loaded", load)]
        words += ["--save", saved]
        path = self.path_of("script", script)
        words += [path] if named else []
        run = self.execute([*words, *more], "/dev/null" if named else path, seconds, **injected)
        return replace(run, saved=content(saved)) if os.path.exists(saved) else run

    def execute(self, words, path, seconds=TIMEOUT, counted=True, **injected):
        """Runs the program with these words and the file at `path` as standard input. `injected` gives the shim's variables in
        small letters. A run that isn't `counted` goes without the shim: it is faster, and injects nothing."""
        report, answers, errors = (str(self.folder / name) for name in ("report", "answers", "errors"))
        remove(report)
        environment = {"REPORT": report, "LD_PRELOAD": str(self.shim)} if counted else {}
        environment.update((name.upper(), str(value)) for name, value in injected.items())
        status = self.status([self.program, *words], environment, [path, answers, errors], seconds)
        if status == -signal.SIGKILL:
            return Run(status, b"", f"killed, or no end within {seconds} seconds".encode(), None)
        return Run(status, content(answers), content(errors), None, counts(report) if counted else {})

    def status(self, words, environment, streams, seconds):
        """Starts a program with the files at these paths as its standard streams. Returns its status once it has ended."""
        new = os.O_WRONLY | os.O_CREAT | os.O_TRUNC
        opened = [(os.POSIX_SPAWN_OPEN, number, path, new, 0o600) for number, path in enumerate(streams) if number > 0]
        with open(streams[0], "rb") as standard_input:
            actions = [(os.POSIX_SPAWN_DUP2, standard_input.fileno(), 0), *opened]
            return status_of(os.posix_spawn(words[0], words, environment, file_actions=actions), seconds)

    def path_of(self, name, text):
        """Returns the path of a file with this text, which may itself be a path."""
        if not isinstance(text, bytes):
            return str(text)
        path = str(self.folder / name)
        with open(path, "wb") as file:
            file.write(text)
        return path


def content(path):
    with open(path, "rb") as file:
        return file.read()


def remove(path):
    """Removes this file if it exists."""
    try:
        os.unlink(path)
    except FileNotFoundError:
        pass


def status_of(child, seconds):
    """Waits for this process and kills it after this many seconds. Returns its exit status, or a signal's number below 0."""
    signal.signal(signal.SIGALRM, lambda *_: os.kill(child, signal.SIGKILL))
    signal.alarm(seconds)
    status = os.waitpid(child, 0)[1]
    signal.alarm(0)
    return os.waitstatus_to_exitcode(status)


def counts(report):
    """Returns the numbers of the shim's report by their words."""
    if not os.path.exists(report):
        return {}
    lines = content(report).decode().split("\n")
    return {word: int(number) for word, number in (line.split(" ") for line in lines if line)}


class Tally:
    """Counts the checks that passed and failed."""

    def __init__(self, subject):
        self.subject, self.passed, self.failed, self.began = subject, 0, 0, time.monotonic()

    def check(self, holds, what):
        """Counts one check. Prints the first 20 that fail."""
        if holds:
            self.passed += 1
            return
        self.failed += 1
        if self.failed <= 20:
            print(f"FAILED {self.subject}: {what}"[:1000])

    def end(self):
        """Prints the time and the counts, which `run` adds up, and exits."""
        print(f"{self.subject}: {time.monotonic() - self.began:.0f} seconds")
        print(f"{self.subject}: {self.passed} passed, {self.failed} failed", flush=True)
        sys.exit(1 if self.failed else 0)


def fill(path, chunks):
    """Writes these chunks into a pipe until its reader closes it."""
    try:
        with open(path, "wb", buffering=0) as pipe:
            for chunk in chunks:
                pipe.write(chunk)
    except BrokenPipeError:
        pass


@contextmanager
def feeding(path, chunks):
    """Makes a pipe at this path and writes these chunks into it. At the end it opens and closes the pipe until the writer has
    ended, since the program may never have opened it."""
    os.mkfifo(path)
    feeder = threading.Thread(target=fill, args=(path, chunks))
    feeder.start()
    try:
        yield path
    finally:
        while feeder.is_alive():
            os.close(os.open(path, os.O_RDONLY | os.O_NONBLOCK))
            feeder.join(0.05)
        path.unlink()
