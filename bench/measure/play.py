# SPDX-License-Identifier: Apache-2.0
"""Runs of a program: its time, its peak memory, its exit status and what it writes."""
import os
import signal
from dataclasses import dataclass

from . import programs
from .programs import Failed


@dataclass
class Run:
    """One run: wall-clock seconds, peak memory in bytes, and the exit status."""

    seconds: float
    peak: int
    status: int


# seconds after which a run is ended
LIMIT = 600


def wait(command, child):
    """Waits for a child. It doesn't outlive an exception, and has LIMIT seconds."""

    def late(*_):
        raise Failed(f"{' '.join(command)} hadn't ended after {LIMIT} seconds")

    signal.signal(signal.SIGALRM, late)
    signal.alarm(LIMIT)
    try:
        os.waitpid(child, 0)
    except BaseException:
        os.kill(child, signal.SIGKILL)
        os.waitpid(child, 0)
        raise
    finally:
        signal.alarm(0)


def play(command, stdin=os.devnull, stdout=os.devnull, stderr=None):
    """Runs a command once on files, and returns the run."""
    runner = programs.runner()
    reading, writing = os.pipe()
    child = os.fork()
    if child == 0:
        try:
            os.dup2(os.open(stdin, os.O_RDONLY), 0)
            os.dup2(os.open(stdout, os.O_WRONLY | os.O_CREAT | os.O_TRUNC, 0o644), 1)
            if stderr:
                os.dup2(os.open(stderr, os.O_WRONLY | os.O_CREAT | os.O_TRUNC, 0o644), 2)
            os.dup2(writing, 3)
            os.execv(runner, [runner, *command])
        finally:
            os._exit(127)
    os.close(writing)
    with open(reading, encoding="ascii") as told:
        wait(command, child)
        words = told.read().split()
    if len(words) != 3:
        raise Failed(f"{' '.join(command)} couldn't be started")
    nanoseconds, kibibytes, status = map(int, words)
    return Run(nanoseconds / 1e9, kibibytes * 1024, os.waitstatus_to_exitcode(status))


def play_well(command, *files, **more):
    """Runs a command as `play` does, and fails unless it ends with status 0, or 1 after an error that the script asked for."""
    run = play(command, *files, **more)
    if run.status not in (0, 1):
        raise Failed(f"{' '.join(command)} ended with status {run.status}")
    return run
