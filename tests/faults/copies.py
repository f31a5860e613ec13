# SPDX-License-Identifier: Apache-2.0
"""Carries out programs in Python, each in a copy of this process, which has loaded what they import: copies.py

Each line of standard input is a JSON list: the words of a program (a script, or vdb-scene), its further environment, the files
of its standard streams, and its seconds. A line with its exit status, or a signal's number below 0, answers it.
"""
import argparse  # noqa: F401
import contextlib
import ctypes
import functools
import gc
import json
import os
import shutil  # noqa: F401
import signal
import subprocess  # noqa: F401
import sys
import tempfile  # noqa: F401
import traceback

import numpy  # noqa: F401
import vdb.command
import vdb.scenefile  # noqa: F401

SHIM = ctypes.CDLL(None)
SET_CHILD_SUBREAPER = 36  # of <linux/prctl.h>
COMMAND = "vdb-scene"


@functools.lru_cache(None)
def compiled(script):
    with open(script, "rb") as file:
        return compile(file.read(), script, "exec")


def carry_out(words, environment, streams, seconds):
    """Carries out a program in this process, and ends it."""
    counted = environment.pop("LD_PRELOAD", None)
    os.environ.update(environment)
    for number, path in enumerate(streams):
        file = os.open(path, os.O_WRONLY | os.O_CREAT | os.O_TRUNC if number else os.O_RDONLY, 0o600)
        os.dup2(file, number)
        os.close(file)
    signal.alarm(seconds)
    status = 0
    if counted:
        SHIM.faults_begin()
    try:
        if words[0] == COMMAND:
            status = vdb.command.main(words[1:])
        else:
            sys.argv = words
            exec(compiled(words[0]), {"__name__": "__main__", "__file__": words[0]})
    except SystemExit as end:
        status = end.code or 0
    except BaseException:
        traceback.print_exc()
        status = 1
    try:
        sys.stdout.flush()
    except OSError:
        status = 120  # as the interpreter ends then
    if counted:
        SHIM.faults_end()
    os._exit(status)


def ended(child):
    """Waits for a copy, and for what it started and left, which still writes files. Returns the copy's status, or a signal's number below 0."""
    status = os.waitstatus_to_exitcode(os.waitpid(child, 0)[1])
    with contextlib.suppress(ChildProcessError):
        while True:
            os.waitpid(-1, 0)
    return status


def main():
    SHIM.prctl(SET_CHILD_SUBREAPER, 1, 0, 0, 0)
    vdb.command.parser()  # compiles the patterns of argparse
    gc.freeze()
    text = b""
    while True:
        data = os.read(0, 65_536)  # no buffer that a copy would read too
        if not data:
            return
        *requests, text = (text + data).split(b"\n")
        for request in requests:
            words, *more = json.loads(request)
            if words[0] != COMMAND:
                compiled(words[0])
            child = os.fork()
            if child == 0:
                carry_out(words, *more)
            os.write(1, b"%d\n" % ended(child))


if __name__ == "__main__":
    main()
