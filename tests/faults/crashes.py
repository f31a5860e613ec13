#!/usr/bin/env python3
# SPDX-License-Identifier: Apache-2.0
"""Each program that replaces a file is killed at each of its calls, alone and with the power: crashes.py [PROGRAM..]

The file is then the old one or the new one, whole. Without the power it loses the bytes that weren't put on the disk before.
"""
import signal
import sys
from pathlib import Path
from program import Tally
from savers import SAVERS, numbered

TALLY = Tally("crashes")
#: vdb saves in place, and from_npy as scenefile does.
REPLACING = [name for name in SAVERS if name not in ("vdb", "vdb_scene")]


def is_temporary(left):
    """Returns whether a file that a killed program left has the name of a temporary one."""
    return Path(left).name.startswith(".") or left.startswith("tmp/")


def kill(saver, at, name, number, fault):
    """Kills a program at a call, and checks what it leaves. Returns whether the file is the new one."""
    injected = {"call_name": name, "call_at": number, "call_fault": fault}
    done = saver.play(at, **injected)
    what, old = f"{saver.name} to {at}, {fault} at {name} {number}", saver.old if at == "link" else None
    is_new, is_met = done.saved != old, done.calls.count(name) >= number
    status = 0 if not is_met else 4 if saver.in_child else -signal.SIGKILL
    TALLY.check(done.status == status, f"{what}: status {done.status}, {done.errors!r}")
    TALLY.check(is_met or saver.name == "vdb-run" and name == "write", f"{what}: never made")  # vdb-run may write several answers at once
    TALLY.check(not is_new or saver.is_new(done.saved), f"{what}: the file is {done.saved!r}")
    left = {it for it in done.left if saver.in_child or not is_temporary(it)}
    TALLY.check(left == ({"save.vdbs 644"} if is_new and at == "nothing" else set()), f"{what}: {left} is left")
    return is_new


def each_call(saver):
    """Kills a program at each call. A file that it has replaced is on the disk at its end, with its name."""
    for at in [it for it in saver.places if it != "pipe"]:
        done = saver.play(at)
        TALLY.check(done.status == 0 and saver.is_new(done.saved), f"{saver.name} to {at}: {done}")
        TALLY.check(done.counts.get("renamed") == 0, f"{saver.name} to {at}: the new name isn't on the disk")
        for fault in ("killed", "power"):
            ends = [kill(saver, at, name, number, fault) for name, number in numbered(done.calls)]
            TALLY.check({*ends} == ({False} if saver.in_child else {False, True}), f"{saver.name} to {at}, {fault}: always the same file")


def main():
    for name in sys.argv[1:] or REPLACING:
        each_call(SAVERS[name]())
    TALLY.end()


if __name__ == "__main__":
    main()
