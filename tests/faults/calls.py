#!/usr/bin/env python3
# SPDX-License-Identifier: Apache-2.0
"""Each call on a program's own files fails in turn, under each program that loads and saves: calls.py [PROGRAM..]"""
import errno
import sys
from program import Tally
from savers import SAVERS, numbered

TALLY = Tally("calls")
EIO, EINTR, ENOSPC, EMFILE, ENOMEM, EPERM = errno.EIO, errno.EINTR, errno.ENOSPC, errno.EMFILE, errno.ENOMEM, errno.EPERM

#: What happens to each call: an error by its number, or that the call moves one byte, or none.
FAULTS = {
    "open": [EIO, ENOSPC, EMFILE, EINTR],
    "read": [EIO, EINTR, "one-byte"],
    "write": [EIO, ENOSPC, EINTR, "one-byte", "no-byte"],
    "close": [EIO, EINTR],
    "close-written": [EIO, ENOSPC, EINTR],  # of a file that was opened to be written and isn't removed
    "fsync": [EIO, ENOSPC, EINTR],
    "rename": [EIO, ENOSPC],
    "ftruncate": [EIO, EINTR],
    "lseek": [EIO],
    "mmap": [EIO, ENOMEM],
    "stat": [EIO],
    "readlink": [EIO],
    "access": [EIO],
    "chmod": [EIO],
    "chown": [EIO, EPERM],
    "unlink": [EIO],
}


def named(fault):
    return errno.errorcode.get(fault, fault)


def play(saver, at, name, number, fault, **more):
    """Runs a program whose call of this name and number has a fault, and checks its end."""
    injected = {"call_name": name, "call_at": number, "call_fault": fault, **more}
    done = saver.play(at, **injected)
    what = f"{saver.name} to {at}, {name} {number}: {named(fault)}{' and all later calls' if more else ''}"
    good = done.status == 0
    TALLY.check(good or done.status in saver.statuses, f"{what}: status {done.status}, {done.errors!r}")
    TALLY.check(b"Traceback" not in done.errors and b"terminate called" not in done.errors, f"{what}: {done.errors!r}")
    TALLY.check(bool(done.errors) != good or name == "write" or more, f"{what}: status {done.status}, {done.errors!r}")
    may_hide = name != "close-written" or fault == EINTR or saver.runs_vdb
    TALLY.check(may_hide or not good, f"{what}: the error isn't told")
    TALLY.check(done.answers == saver.answers if good else saver.answers.startswith(done.answers), f"{what}: answers {done.answers!r}")
    TALLY.check(saver.is_new(done.saved) if good else is_kept(saver, at, done), f"{what}: {done.status}, saved is {done.saved!r}")
    made = {"save.vdbs 644"} if at == "nothing" and (good or saver.in_place and done.saved is not None) else set()
    TALLY.check(done.left == made or name == "unlink" or more, f"{what}: {done.left} instead of {made}")
    return done


def is_kept(saver, at, done):
    """Returns whether a program that failed has left what was there. The file of one that saves in place may be lost, if it told so or
    could tell nothing."""
    if at == "pipe" or saver.in_place and (not done.errors or b": save: " in done.errors):
        return True
    return done.saved == (saver.old if at == "link" else None)


def each_call(saver):
    """Fails each call of a program: by each of its faults and with all later calls where an old file lies behind a link, by the first
    fault elsewhere. Returns the names of the calls that failed."""
    reached = set()
    for at in saver.places:
        done = saver.play(at)
        TALLY.check(done.status == 0 and done.answers == saver.answers and saver.is_new(done.saved), f"{saver.name} to {at}: {done}")
        for name, number in numbered(done.calls):
            faults = FAULTS[name] if at == "link" else FAULTS[name][:1]
            runs = [play(saver, at, name, number, fault) for fault in faults]
            runs += [play(saver, at, name, number, faults[0], call_all_after=1)] if at == "link" else []
            reached |= {name for it in runs if it.counts.get("faults")}
            kept = max(it.counts.get("left-open", 0) for it in runs)
            TALLY.check(kept <= done.counts["left-open"], f"{saver.name} to {at}, {name} {number}: {kept} descriptors are left open")
        TALLY.check(reached >= {*done.calls}, f"{saver.name} to {at}: no fault in {sorted({*done.calls} - reached)}")
    return reached


def main():
    names, reached = sys.argv[1:] or [*SAVERS], set()
    for name in names:
        reached |= each_call(SAVERS[name]())
    TALLY.check({"open", "read", "write", "close"} <= reached, f"only {sorted(reached)} failed")
    TALLY.end()


if __name__ == "__main__":
    main()
