#!/usr/bin/env python3
# SPDX-License-Identifier: Apache-2.0
"""Scene files: truncated, extended, changed and endless ones, and reads and writes that fail. files.py [PART..]"""
import sys
from itertools import chain
from program import LOAD_LIMIT, TIMEOUT, Tally, Workplace, feeding
import encoding
import vectors

TALLY, PLACE = Tally("files"), Workplace()
NO_SCRIPT = b""
PLAIN = b"grid z i32 0\n"


def run(script, **injected):
    return PLACE.run(script, **injected)


def rejected(done, word, what):
    """Checks a load fault: its line and status, no line of the script read, no answer, nothing saved."""
    TALLY.check(done.errors == f"vdb: load: {word}\n".encode(), f"{what}: {done.errors!r} instead of {word}")
    quiet = done.answers == b"" and done.counts.get("script-reads") == 0
    TALLY.check(done.status == 3 and quiet, f"{what}: status {done.status}, answers {done.answers!r}")
    TALLY.check(done.saved is None, f"{what}: something is saved")


def accepted(done, saved, what):
    """Checks that the session succeeded and saved these bytes."""
    TALLY.check(done.status == 0 and done.errors == b"", f"{what}: status {done.status}, {done.errors!r}")
    TALLY.check(done.saved == saved, f"{what}: the saved file is another")


def loaded_as(text, what, script=NO_SCRIPT):
    """Loads these bytes, and checks that the program does what encoding.py says."""
    wanted = encoding.verdict(text)
    done = run(script, load=text)
    if isinstance(wanted, str):
        rejected(done, wanted, what)
    else:
        accepted(done, wanted, what)
    return done, wanted


def whole():
    """One file is loaded and saved. The rows of scene files load and save others."""
    path = PLACE.folder / "both"
    path.write_bytes(vectors.ACTIVE)
    words = PLACE.run(b"set a - 1 2 3 6\n", load=path, save_as=path)
    TALLY.check(words.status == 0 and path.read_bytes()[-1] == 6, "one file is loaded and saved")
    for name, text in vectors.CUT.items():
        accepted(run(NO_SCRIPT, load=text), encoding.verdict(text), f"{name}, loaded")


def cut():
    """Each proper prefix of a file is `truncated`, each extension `trailing`."""
    for name, text in {**vectors.CUT, "empty-1": vectors.EMPTY_1, "empty": vectors.EMPTY}.items():
        for size in range(len(text)):
            rejected(run(PLAIN, load=text[:size]), "truncated", f"the first {size} bytes of {name}")
        for more in (b"\x00", b"\xff", b"\n", text, b"\x00" * 70_000):
            rejected(run(PLAIN, load=text + more), "trailing", f"{name} with {len(more)} bytes more")


def changed():
    """A file with any one byte changed to any other value has a fault, or is saved as those very bytes."""
    for name in ("an active voxel", "a voxel at negative coordinates", "a voxel of a grid with a metadata pair"):
        text = vectors.MADE[name][0]
        for at, value in ((at, value) for at in range(len(text)) for value in range(256) if value != text[at]):
            other, what = text[:at] + bytes([value]) + text[at + 1 :], f"{name}, byte {at} as {value:02x}"
            done, wanted = loaded_as(other, what)
            TALLY.check(isinstance(wanted, str) or done.saved == other, f"{what}: the saved file is another")
        print(f"{name}: each of {len(text)} bytes has had each other value", flush=True)


def faults():
    """Each fault of a file, by its word, in the rows of bad scene files."""
    for name, word, text in vectors.REJECTED:
        rejected(run(PLAIN, load=text), word, name)
        TALLY.check(encoding.verdict(text) == word, f"{name}: encoding.py says {encoding.verdict(text)!r}")


def readers():
    """Short reads of the file; a read that fails, at each call; and a file that ends at each call."""
    for name, text in vectors.CUT.items():
        newer = encoding.verdict(text)
        for most in (1, 2, 3, 7, len(text)):
            accepted(run(NO_SCRIPT, load=text, read_of_file=1, read_most=most), newer, f"{name}, {most} bytes a read")
        rejected(run(PLAIN, load=text, read_of_file=1, read_after=20), "read", f"{name}, reads fail after 20 bytes")
        for call in range(1, len(text) + 2):
            injected = {"read_of_file": 1, "read_most": 1, "read_at": call}
            rejected(run(PLAIN, load=text, **injected), "read", f"{name}, call {call} fails")
            if call <= len(text):
                done = run(PLAIN, load=text, **injected, read_kind="nothing")
                rejected(done, "truncated", f"{name}, the file ends at call {call}")
    missing = PLACE.run(PLAIN, load=PLACE.folder / "missing")
    rejected(missing, "read", "a missing file")


def not_saved(done, word, answers, what):
    """Checks a save fault: its line and status, and the answers before it."""
    TALLY.check(done.errors == f"vdb: save: {word}\n".encode(), f"{what}: {done.errors!r} instead of {word}")
    TALLY.check(done.status == 4 and done.answers == answers, f"{what}: status {done.status}, answers {done.answers!r}")


def writers():
    """Writes of one byte to the save file; a write that fails or writes nothing, at each call; a failure after any size."""
    text, script = vectors.MADE["a voxel of a grid with a metadata pair"]
    answers = b"ok\n" * 3
    accepted(run(script, write_of_file=1, write_most=1), text, "one byte a write")
    for call in range(1, len(text) + 1):
        injected = {"write_of_file": 1, "write_most": 1, "write_at": call}
        not_saved(run(script, **injected), "write", answers, f"call {call} fails")
        not_saved(run(script, **injected, write_kind="nothing"), "write", answers, f"call {call} writes nothing")
        not_saved(run(script, write_of_file=1, write_after=call - 1), "write", answers, f"writes fail after {call - 1} bytes")
    missing = PLACE.run(script, save_as=PLACE.folder / "missing" / "file")
    not_saved(missing, "write", answers, "a file that can't be created")


def allocations():
    """Each allocation of a load fails in turn: the fault is `memory`, and comes exactly if an allocation failed."""
    for name, text in {**vectors.CUT, **vectors.LARGER}.items():
        newer = encoding.verdict(text)
        number, done = 1, run(PLAIN, load=text, fail_allocation=1)
        while "failed-after" in done.counts and number < 5000 and done.counts.get("script-reads") == 0:
            rejected(done, "memory", f"{name}, allocation {number} fails")
            number += 1
            done = run(NO_SCRIPT, load=text, fail_allocation=number)
        TALLY.check(number > 1, f"{name}: the shim counted no allocation")
        accepted(done, newer, f"{name}, no allocation fails")


def start():
    """Each allocation from the start of the program fails in turn. The program then rejects the command line or the file, or
    goes on as if nothing had failed."""
    number, has_failed = 0, True
    while has_failed:
        number += 1
        done = run(NO_SCRIPT, load=vectors.ACTIVE, fail_allocation=number, count_from_start=1)
        has_failed = "failed-after" in done.counts
        end = done.status, done.answers, done.saved
        gave_up = end in ((2, b"", None), (3, b"", None)) and done.errors.count(b"\n") == 1
        unharmed = end == (0, b"", vectors.ACTIVE) and done.errors == b""
        TALLY.check(unharmed or (gave_up and has_failed), f"allocation {number} from the start fails: {end}, {done.errors!r}")
    TALLY.check(number > 1, "the shim counted no allocation")


def through(chunks):
    """Returns a run that loads a file through a pipe, which is filled while the program reads."""
    with feeding(PLACE.folder / "pipe", chunks) as path:
        return run(NO_SCRIPT, load=path, seconds=max(TIMEOUT, 280))


def endless():
    """Endless files, and files of four grids that exceed the size limit."""
    rejected(through(vectors.without_end(b"#")), "magic", "an endless file of #")
    rejected(through(vectors.without_end(b"\n")), "magic", "an endless file of newlines")
    rejected(through(vectors.without_end(vectors.ACTIVE, b"\x00")), "trailing", "a file followed by endless zeros")
    for version in (1, 2):
        long = through(vectors.planes(version))
        rejected(long, "too-long", f"four grids of a plane each, version {version}")
        asked = long.counts.get("load-furthest", 0)
        TALLY.check(0 < asked <= LOAD_LIMIT + 1, f"version {version}: byte {asked} was asked for")


def limit():
    """A file of the greatest size loads and saves. A byte after it is `trailing`; a scene one byte longer is `too-long`."""
    TALLY.check(sum(map(len, vectors.at_limit())) == LOAD_LIMIT, "the file made here has another size")
    done = through(vectors.at_limit())
    TALLY.check(done.status == 0 and done.errors == b"", f"a file of the greatest size: status {done.status}, {done.errors!r}")
    TALLY.check(done.saved == b"".join(vectors.at_limit()), "the saved file of the greatest size is another")
    rejected(through(chain(vectors.at_limit(), [b"\x00"])), "trailing", "a file of the greatest size and a byte after it")
    rejected(through(vectors.at_limit(1)), "too-long", "a scene one byte longer")


def too_long():
    """A scene too long to be saved: the fault comes before the first byte, and the file is empty."""
    plane = b"grid a bool false\nfill a 0 0 0 0 4095 4095 true on\n"
    done = run(plane + b"copy a b\ncopy a c\ncopy a d\n", seconds=max(TIMEOUT, 280))
    not_saved(done, "too-long", b"ok\n" * 5, "four grids of a plane each")
    TALLY.check(done.saved == b"" and done.counts.get("save-writes") == 0, "the program wrote bytes before too-long")


PARTS = [whole, cut, changed, faults, readers, writers, allocations, start, endless, limit, too_long]


def main():
    names = sys.argv[1:] or [part.__name__ for part in PARTS]
    for part in PARTS:
        if part.__name__ in names:
            part()
    TALLY.end()


if __name__ == "__main__":
    main()
