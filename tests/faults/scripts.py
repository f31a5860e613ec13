#!/usr/bin/env python3
# SPDX-License-Identifier: Apache-2.0
"""Scripts: short, endless and too long ones, reads and writes that fail, and wrong command lines. scripts.py [PART..]"""
import sys
from program import TIMEOUT, SCRIPT_LIMIT, Tally, Workplace, feeding
from vectors import rows_of

TALLY, PLACE = Tally("scripts"), Workplace()
GRID = b"grid a i32 0\n"
MOST_CHUNKS = 2000


def run(script, **injected):
    return PLACE.run(script, **injected)


def through(chunks):
    """Returns a run that reads its script through a pipe, which is filled while the program reads."""
    with feeding(PLACE.folder / "pipe", chunks) as path:
        return run(path, seconds=max(TIMEOUT, 280))


def row():
    """Returns the script of a row with many answers, the answers, and those of each line."""
    found = rows_of("two-grids")["values of two grids"]
    return found.script, found.answered, [line.answered for line in found.commands]


def ended(done, status, errors, answers, what):
    """Checks how a run ended. After a fault nothing is saved."""
    TALLY.check(done.status == status and done.errors == errors, f"{what}: status {done.status}, {done.errors!r}")
    TALLY.check(done.answers == answers, f"{what}: other answers")
    TALLY.check((done.saved is None) == (status == 4), f"{what}: {'no' if done.saved is None else 'a'} file is saved")


MIXED = (
    b"# a comment with a hundred tokens" + b" a" * 90 + b"\n\n \t\r\n" + GRID + b"\t get  a - 5 5 5\r\n"
    + b"# " + b"x" * 254 + b"\n# " + b"x" * 255 + b"\nget a - 5 5 5 " + b"y" * 400 + b"\nset a 0 1 2 3 05\nset a 7 1 2 3 5\n"
    + b"get a 7 1 2 3\nlist a 0 0 0 9 9 9 4\nslice a 3 0 0 3 3\n" + b"z" * 5000 + b"\nget a - 1 2 3"
)
MIXED_ANSWERS = (
    b"ok\nvalue 0 off\nerror line-too-long\nerror line-too-long\nerror syntax\nok\nvalue 5 on\n1 2 3 5\nend 1\n"
    b"row 0 (0) (0) (0) (0)\nrow 1 (0) (0) (0) (0)\nrow 2 (0) 5 (0) (0)\nrow 3 (0) (0) (0) (0)\nend 4\n"
    b"error line-too-long\nvalue 5 on\n"
)


def pieces():
    """Reads of 1 to 300 bytes, and short writes of the answers, change nothing."""
    script, answers, _ = row()
    saved = run(script).saved
    for most in range(1, 301):
        done = run(script, read_most=most)
        ended(done, 1, b"", answers, f"reads of {most} bytes")
        TALLY.check(done.saved == saved, f"reads of {most} bytes: the saved file is another")
        ended(run(MIXED, read_most=most), 1, b"", MIXED_ANSWERS, f"long and blank lines, reads of {most} bytes")
    for most in (1, 2, 3, 5):
        ended(run(script, write_most=most), 1, b"", answers, f"writes of {most} bytes")
        ended(run(MIXED, write_most=most), 1, b"", MIXED_ANSWERS, f"longer answers, writes of {most} bytes")


def last_lines():
    """The last line may lack its newline, and the program doesn't read again after the end."""
    for script, answers in [
        (b"", b""),
        (b"\n", b""),
        (GRID[:-1], b"ok\n"),
        (GRID, b"ok\n"),
        (GRID + b"get a - 0 0 0", b"ok\nvalue 0 off\n"),
        (GRID + b" ", b"ok\n"),
        (GRID + b"#", b"ok\n"),
    ]:
        done = run(script)
        ended(done, 0, b"", answers, f"the script {script!r}")
        TALLY.check(done.counts.get("script-read-after-end") == 0, f"the script {script!r}: read again after its end")


def readers():
    """A read that fails, at each call, and a script that ends at each call."""
    script, _, of_lines = row()
    for call in range(1, len(script) // 7 + 3):
        read = script[: 7 * (call - 1)]
        complete = read.count(b"\n")
        answers = b"".join(of_lines[:complete])
        injected = {"read_most": 7, "read_at": call}
        failed = run(script, **injected)
        ended(failed, 4, b"vdb: script: read\n", answers, f"call {call} fails")
        TALLY.check(failed.counts.get("script-reads") == call, f"call {call} fails: the program reads again")
        plain = run(read)
        done = run(script, **injected, read_kind="nothing")
        ended(done, plain.status, plain.errors, plain.answers, f"the script ends at call {call}")
        TALLY.check(done.saved == plain.saved, f"the script ends at call {call}: the saved file is another")


def by_name():
    """A script that the command line names: short reads, a read that fails, a missing file."""
    script, answers, of_lines = row()
    for most in (1, 7, 300):
        ended(run(script, named=True, read_of_file=1, read_most=most), 1, b"", answers, f"a named script, reads of {most} bytes")
    for call in range(1, len(script) // 7 + 3):
        complete = script[: 7 * (call - 1)].count(b"\n")
        failed = run(script, named=True, read_of_file=1, read_most=7, read_at=call)
        before = b"".join(of_lines[:complete])
        ended(failed, 4, b"vdb: script: read\n", before, f"a named script, call {call} fails")
    missing = run(PLACE.folder / "missing", named=True)
    ended(missing, 4, b"vdb: script: read\n", b"", "a missing script")


def words():
    """Wrong command lines exit with status 2, help and version with 0. None of them reads a script, answers or saves."""
    for more in (["--lod"], ["-l", "f"], ["--load"], ["--load", "f", "--load", "g"], ["--save=f"], ["f", "g"]):
        done = run(GRID, more=more)
        quiet = done.answers == b"" and done.saved is None and done.counts.get("script-reads") == 0
        TALLY.check(done.status == 2 and done.errors != b"" and quiet, f"{more}: status {done.status}")
    for more in (["--help"], ["-h"], ["--version"], ["-V"]):
        done = run(GRID, more=more)
        quiet = done.errors == b"" and done.saved is None and done.counts.get("script-reads") == 0
        TALLY.check(done.status == 0 and done.answers != b"" and quiet, f"{more}: status {done.status}")


def writers():
    """A write that fails or writes nothing, at each call, and writes that fail after some bytes."""
    for script, answers in [row()[:2], (MIXED, MIXED_ANSWERS)]:
        calls = run(script).counts["answer-writes"]
        for call in range(1, calls + 1):
            for kind in ("fail", "nothing"):
                broken(script, answers, {"write_at": call, "write_kind": kind}, call, None)
        for size in range(0, len(answers), 3):
            broken(script, answers, {"write_after": size}, None, size)
    done = run(GRID + b"get a - 5 5 5\n", write_after=3)
    ended(done, 4, b"vdb: answers: write\n", b"ok\n", "writes fail after three bytes")


def broken(script, answers, injected, call, size):
    """Checks a run whose writes fail: the output is a prefix of the answers, and the program doesn't write again."""
    done = run(script, **injected)
    TALLY.check(answers.startswith(done.answers), f"{injected}: the output is no prefix of the answers")
    ended(done, 4, b"vdb: answers: write\n", done.answers, f"{injected}")
    if call is not None:
        TALLY.check(done.counts.get("answer-writes") == call, f"{injected}: {done.counts.get('answer-writes')} calls")
    if size is not None:
        TALLY.check(len(done.answers) == size, f"{injected}: {len(done.answers)} bytes written")


def longest():
    """Scripts of the greatest size, and of one byte more."""
    path = PLACE.folder / "newlines"
    path.write_bytes(b"\n" * SCRIPT_LIMIT)
    ended(run(path), 0, b"", b"", "newlines up to the limit")
    path.write_bytes(b"\n" * (SCRIPT_LIMIT + 1))
    longer = run(path)
    ended(longer, 4, b"vdb: script: too-long\n", b"", "one newline more")
    within(longer, "one newline more")
    path.write_bytes(b"\n" * (SCRIPT_LIMIT - len(GRID)) + GRID)
    ended(run(path), 0, b"", b"ok\n", "a command that ends at the limit")
    path.write_bytes(b"\n" * (SCRIPT_LIMIT - len(GRID)) + GRID + b"#")
    ended(run(path), 4, b"vdb: script: too-long\n", b"ok\n", "a command that ends at the limit, and one byte more")
    path.write_bytes(b"\n" * (SCRIPT_LIMIT - len(GRID) + 1) + GRID)
    ended(run(path), 4, b"vdb: script: too-long\n", b"", "a command that ends one byte past the limit")
    path.write_bytes(b"\n" * (SCRIPT_LIMIT - len(GRID) + 1) + GRID[:-1])
    ended(run(path), 0, b"", b"ok\n", "a last line without newline that ends at the limit")
    path.unlink()


def endless():
    """Endless scripts: the program ends one byte past the limit."""
    for first, chunk, answers in [(b"", b"#", b""), (GRID, b"\n", b"ok\n"), (GRID, b"\n \t\r#x\n", b"ok\n")]:
        done = through([first, *[chunk * (65_536 // len(chunk))] * MOST_CHUNKS])
        ended(done, 4, b"vdb: script: too-long\n", answers, f"{chunk!r} for ever")
        within(done, f"{chunk!r} for ever")


def within(done, what):
    """Checks that the program asked for one byte past the limit, and no more."""
    asked = done.counts.get("script-furthest", 0)
    TALLY.check(SCRIPT_LIMIT < asked <= SCRIPT_LIMIT + 1, f"{what}: byte {asked} was asked for")


PARTS = [pieces, last_lines, readers, by_name, words, writers, longest, endless]


def main():
    names = sys.argv[1:] or [part.__name__ for part in PARTS]
    for part in PARTS:
        if part.__name__ in names:
            part()
    TALLY.end()


if __name__ == "__main__":
    main()
