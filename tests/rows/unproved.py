#!/usr/bin/env python3
# SPDX-License-Identifier: Apache-2.0
"""Plays rows through the program `vdb` as the kit compiles it from its sources, unproved: tests/rows/unproved.py [FILE..]

Without a FILE of rows it plays all of them.

`rt try` builds the program with checks of overflow, bounds and memory, and runs it once for each row. It makes no use of a second processor,
so many rows are shared out to as many calls as half the processors, each of which compiles the program. A row that writes more than a scene
file may have is left to the built program, since these checks make it take minutes. If all rows passed, and nothing that this depends on
has changed since, the next run repeats their count. The last line is 'N passed, M failed'.
"""
import concurrent.futures
import hashlib
import os
import re
import shutil
import subprocess
import sys
import tempfile
from pathlib import Path

from rows import TOP, Malformed, difference, files, read, words_of

FILES = files()
TOO_LONG = b"vdb: save: too-long\n"  # what a row left out prints
#: the most seconds of a row: some take a minute, and several on a machine with other work
SECONDS = 1_200
#: the number of rows for which it is worth to compile the program once more
WORTH = 60
#: the sum of all that the last run depended on in which all rows passed
PASSED = TOP / "out" / "unproved-rows"
# what rt try prints of a case, which is a row's number: the answers, and in another stream standard error and the end
ANSWERS = re.compile(rb"^== (\d+)\n((?:(?!== \d+\n).*\n)*)", re.M)
END = re.compile(rb"^((?:(?!case=).*\n)*)case=(\d+) run=ended status=(\d+) .*\n", re.M)


def played(rows, folder):
    """Plays rows in a new folder by one call of rt try. Returns what differs in each, or an empty text."""
    cases = folder / "cases"
    cases.mkdir(parents=True)
    for number, row in enumerate(rows):
        (folder / f"{number}.load").write_bytes(row.load or b"")
        (cases / str(number)).write_bytes(row.script)  # standard input, and a file `case` in the program's folder
        words = words_of(row, "case" if number % 3 else "", folder / f"{number}.load", folder / f"{number}.saved")
        (cases / f"{number}.args").write_text("".join(f"{word}\n" for word in words))
    words = ["rt", "try", "--seconds", str(SECONDS), "--cases", str(cases)]
    ran = subprocess.run(words, cwd=TOP / "crates" / "vdb", stdin=subprocess.DEVNULL, capture_output=True)
    answers = {int(number): text for number, text in ANSWERS.findall(ran.stdout)}
    ends = {int(number): (errors, int(status)) for errors, number, status in END.findall(ran.stderr)}
    if len(ends) < len(rows):
        print(f"{ran.stderr[-2000:].decode('latin-1')}rt try ended with status {ran.returncode}", flush=True)
    return [
        difference(row, answers.get(number, b""), *ends[number], folder / f"{number}.saved") if number in ends else f"{row.place}: no end"
        for number, row in enumerate(rows)
    ]


def sum_of_all():
    """Returns a sum of all that a run depends on: the kit, the crates' sources, the files of rows and their players."""
    kit = Path(shutil.which("rt")).resolve().parent.parent / "KIT-ID"
    total = hashlib.sha256()
    for file in [kit, TOP / "crates.txt", *sorted(TOP.glob("crates/*/src/**/*.rt")), *sorted(Path(__file__).parent.glob("*.py")), *FILES]:
        total.update(f"{file}\0".encode() + hashlib.sha256(file.read_bytes()).digest())
    return total.hexdigest()


def main():
    if sys.argv[1:] == ["--help"]:
        sys.exit(print(__doc__.strip()))
    chosen = [Path(it) for it in sys.argv[1:]] or FILES
    if not shutil.which("rt"):
        sys.exit("unproved.py: rt, the command of Rattle's kit, is not on the PATH")
    try:
        known = [row for file in chosen for row in read(file)]
    except (Malformed, OSError) as error:
        sys.exit(f"unproved.py: {error}")
    rows, left = [row for row in known if row.stderr != TOO_LONG], [row for row in known if row.stderr == TOO_LONG]
    before = sum_of_all()
    if chosen == FILES and PASSED.exists() and PASSED.read_text() == before:
        print(f"kept from earlier runs: {len(rows)} of {len(rows)} unproved rows\n{len(rows)} passed, 0 failed")
        return
    print(*(f"left to the built program: {row.place}" for row in left), sep="\n", flush=True)
    parts = max(1, min(len(os.sched_getaffinity(0)) // 2, len(rows) // WORTH))
    with tempfile.TemporaryDirectory() as folder, concurrent.futures.ThreadPoolExecutor(parts) as pool:
        places = [Path(folder, str(part)) for part in range(parts)]
        failed = [it for part in pool.map(played, [rows[part::parts] for part in range(parts)], places) for it in part if it]
    print("".join(f"{it}\n" for it in failed) + f"{len(rows) - len(failed)} passed, {len(failed)} failed")
    if failed or not rows:
        sys.exit(1)
    if chosen == FILES and sum_of_all() == before:
        PASSED.parent.mkdir(exist_ok=True)
        PASSED.write_text(before)


if __name__ == "__main__":
    main()
