#!/usr/bin/env python3
# SPDX-License-Identifier: Apache-2.0
"""Makes each allocation of the program `library_memory` fail in turn: library.py. That program makes the library's calls that
allocate: they reserve places in a pool, make nodes, copy nodes and trees, change a grid with accessors, and play a session over memory.

One allocation fails in each run: the first, then the second, until no allocation is left to fail. The call whose allocation
failed must report that, and that everything is as before; no other call may. The program then repeats the call, which must
do its work, and so must all calls after it. Each call of the program must have failed in some run. The program's word for a
failed call is 'refused'."""
import os
from program import HERE, Tally, Workplace

PROGRAM = os.environ.get("LIBRARY", str(HERE.parents[1] / "crates" / "library_memory" / "out" / "library_memory"))
ANSWERS = HERE.parents[1] / "crates" / "library_memory" / "stdout"
DONE, FAILED = b": done\n", b": refused, all as before\n"


def main():
    """Makes the allocations fail, and checks what each run prints."""
    place, tally = Workplace(PROGRAM, "LIBRARY"), Tally("library")
    done = ANSWERS.read_bytes()
    calls, reports, number = done.splitlines(keepends=True), set(), 0
    while True:
        number += 1
        injected = {"count_from_start": 1, "fail_allocation": number}
        run = place.execute([], "/dev/null", **injected)
        at = run.counts.get("failed-after")
        tally.check(run.status == 0 and run.errors == b"", f"allocation {number}: status {run.status}, {run.errors!r}")
        if at is None:
            tally.check(run.answers == done, f"no allocation failed: {run.answers!r}")
            break
        index = done[:at].count(b"\n")
        report = calls[min(index, len(calls) - 1)].replace(DONE, FAILED)
        reports.add(report)
        wanted = done[:at] + report + done[at:]
        tally.check(run.answers == wanted, f"allocation {number}, failed after {at} bytes: {run.answers!r}")
    for call in {*calls}:
        tally.check(call.replace(DONE, FAILED) in reports, f"{call!r} never failed")
    tally.end()


if __name__ == "__main__":
    main()
