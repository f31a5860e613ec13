#!/usr/bin/env python3
# SPDX-License-Identifier: Apache-2.0
"""Makes each allocation of each row fail: allocations.py [SUBJECT..]. A row is a script with its answers, and a subject a file of
rows in tests/rows.

The shim counts calls of malloc, realloc and the other allocating functions, from the first read on. A row is run once, and at each
allocation the program is copied: in the copy this allocation alone fails. So each allocation of each row fails once, in a time that grows
with their number. The rows are played side by side, one on each processor. Each copy must show:

- The command whose allocation failed answers `error memory`, and no other command does. If the row has another error for
  that command, it answers this one. Only in a dilation may `memory` replace `root-limit`.
- The scene then saves the same bytes as the scene before that command.
- Each accessor with a last coordinate answers the same there as before.
- No allocation fails outside a command, or in a command that allocates nothing: the row marks those lines.
- The command and all that follow, given again, have the row's answers, and the scene saves the row's bytes. The first copy of each line
  shows this, and at least 450 of a row at even distances, or all. The others have the same scene and accessors then.

In further runs one allocation and all after it fail. The lines that don't answer `error memory` must then answer, and the
scene must save, as if the others weren't in the script."""
import concurrent.futures
import os
import sys
import tempfile
from itertools import repeat
from pathlib import Path
from program import FAST, Run, Tally, Workplace, content, counts
from vectors import rows_of

ALL_AFTER_RUNS = 20
REPLAYED = 450  # the least number of copies that play the rest of a row
PATIENCE = 1_200  # seconds for a row and its copies
SUBJECTS = ["accessors", "boxes", "dilate-and-erode", "layouts", "metadata", "root-limit", "two-grids", "value-ranges", "voxels"]
ALLOCATES_NOTHING = {"get", "drop", "prune", "count", "bounds", "list", "slice", "census", "unmeta", "metas"}
BY_ACCESSOR = {"get", "set", "unset", "only", "state"}
LONG = (b"list ", b"slice ", b"metas ")
MEMORY = b"error memory\n"


def answer_of_each(lines, answers):
    """Returns the answer to each line of a script without blank lines and comments."""
    found, rest = [], answers.splitlines(keepends=True)[::-1]
    for line in lines:
        answer = rest.pop() if rest else b""
        while line.startswith(LONG) and rest and not answer.splitlines()[-1].startswith((b"end ", b"more ", b"error ")):
            answer += rest.pop()
        found.append(answer)
    return found


def script_of(lines):
    return b"".join(line + b"\n" for line in lines)


def probes(lines, answers):
    """Returns a `get` for each accessor that has a last coordinate after these lines with these answers."""
    last = {}
    for line, answer in zip(lines, answers):
        words = line.decode("latin-1").split()
        if words[0] == "drop" and answer == b"ok\n":
            last = {key: at for key, at in last.items() if key[0] != words[1]}
        reached = answer.startswith((b"ok", b"value")) or answer in (b"error root-limit\n", MEMORY)
        if words[0] in BY_ACCESSOR and words[2] != "-" and reached:
            last[words[1], words[2]] = words[3:6]
    return [" ".join(["get", *key, *at]).encode() for key, at in last.items()]


def memory_may_replace(line, error):
    """Returns whether `memory` may replace this error: only `root-limit` of a dilation, which finds it while it allocates."""
    return line.startswith(b"dilate ") and error == b"error root-limit\n"


class Row:
    """The runs of one row."""

    def __init__(self, row, place, tally):
        self.name, self.place, self.tally = row.name, place, tally
        commands = [line for line in row.commands if line.answers]
        self.lines = [line.text[:-1] for line in commands]
        self.answers = [line.answered for line in commands]
        self.marked = {index for index, line in enumerate(commands) if line.allocates_nothing}
        self.before, self.read = {}, {}

    def check(self, holds, what):
        self.tally.check(holds, f"{self.name}: {what}")

    def run(self, lines, **injected) -> Run:
        return self.place.run(script_of(lines), **injected)

    def all(self):
        """Checks all runs of the row."""
        whole = self.run(self.lines)
        self.check(whole.answers == b"".join(self.answers), "the answers are not the row's")
        self.check(whole.saved is not None and "allocations" in whole.counts, "the run didn't end by itself")
        allocations = whole.counts.get("allocations", 0)
        self.check(allocations > 0 or b"ok\n" not in self.answers, "the shim counted no allocation")
        with tempfile.TemporaryDirectory(prefix="branches-", dir=FAST) as folder:
            self.each(whole, allocations, Path(folder))
        for number in range(1, allocations + 1, -(-allocations // ALL_AFTER_RUNS) or 1):
            self.all_after(number)

    def each(self, whole, allocations, folder):
        """Runs the row with a copy at each allocation, and checks the copies."""
        for index in range(len(self.lines)):
            rest = [*self.probes_after(index), b"", *self.lines[index:]]
            (folder / f"{index + 1}.rest").write_bytes(script_of(rest))
        stride = max(1, allocations // REPLAYED)
        script = self.place.path_of("script", script_of(self.lines))
        trunk = self.place.execute(["--save", "saved"], script, PATIENCE, branches=folder, branch_stride=stride)
        self.check((trunk.status, trunk.answers, trunk.errors) == (whole.status, whole.answers, b""), f"with copies: {trunk.status}, {trunk.errors!r}")
        met = range(1, trunk.counts.get("allocations", 0) + 1)
        failed = [number for number in met if (folder / str(number)).is_dir()]
        self.check(failed == [*met], f"no copy at the allocations {sorted({*met} - {*failed})[:9]}")
        lines = {number: self.one(number, folder / str(number), whole) for number in failed}
        replayed = {number: index for number, (index, is_replayed) in lines.items() if is_replayed}
        wanted = {number for number in met if number % stride == 0}
        self.check({*replayed} >= wanted and {*replayed.values()} == {index for index, _ in lines.values()}, f"only {[*replayed]} play the rest")
        print(f"{self.name}: {len(failed)} of {len(met)} allocations failed; the rest was played after {len(replayed)}", flush=True)

    def one(self, number, folder, whole):
        """Checks the copy in which this allocation failed. Returns the index of the line, and whether the copy has played the rest."""
        found = counts(folder / "report")
        is_replayed, ends = bool(found.get("replayed")), (found.get("status"), found.get("status-before"))
        before, answers = self.kept(folder / ("before" if is_replayed else "saved")), self.kept(folder / "answers") or b""
        answers = whole.answers[: found.get("failed-after", 0)] + answers
        run = Run(ends[0], answers, b"", before, found)
        index = self.line_after(run.counts.get("failed-after", 0))
        self.check(ends == (1, 1 if is_replayed else None), f"allocation {number}: the statuses are {ends}")
        self.check(index is not None, f"allocation {number} failed outside any command")
        if index is not None:
            self.failed_line(number, index, run, is_replayed)
        if is_replayed:
            self.check(self.kept(folder / "saved") == whole.saved, f"allocation {number}: given again, the row ends with another scene")
        return index, is_replayed

    def kept(self, path):
        """Returns the bytes of a file, or None. Those of many links to a file are read once."""
        if not path.exists():
            return None
        number = path.stat().st_ino
        if number not in self.read:
            self.read[number] = content(path)
        return self.read[number]

    def all_after(self, number):
        """Checks the run in which this allocation and all after it fail."""
        run = self.run(self.lines, fail_allocation=number, fail_all_after=1)
        answers = answer_of_each(self.lines, run.answers)
        kept = [(line, answer) for line, answer in zip(self.lines, answers) if answer != MEMORY]
        other = self.run([line for line, _ in kept])
        what = f"all allocations from {number} on fail"
        # if every command whose allocation failed has another error anyway, none need answer memory
        is_reported = len(kept) < len(self.lines) or any(answer.startswith(b"error ") for answer in self.answers)
        self.check(len(answers) == len(self.lines) and is_reported, f"{what}: {run.status}, {len(kept)} lines")
        self.check(other.answers == b"".join(answer for _, answer in kept), f"{what}: the other lines have other answers")
        self.check(other.saved == run.saved, f"{what}: the scene is another")

    def line_after(self, written):
        """Returns the index of the line that ran when this many bytes of answers were written, or None."""
        for index, answer in enumerate(self.answers):
            if written == 0:
                return index
            written -= len(answer)
        return None

    def failed_line(self, number, index, run, is_replayed):
        """Checks the line in which this allocation failed: the scene and the accessors then, and the line and the rest given again."""
        what = f"allocation {number}, line {index + 1}"
        line = self.lines[index]
        allocates_nothing = line.split()[0].decode() in ALLOCATES_NOTHING or index in self.marked
        self.check(not allocates_nothing, f"{what}: {line!r} allocates")
        saved, probed = self.before_line(index)
        before = b"".join(self.answers[:index])
        error = self.answers[index] if self.answers[index].startswith(b"error ") else MEMORY
        if memory_may_replace(line, error) and run.answers.startswith(before + MEMORY):
            error = MEMORY
        wanted = before + error + probed
        self.check(run.answers.startswith(wanted), f"{what}: the failed command and the probes after it have other answers")
        self.check(run.saved == saved, f"{what}: the scene is not the one before")
        rest = self.answers[index:] if is_replayed else []
        self.check(run.answers == wanted + b"".join(rest), f"{what}: given again, it answers otherwise")

    def probes_after(self, index):
        """Returns the probes of accessors after a line in which an allocation failed."""
        return probes(self.lines[: index + 1], [*self.answers[:index], MEMORY])

    def before_line(self, index):
        """Returns what the scene before a line saves, and its answers to the probes, if no allocation fails."""
        if index not in self.before:
            run = self.run([*self.lines[:index], *self.probes_after(index)])
            self.before[index] = run.saved, run.answers[len(b"".join(self.answers[:index])) :]
        return self.before[index]


def is_plain(row):
    """Returns whether a row has lines that are answered, each with its newline, loads nothing and ends without a fault."""
    lines = [line.text for line in row.commands if line.answers]
    return lines and row.load is None and row.status < 2 and all(line.count(b"\n") == 1 and line.endswith(b"\n") for line in lines)


def played(subject, name, shim):
    """Plays a row, and returns how many checks passed and failed."""
    tally = Tally("allocations")
    Row(rows_of(subject)[name], Workplace(shim=shim), tally).all()
    return tally.passed, tally.failed


def main():
    tally, place = Tally("allocations"), Workplace()
    chosen = [(subject, name) for subject in sys.argv[1:] or SUBJECTS for name, row in rows_of(subject).items() if is_plain(row)]
    with concurrent.futures.ProcessPoolExecutor(len(os.sched_getaffinity(0))) as pool:
        for passed, failed in pool.map(played, *zip(*chosen), repeat(place.shim)):
            tally.passed, tally.failed = tally.passed + passed, tally.failed + failed
    tally.end()


if __name__ == "__main__":
    main()
