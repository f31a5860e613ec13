# SPDX-License-Identifier: Apache-2.0
"""The cases of the fuzzer. Each function plays one case by all drivers and returns the first difference as a text, or an empty one."""
import operator
import re
import sys

from mutating import encoding, lines_of  # before modules of tests and tests/faults, whose folders it adds
import by_openvdb
from allocations import answer_of_each, memory_may_replace
from cells import EXTENTS, TooLarge
from drivers import C, Package, loaded_by_package, same, vdb
from language import Scene, error_of
from program import Workplace

MOST_NODES = (200, 2000, 3000)  # upper, lower and leaf nodes of a scene after a line; one that makes more is left out, as too slow and large
MOST_PARTS = 100  # nodes and root blocks of a scene whose file the model writes
MEMORY = [b"error memory\n"]
DOUBTFUL = re.compile(rb"meta \S+ (end|more|error) ")  # makes lines of `metas` that look like the last one, or like an error


def refused_nodes(scene, line, answer):
    """Returns how many upper, lower and leaf nodes a dilation needs before it is refused: its states."""
    words = line.decode("latin-1").split()
    if words[:1] != ["dilate"] or answer != ["error root-limit"]:
        return [0, 0, 0]
    cells = scene.grids[words[1]].cells
    for _ in range(int(words[2])):
        cells = cells.iterated(True)
    return [cells.uneven(side) for side in EXTENTS]


def vetted(lines, most=MOST_NODES, scene=None):
    """Returns the lines that the model can answer, and that need no more nodes, each with its answer, and the last scene. The first scene has
    no grids unless it is given."""
    scene, kept = scene or Scene(), []
    for line in lines:
        before = {name: grid.copy() for name, grid in scene.grids.items()}
        try:
            answer = scene.answer(line)
            if any(map(operator.gt, scene.nodes(), most)) or any(map(operator.gt, refused_nodes(scene, line, answer), most)):
                raise TooLarge
            kept.append((line, answer))
        except TooLarge:
            scene.grids = before
    return kept, scene


def text_of(lines):
    return b"".join(line + b"\n" for line in lines)


def as_bytes(answers):
    return "".join(f"{line}\n" for answer in answers for line in answer).encode("latin-1")


def first_difference(kept, found):
    """Returns which line of a script has another answer."""
    rest = found.decode("latin-1").split("\n")
    for line, answer in kept:
        got, rest = rest[: len(answer)], rest[len(answer) :]
        if got != answer:
            return f"{line!r} answers {got[:5]}, not {answer[:5]}"
    return f"more answers {rest[:5]}"


class Cases:
    """The drivers, and a folder for the program's files."""

    def __init__(self):
        self.place = Workplace()
        self.played = {"calls of C": 0, "calls of Python": 0, "lines of OpenVDB": 0}
        self.has_peer = bool(by_openvdb.PROGRAM)

    # -- scripts

    def script(self, lines, chance):
        """Plays a script by the program, both libraries and OpenVDB, with the answers and the file of the model."""
        return self.vetted_script(*vetted(lines), chance)

    def vetted_script(self, kept, scene, chance):
        lines, wanted = [line for line, _ in kept], as_bytes(answer for _, answer in kept)
        run = self.place.run(text_of(lines), counted=False)
        if run.answers != wanted:
            return f"the program: {first_difference(kept, run.answers)}"
        if (run.status, run.errors) == (4, b"vdb: save: too-long\n") and scene.parts() > MOST_PARTS:
            return ""  # so many parts may be more bytes than a file may have
        status = int(any(error_of(answer) for _, answer in kept))
        if (run.status, run.errors) != (status, b"") or run.saved is None:
            return f"the program: status {run.status}, {run.errors!r}"
        if scene.parts() <= MOST_PARTS and scene.saved() != run.saved:
            return "the program saves another file than the model"
        at = chance.randrange(len(lines) + 1)
        fault = self.called(kept, run.saved, chance) or (self.in_two(lines, at, run) if chance.random() < 0.3 else "")
        return fault or self.by_openvdb(lines)

    def in_two(self, lines, at, run):
        """Plays a script in two sessions, the second of which loads what the first saved."""
        first = self.place.run(text_of(lines[:at]), counted=False)
        second = self.place.run(text_of(lines[at:]), load=first.saved, counted=False)
        if first.answers + second.answers != run.answers or second.saved != run.saved:
            return f"the program: another end in two sessions, split before line {at + 1}"
        return ""

    def called(self, kept, saved, chance):
        """Plays a script by the calls of both libraries."""
        for name, driver in (("C", C(chance)), ("Python", Package(chance))):
            for line, answer in kept:
                if answer:
                    found = driver.answer(line.decode("latin-1").split(), answer)
                    self.played[f"calls of {name}"] += found is not None
                    if found is not None and not same(found, answer):
                        return f"{name}: {line!r} answers {found[:5]}, not {answer[:5]}"
            if driver.saved() != saved:
                return f"{name}: another file than the program's"
            driver.end()
        return ""

    def by_openvdb(self, lines):
        """Plays a script by OpenVDB, if it is to play."""
        count, fault = by_openvdb.compared(lines) if self.has_peer else (0, "")
        self.played["lines of OpenVDB"] += count
        return fault

    def row(self, row, chance):
        """Plays a row, whose answers and files must be those of the model."""
        if row.stderr:
            same_fault = encoding.verdict(row.load) == row.stderr.decode().split()[-1]
            return self.file(row.load, chance) if same_fault else "encoding.py has another fault"
        kept, scene = vetted(lines_of(row), [sys.maxsize] * 3, row.load and Scene.loaded(row.load))
        if [line for _, answer in kept for line in answer] != [answer.text for answer in row.answers]:
            return "the model has other answers"
        return self.file(row.load, chance) if row.load else self.vetted_script(kept, scene, chance)

    # -- memory

    def memory(self, lines, chance):
        """Makes one allocation of a script fail, or it and all after it. The other lines answer as if the failed ones weren't there."""
        lines = [b" ".join(re.findall(rb"[^ \t\r]+", line)) for line, answer in vetted(lines)[0] if answer and len(line) <= 256]
        lines = [line for line in lines if not DOUBTFUL.match(line)]
        plain = self.place.run(text_of(lines))
        allocations = plain.counts.get("allocations", 0)
        if not allocations:
            return ""
        failing, after = chance.randint(1, allocations), chance.randrange(2)
        run = self.place.run(text_of(lines), fail_allocation=failing, fail_all_after=after)
        whole, found = ([[it] for it in answer_of_each(lines, done.answers)] for done in (plain, run))
        kept = [number for number, answer in enumerate(found) if answer != MEMORY]
        failed = [number for number, answer in enumerate(found) if answer == MEMORY]
        what = f"allocation {failing} fails{', and all after it' if after else ''}"
        if failed and whole[failed[0]][0].startswith(b"error ") and not memory_may_replace(lines[failed[0]], whole[failed[0]][0]):
            return f"{what}: {lines[failed[0]]!r} answers memory, not {whole[failed[0]][0]!r}"
        if (run.errors, run.status) != (b"", int(any(answer[0].startswith(b"error ") for answer in found))):
            return f"{what}: status {run.status}, {run.errors!r}"
        other = self.place.run(text_of(lines[number] for number in kept), counted=False)
        if other.answers != b"".join(found[number][0] for number in kept) or other.saved != run.saved:
            return f"{what}: the other lines have other answers, or another file"
        return ""

    # -- files

    def file(self, text, chance):
        """Loads a file by the libraries, and sometimes by the program, with the fault or the bytes of encoding.py."""
        wanted = encoding.verdict(text)
        ways = [("C", C(chance).loaded), ("vdb", lambda text: loaded_by_package(text, vdb))]
        for name, way in [*ways, ("vdb.scenefile", lambda text: loaded_by_package(text, vdb.scenefile))]:
            found = way(text)
            if found != wanted:
                return f"{name}: {found!r}, not {wanted!r}"
        if chance.random() < 0.05:
            run = self.place.run(b"", load=text, counted=False)
            end = run.status, run.answers, run.errors, run.saved
            bad = isinstance(wanted, str)
            if end != ((3, b"", f"vdb: load: {wanted}\n".encode(), None) if bad else (0, b"", b"", wanted)):
                return f"the program: {end}, not {wanted!r}"
        return ""
