#!/usr/bin/env python3
# SPDX-License-Identifier: Apache-2.0
"""Plays scripts that loops make at the limits of scenes, grids, boxes and iterations: limits.py [--program PROGRAM] [PART..]

Each answer is computed here. A part is a function below, such as `boxes`. The last line is 'N passed, M failed'.
"""
import argparse
import math
import os
import subprocess
import sys
import tempfile
from itertools import combinations, product
from pathlib import Path

import rows
from rows import DATA, PATIENCE, PROGRAM

LEAST, GREATEST = -(2**31), 2**31 - 1
KINDS = ("bool", "i32", "i64")
#: a root limit, and the last voxel of a box from the origin that fills as many upper extents
LIMITS = {1: (4095, 4095, 4095), 2: (8191, 4095, 4095), 4096: (65535, 65535, 65535), 65536: (65535, 262143, 262143)}
#: how far the last voxel of an extent lies from the first: a voxel, a leaf, a lower and an upper extent
LENGTHS = (0, 7, 127, 4095)
SCRIPT_LIMIT = 16_777_216
#: the file of a scene without grids
NO_GRID = bytes.fromhex("5644425300020000")
TEXT = "".join(map(chr, range(0x21, 0x61))).replace("`", "") + "~"


def text(value, kind):
    """A value as a line has it: numbers other than 0 are true."""
    return ("true" if value else "false") if kind == "bool" else str(value)


def at(p):
    return " ".join(map(str, p))


def name(number):
    """Name `number` of 64. The names rise with their numbers and have 1 to 16 bytes."""
    return ("abcdefgh"[number // 8] + "abcdefgh"[number % 8] + "x" * 14)[: number % 16 + 1]


class Script:
    """A script and its answers."""

    def __init__(self):
        self.lines, self.answers = [], []

    def add(self, line, *answers):
        """Adds a line that answers these lines, or `ok`."""
        self.lines.append(line)
        self.answers += answers or ["ok"]

    def grid(self, name, kind, limit):
        self.add(f"grid {name} {kind} {text(0, kind)} {limit}")

    def fill(self, name, kind, low, high, value, on):
        self.add(f"fill {name} {at(low)} {at(high)} {text(value, kind)} {'on' if on else 'off'}")

    def get(self, name, kind, p, value, on):
        self.add(f"get {name} - {at(p)}", f"value {text(value, kind)} {'on' if on else 'off'}")

    def count(self, name, active):
        self.add(f"count {name} all", f"count {active}")

    def list(self, name, low, high, voxels):
        """Adds a list of a box with these active voxels and their values, which come extent by extent."""
        order = sorted(voxels, key=lambda p: [tuple(part >> bits for part in p) for bits in (12, 7, 3, 0)])
        self.add(f"list {name} {at(low)} {at(high)} 4096", *(f"{at(p)} {voxels[p]}" for p in order), f"end {len(order)}")


class Sessions:
    """Runs sessions and counts their results."""

    def __init__(self, program, folder):
        self.program, self.folder, self.passed, self.failed = program, folder, 0, 0

    def run(self, script, load=None):
        """Runs a script's bytes. Returns the lines of the answers and of standard error, the exit status and the saved bytes."""
        paths = [self.folder / name for name in ("script", "load", "saved")]
        paths[0].write_bytes(script)
        paths[1].write_bytes(load or b"")
        paths[2].unlink(missing_ok=True)
        words = [self.program, *(["--load", paths[1]] if load is not None else []), "--save", paths[2], paths[0]]
        ran = subprocess.run(words, stdin=subprocess.DEVNULL, capture_output=True, timeout=PATIENCE)
        saved = paths[2].read_bytes() if paths[2].exists() else None
        return (ran.stdout + ran.stderr).decode().splitlines(), ran.returncode, saved

    def check(self, holds, what):
        self.passed += bool(holds)
        self.failed += not holds
        if not holds:
            print(f"limits.py: {what}")

    def play(self, what, script, load=None):
        """Checks a script's answers, and returns the saved bytes."""
        answers, status, saved = self.run("".join(f"{line}\n" for line in script.lines).encode(), load)
        pairs = [*zip(answers, script.answers)]
        wrong = next((i for i, (found, wanted) in enumerate(pairs) if found != wanted), len(pairs))
        found, wanted = answers[wrong : wrong + 1], script.answers[wrong : wrong + 1]
        self.check(answers == script.answers, f"{what}: answer {wrong + 1} is {found}, not {wanted}")
        refused = any(line.startswith("error") for line in script.answers)
        self.check(status == refused and saved is not None, f"{what}: the exit status is {status}")
        return saved


def boxes(it):
    """Boxes of each extent at both ends of the range are filled, voxelised and clipped."""
    for kind, is_greatest, length, (value, on) in product(KINDS, (False, True), LENGTHS, product((1, 0), (True, False))):
        ends = (GREATEST - length, GREATEST) if is_greatest else (LEAST, LEAST + length)
        outside = ends[0] - 1 if is_greatest else ends[1] + 1
        around = (GREATEST - 4095, GREATEST) if is_greatest else (LEAST, LEAST + 4095)

        def corners(script):
            for p in product((*ends, outside), repeat=3):
                script.get("a", kind, p, *((0, False) if outside in p else (value, on)))

        script, box = Script(), [(end,) * 3 for end in ends]
        script.grid("a", kind, 1)
        script.fill("a", kind, *box, value, on)
        corners(script)
        script.count("a", (length + 1) ** 3 if on else 0)
        if length <= 7:
            script.add(f"voxelise a {at(box[0])} {at(box[1])}")
            corners(script)
        script.fill("a", kind, *[(end,) * 3 for end in around], 1, False)
        script.fill("a", kind, *box, value, on)
        script.add(f"clip a {at(box[0])} {at(box[1])}")
        corners(script)
        it.play(f"boxes of {kind}, {ends}, {value}, {on}", script)


def many_grids(it):
    """Scenes of up to 64 grids, created or copied under names of each length, are saved and loaded."""
    for copies, number in product((False, True), (0, 1, 8, 9, 15, 16, 63, 64)):
        script, reports = Script(), Script()
        for grid in range(64):
            there, kind = grid * 45 % 64 < number, "i32" if copies else KINDS[grid % 3]
            if there:
                reports.get(name(grid), kind, (0, 0, 0), grid + 1, True)
                reports.get(name(grid), kind, (1, 0, 0), 0, False)
            else:
                reports.add(f"get {name(grid)} - 0 0 0", "error no-grid")
        for grid in (place * 37 % 64 for place in range(number)):
            kind = "i32" if copies else KINDS[grid % 3]
            if copies and grid:
                script.add(f"copy {name(0)} {name(grid)}")
            else:
                script.grid(name(grid), kind, 1)
            script.add(f"set {name(grid)} - 0 0 0 {text(grid + 1, kind)}")
        saved = it.play(f"{number} grids", script)
        it.check(it.play(f"{number} grids, loaded", reports, saved) == saved, f"{number} grids: they are saved as another file")


def full_tables(it):
    """Full root tables are copied, saved and loaded."""
    for (limit, last), kind in zip(LIMITS.items(), "i32 bool i64 i32".split()):
        script, reports = Script(), Script()
        script.grid("b", kind, limit)
        script.fill("b", kind, (0, 0, 0), last, 1, False)
        script.add("copy b a")
        script.add("drop b")
        for p, value in (((0, 0, 0), 1), (last, 1), ((-1, -1, -1), 0)):
            reports.get("a", kind, p, value, False)
        reports.add("state a - -1 -1 -1 on", "error root-limit")
        saved = it.play(f"a full table of {limit}", script)
        # 17 bytes a tile of a 32-bit value, after the 24 bytes of the scene and the grid
        width = {"bool": 1, "i32": 4, "i64": 8}[kind]
        it.check(len(saved or b"") == 20 + width + limit * (13 + width), f"a full table of {limit}: {len(saved or b'')} bytes")
        it.check(it.play(f"a full table of {limit}, loaded", reports, saved) == saved, f"a full table of {limit}: another file")


def last_place(it):
    """A voxel outside a full root table is written when one of its extents has become background, and then no further one."""
    for (limit, last), (number, (word, value, on)), accessor in product(LIMITS.items(), enumerate(
        [("set", 1, True), ("unset", 1, False), ("only", 1, False), ("state", 0, True), ("fill", 1, True), ("fill", 1, False)]
    ), "-7"):
        kind, script = KINDS[number % 3], Script()

        def write(p, *answers):
            state = "on" if on else "off"
            if word == "fill":
                script.add(f"fill a {at(p)} {at(p)} {text(value, kind)} {state}", *answers)
            else:
                script.add(f"{word} a {accessor} {at(p)} {state if word == 'state' else text(value, kind)}", *answers)

        script.grid("a", kind, limit)
        script.fill("a", kind, (0, 0, 0), last, 1, False)
        write((-1, -1, -1), "error root-limit")
        script.get("a", kind, (-1, -1, -1), 0, False)
        script.fill("a", kind, (0, 0, 0), (4095, 4095, 4095), 0, False)
        write((-1, -1, -1))
        write((0, 0, 0), "error root-limit")
        script.get("a", kind, (-1, -1, -1), value, on)
        script.get("a", kind, (0, 0, 0), 0, False)
        script.count("a", int(on))
        it.play(f"{word} with the limit {limit}", script)


def one_by_one(it):
    """4,096 upper extents get an active voxel one by one. The next is refused until one of them is background again."""
    script = Script()
    script.add("grid a bool false")
    for x, y in product(range(64), repeat=2):
        script.add(f"state a - {x * 4096} {y * -4096} 0 on")
    script.add("state a - -1 0 0 on", "error root-limit")
    script.get("a", "bool", (-1, 0, 0), 0, False)
    script.add("state a - -1 0 0 off")
    script.add("state a - 0 0 0 off")
    script.add("state a - -1 0 0 on")
    script.add("state a - 0 0 0 on", "error root-limit")
    it.play("4,096 extents one by one", script)


PAIRS = {
    "union": lambda a, b: (a[0], a[1] or b[1]),
    "difference": lambda a, b: (a[0], a[1] and not b[1]),
    "intersect": lambda a, b: (a[0], a[1] and b[1]),
    "max": lambda a, b: (max(a[0], b[0]), a[1] or b[1]),
    "min": lambda a, b: (min(a[0], b[0]), a[1] or b[1]),
    "sum": lambda a, b: (a[0] + b[0], a[1] or b[1]),
    "replace": lambda a, b: b if b[1] else a,
}


def two_grids(it):
    """A voxel of one grid is combined with a box of another that fills the lesser limit of both."""
    for (number, limit), other, (word, combined) in product(enumerate(LIMITS), LIMITS, PAIRS.items()):
        kind = KINDS[1 + number % 2] if word == "sum" else KINDS[number % 3]
        last, script = min(LIMITS[limit], LIMITS[other]), Script()
        script.grid("a", kind, limit)
        script.grid("b", kind, other)
        script.add(f"set a - 5 5 5 {text(1, kind)}")
        script.fill("b", kind, (0, 0, 0), last, 3, True)
        script.add(f"{word} a b")
        for p, first, second in [((5, 5, 5), (1, True), (3, True)), ((0, 0, 0), (0, False), (3, True)),
                                 (last, (0, False), (3, True)), ((-1, -1, -1), (0, False), (0, False))]:
            script.get("a", kind, p, *combined(first, second))
            script.get("b", kind, p, *second)
        it.play(f"{word} with the limits {limit} and {other}", script)


def ball(centre, radius):
    """The voxels of the range within this distance along the axes of a voxel, with the value 1 in the voxel alone."""
    steps = [step for step in product(range(-radius, radius + 1), repeat=3) if sum(map(abs, step)) <= radius]
    voxels = (tuple(map(sum, zip(centre, step))) for step in steps)
    return {p: int(p == centre) for p in voxels if all(LEAST <= part <= GREATEST for part in p)}


def iterations(it):
    """One to sixteen iterations of each kind, in each corner of the range and of an upper extent."""
    everywhere = (LEAST,) * 3, (GREATEST,) * 3
    for corner, turns in product(product((False, True), repeat=3), range(1, 17)):
        script = Script()
        far = tuple(GREATEST if is_greatest else LEAST for is_greatest in corner)
        near = tuple(4096 - turns if is_greatest else turns - 1 for is_greatest in corner)
        for grid, centre, limit in (("a", far, 1), ("b", near, 4)):
            grown = ball(centre, turns)
            script.grid(grid, "i64", limit)
            script.add(f"set {grid} - {at(centre)} 1")
            script.add(f"dilate {grid} {turns}")
            script.count(grid, len(grown))
            if len(grown) <= 4096:
                script.list(grid, *everywhere, grown)
            script.add(f"erode {grid} {turns}")
            script.list(grid, *everywhere, {centre: 1})
        script.grid("c", KINDS[turns % 3], 3)
        script.add(f"set c - {at(near)} {text(1, KINDS[turns % 3])}")
        script.add(f"dilate c {turns}", "error root-limit")
        script.list("c", *everywhere, {near: text(1, KINDS[turns % 3])})
        it.play(f"{turns} iterations at {far}", script)


def cubes(it):
    """A cube in the middle of the range, or at each face, edge and corner of it, grows over its free faces and shrinks by them."""
    for ends, (side, kind) in product(product((None, False, True), repeat=3), ((1, "bool"), (8, "i32"), (40, "i64"), (128, "i32"))):
        low = [-4 if end is None else GREATEST - side + 1 if end else LEAST for end in ends]
        high, free = [part + side - 1 for part in low], [2 if end is None else 1 for end in ends]
        edges = sum(first * second for first, second in combinations(free, 2))
        for times in (1,) if side == 128 else (1, 2, 3, 16):
            script = Script()
            script.grid("a", kind, 4096)
            script.fill("a", kind, low, high, 1, True)
            if times == 2:
                script.add(f"voxelise a {at(low)} {at(high)}")
            script.add(f"dilate a {times}")
            more = sum(free) * side**2 * times + edges * side * math.comb(times, 2) + math.prod(free) * math.comb(times, 3)
            script.count("a", side**3 + more)
            script.add(f"erode a {times}")
            script.add("bounds a", f"bounds {at(low)} {at(high)}")
            script.count("a", side**3)
            script.add(f"erode a {times}")
            script.count("a", math.prod(max(0, side - times * faces) for faces in free))
            it.play(f"{times} iterations of a cube of {side} at {low}", script)


def metadata(it):
    """Grids get up to 16 pairs, under keys and with texts of each length, and are copied, saved and loaded."""
    made, held = Script(), {}
    made.grid("a", "i32", 1)
    saved = it.play("a grid without pairs", made)
    for first, place in product(range(1, 50, 6), range(16)):
        key = place * 5 % 16
        held[name(key)] = TEXT[: first + key % 16]
        script, reports = Script(), Script()
        script.add(f"meta a {name(key)} {held[name(key)]}")
        script.add("copy a b")
        for grid, lines in (("a", reports), ("b", script)):
            lines.add(f"metas {grid}", *(f"{word} {held[word]}" for word in sorted(held)), f"end {len(held)}")
        script.add("drop b")
        saved = it.play(f"{len(held)} pairs", script, saved)
        it.check(it.play(f"{len(held)} pairs, loaded", reports, saved) == saved, f"{len(held)} pairs: another file")


def longest_list(it):
    """A list has at most 4,096 voxels."""
    script = Script()
    script.add("grid a i32 0")
    script.add("fill a 0 0 0 15 15 15 -5 on")
    script.list("a", (0, 0, 0), (15, 15, 15), dict.fromkeys(product(range(16), repeat=3), -5))
    script.add("list a 0 0 0 15 15 15 4095", *script.answers[2:4097], "more 4095")
    it.play("a list of 4,096 voxels", script)


def longest_script(it):
    """A script has at most 16 MiB: of blank lines, of one line, and of lines that are too long by a byte. The line of a further byte is lost."""
    for line, answered, lost in ((b"\n", 0, 0), (b"#", 1, 1), (b"x" * 257 + b"\n", SCRIPT_LIMIT // 258, 0)):
        script = (line * (SCRIPT_LIMIT // len(line))).ljust(SCRIPT_LIMIT, b"#")
        answers = ["error line-too-long"] * answered
        it.check(it.run(script) == (answers, int(answered > 0), NO_GRID), f"a script of lines of {len(line)} bytes")
        ended = (answers[lost:] + ["vdb: script: too-long"], 4, None)
        it.check(it.run(script + b"#") == ended, f"a script of lines of {len(line)} bytes, too long by a byte")


def equal_nodes(it):
    """A file whose node of any level has equal cells is rejected. With another last cell it is loaded and saved."""
    voxel = bytes.fromhex("564442530002000101610100000000000010000000000001000000000000000000000000" "030001000003000100000300010053")
    for front, entries in ((46, 512), (41, 4096), (36, 32768)):
        for tag, last in product((1, 2), (5, 6)):
            cells = (entry.to_bytes(2, "big") + bytes([tag, 0, 0, 0, last if entry == entries - 1 else 5]) for entry in range(entries))
            file = voxel[:front] + b"\x03" + entries.to_bytes(2, "big") + b"".join(cells)
            ended = ([], 0, file) if last == 6 else (["vdb: load: constant-node"], 3, None)
            it.check(it.run(b"", file) == ended, f"a node of {entries} cells, the last of them {last}")


def two_sessions(it):
    """Each row of all subjects but scene files is played in two sessions with a file between them, which changes no answer."""
    for file in DATA:
        for row in rows.read(file):
            lines, middle = row.commands, len(row.commands) // 2
            if row.load is None and file.stem != "scene-files" and all(line.text.endswith(b"\n") for line in lines):
                first, _, saved = it.run(b"".join(line.text for line in lines[:middle]))
                second, _, last = it.run(b"".join(line.text for line in lines[middle:]), saved)
                it.check("".join(f"{line}\n" for line in first + second).encode() == row.answered, f"{row.place}: other answers in two sessions")
                it.check(it.run(b"", last) == ([], 0, last), f"{row.place}: a saved scene is saved as another file")


PARTS = [boxes, many_grids, full_tables, last_place, one_by_one, two_grids, iterations, cubes, metadata, longest_list, longest_script, equal_nodes, two_sessions]


def main():
    parser = argparse.ArgumentParser(description=__doc__.split("\n\n")[0], epilog="Example: tests/rows/limits.py boxes two_grids")
    parser.add_argument("--program", default=str(PROGRAM), help="the program, crates/vdb/out/vdb by default")
    parser.add_argument("parts", nargs="*", metavar="PART", choices=[[], *(part.__name__ for part in PARTS)], help="all parts by default")
    words = parser.parse_args()
    with tempfile.TemporaryDirectory() as folder:
        it = Sessions(os.path.abspath(words.program), Path(folder))
        for part in PARTS:
            if not words.parts or part.__name__ in words.parts:
                part(it)
    print(f"{it.passed} passed, {it.failed} failed")
    sys.exit(it.failed > 0 or it.passed == 0)


if __name__ == "__main__":
    main()
