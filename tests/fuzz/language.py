# SPDX-License-Identifier: Apache-2.0
"""Answers scripts by docs/LANGUAGE.md and saves scenes by docs/FORMAT.md, independent of the program: the model of the fuzzer.

`Scene.answer(line)` returns the lines of the answer, or none for a blank line and a comment. The cells of a grid are those of cells.py.
Only `error memory` and the limits of a whole script aren't modelled."""
import re
import sys
from itertools import islice
from pathlib import Path

from cells import EXTENTS, HIGH, LOW, Cells

TOP = Path(__file__).resolve().parents[2]
sys.path[:0] = [str(TOP / name) for name in ("tests/rows", "tests/faults", "python", "tests/c")]
import encoding  # noqa: E402

NAME, NUMBER, STATE = r"[a-z][a-z0-9_]{0,15}", r"0|-?[1-9][0-9]*", "on|off"
ACCESSOR, VALUE, KIND, TEXT = f"-|{NUMBER}", f"{NUMBER}|true|false", "bool|i32|i64", "[!-~]{1,64}"
PLACE, BOX = [ACCESSOR] + [NUMBER] * 3, [NUMBER] * 6
TWO = ["union", "difference", "intersect", "max", "min", "sum", "replace"]
CALLS = dict(zip(TWO, ["unite", "subtract", "intersect", "maximum", "minimum", "sum", "replace"]))  # of both libraries
FORMS = {
    "grid": [[NAME, KIND, VALUE], [NAME, KIND, VALUE, NUMBER]], "drop": [[NAME]], "copy": [[NAME, NAME]], "get": [[NAME, *PLACE]],
    **{word: [[NAME, *PLACE, VALUE]] for word in ("set", "unset", "only")}, "state": [[NAME, *PLACE, STATE]],
    "fill": [[NAME, *BOX, VALUE, STATE]], "clip": [[NAME, *BOX]], "prune": [[NAME]], "voxelise": [[NAME, *BOX]],
    "count": [[NAME, *BOX], [NAME, "all"]], "bounds": [[NAME]], "list": [[NAME, *BOX, NUMBER]], "slice": [[NAME] + [NUMBER] * 5],
    "census": [[NAME]], **{word: [[NAME, NAME]] for word in TWO}, **{word: [[NAME, NUMBER]] for word in ("dilate", "erode")},
    "meta": [[NAME, NAME, TEXT]], "unmeta": [[NAME, NAME]], "metas": [[NAME]],
}  # fmt: skip
SPANS = {"bool": (0, 1), "i32": (LOW, HIGH), "i64": (-(2**63), 2**63 - 1)}
KINDS = ["bool", "i32", "i64"]
EVERYWHERE = [LOW] * 3 + [HIGH] * 3
CELL_PAIRS = {
    "union": lambda a, b: (a[0], a[1] or b[1]),
    "difference": lambda a, b: (a[0], a[1] and not b[1]),
    "intersect": lambda a, b: (a[0], a[1] and b[1]),
    "max": lambda a, b: (max(a[0], b[0]), a[1] or b[1]),
    "min": lambda a, b: (min(a[0], b[0]), a[1] or b[1]),
    "sum": lambda a, b: (a[0] + b[0], a[1] or b[1]),
    "replace": lambda a, b: b if b[1] else a,
}
BACKGROUNDS = {"max": max, "min": min, "sum": lambda a, b: a + b}


class Error(Exception):
    """An error of a command, by its word."""


def error_of(answer):
    """Returns the word of an error, or an empty text. A line of `metas` may begin with the key `error`, but isn't the only one."""
    return answer[0].removeprefix("error ") if answer and len(answer) == 1 and answer[0].startswith("error ") else ""


def need(holds, word):
    """Raises this error unless the condition holds."""
    if not holds:
        raise Error(word)


def words_of(line):
    """Returns the tokens of a line of bytes, or raises Error."""
    need(len(line) <= 256, "line-too-long")
    return [it for it in re.split("[ \t\r]+", line.decode("latin-1")) if it]


def has_form(words):
    """Returns whether tokens are a command."""
    forms = FORMS.get(words[0], [])
    return any(len(form) == len(words) - 1 and all(map(re.fullmatch, form, words[1:])) for form in forms)


def in_range(low, high, *numbers):
    return all(low <= number <= high for number in numbers)


class Grid:
    """The type of a grid, its root limit, its pairs, its background and its cells."""

    def __init__(self, kind, background, limit, pairs=(), cells=None):
        self.kind, self.background, self.limit, self.pairs = kind, background, limit, dict(pairs)
        self.cells = cells or Cells.all_equal((background, False))

    def copy(self):
        return Grid(self.kind, self.background, self.limit, self.pairs, self.cells)

    def text(self, value):
        return ("true" if value else "false") if self.kind == "bool" else str(value)

    def has(self, value):
        return in_range(*SPANS[self.kind], value)

    def become(self, cells, background=None):
        """Takes other cells and another background, unless they need more upper extents than the limit."""
        background = self.background if background is None else background
        need(cells.roots((background, False)) <= self.limit, "root-limit")
        self.cells, self.background = cells, background

    def change(self, box, change):
        """Changes each cell of a box by a function."""
        self.become(self.cells.changed(box, change))

    def clip(self, box):
        self.become(self.cells.kept(box, (self.background, False)))

    def combine(self, word, other):
        """Combines the grid with another one by the command of this name."""
        need(word in TWO[:3] or self.kind == other.kind, "kind")
        need(word != "sum" or self.kind != "bool", "no-sum")
        cells = self.cells.combined(other.cells, CELL_PAIRS[word])
        need(all(self.has(value) for value, _ in cells.palette), "sum-range")
        self.become(cells, BACKGROUNDS[word](self.background, other.background) if word in BACKGROUNDS else None)

    def iterate(self, grows, iterations):
        """Dilates the active voxels, or erodes them."""
        need(in_range(1, 16, iterations), "value-range")
        cells = self.cells
        for _ in range(iterations):
            cells = cells.iterated(grows)
        self.become(cells)

    def census(self):
        """Returns how many upper extents aren't the background, and how many extents of each level have cells that differ."""
        return [self.cells.roots((self.background, False)), *(self.cells.uneven(side) for side in EXTENTS)]


class Scene:
    """The grids by their names."""

    def __init__(self):
        self.grids = {}

    @classmethod
    def loaded(cls, text):
        """Returns the scene of a file's bytes, which are one."""
        made = cls()
        for one in encoding.load(text):
            pairs = {key.decode(): text.decode() for key, text in one.pairs}
            grid = made.grids[one.name.decode()] = Grid(KINDS[one.kind], one.background, one.limit, pairs)
            for key, body in one.roots:
                grid.cells = grid.cells.with_body([part * 4096 for part in key], 4096, body)
        return made

    def answer(self, line):
        """Carries out a line of bytes without its newline, and returns the lines of its answer."""
        try:
            words = words_of(line)
            if not words or words[0].startswith("#"):
                return []
            need(has_form(words), "syntax")
            return self.commanded(*words)
        except Error as error:
            return [f"error {error}"]

    def commanded(self, word, *rest):
        if word in TWO:
            return self.two(word, *rest)
        if word in ("set", "unset", "only", "state"):
            return self.write(word, *rest)
        if word in ("dilate", "erode"):
            return self.iterate(word, *rest)
        return getattr(self, f"do_{word}")(*rest)

    def grid(self, name):
        need(name in self.grids, "no-grid")
        return self.grids[name]

    def value(self, kind, text):
        need((kind == "bool") == (text in ("true", "false")), "kind")
        return {"true": 1, "false": 0}[text] if kind == "bool" else int(text)

    def new(self, name, grid):
        """Returns ok after the grid is in the scene, or raises the error of its name or of its number."""
        need(name not in self.grids, "name-taken")
        need(len(self.grids) < 64, "grid-limit")
        self.grids[name] = grid()
        return ["ok"]

    def do_grid(self, name, kind, background, limit="4096"):
        def made():
            value = self.value(kind, background)
            need(in_range(*SPANS[kind], value) and in_range(1, 65536, int(limit)), "value-range")
            return Grid(kind, value, int(limit))

        return self.new(name, made)

    def do_drop(self, name):
        self.grid(name)
        del self.grids[name]
        return ["ok"]

    def do_copy(self, source, made):
        return self.new(made, self.grid(source).copy)

    def place(self, accessor, place, ranges=()):
        """Returns a coordinate, after the errors of ranges and of the accessor."""
        place = tuple(map(int, place))
        need(in_range(LOW, HIGH, *place) and all(ranges), "value-range")
        need(accessor == "-" or in_range(0, 7, int(accessor)), "no-accessor")
        return place

    def do_get(self, name, accessor, *place):
        grid = self.grid(name)
        value, on = grid.cells.at(self.place(accessor, place))
        return [f"value {grid.text(value)} {'on' if on else 'off'}"]

    def write(self, word, name, accessor, x, y, z, last):
        grid = self.grid(name)
        value = None if word == "state" else self.value(grid.kind, last)
        at = self.place(accessor, (x, y, z), [value is None or grid.has(value)])
        change = {
            "set": lambda cell: (value, True),
            "unset": lambda cell: (value, False),
            "only": lambda cell: (value, cell[1]),
            "state": lambda cell: (cell[0], last == "on"),
        }[word]
        grid.change([*at, *at], change)
        return ["ok"]

    def box(self, numbers, *ranges):
        """Returns a box, after the errors of ranges and of its corners."""
        box = [int(it) for it in numbers]
        need(in_range(LOW, HIGH, *box) and all(ranges), "value-range")
        need(all(low <= high for low, high in zip(box[:3], box[3:])), "box")
        return box

    def do_fill(self, name, *rest):
        grid = self.grid(name)
        value = self.value(grid.kind, rest[6])
        box = self.box(rest[:6], grid.has(value))
        grid.change(box, lambda _: (value, rest[7] == "on"))
        return ["ok"]

    def do_clip(self, name, *box):
        self.grid(name).clip(self.box(box))
        return ["ok"]

    def do_prune(self, name):
        self.grid(name)
        return ["ok"]

    def do_voxelise(self, name, *box):
        self.grid(name)
        x0, y0, z0, x1, y1, z1 = self.box(box)
        need((x1 - x0 + 1) * (y1 - y0 + 1) * (z1 - z0 + 1) <= 2_097_152, "too-large")
        return ["ok"]

    def do_count(self, name, *box):
        grid = self.grid(name)
        return [f"count {grid.cells.count(EVERYWHERE if box == ('all',) else self.box(box))}"]

    def do_bounds(self, name):
        return [" ".join(["bounds", *map(str, self.grid(name).cells.bounds() or ["none"])])]

    def do_list(self, name, *rest):
        grid, limit = self.grid(name), int(rest[6])
        box = self.box(rest[:6], in_range(1, 4096, limit))
        found = [*islice(grid.cells.voxels(box), limit + 1)]
        lines = [f"{x} {y} {z} {grid.text(grid.cells.at((x, y, z))[0])}" for x, y, z in found[:limit]]
        return [*lines, f"{'more' if len(found) > limit else 'end'} {len(lines)}"]

    def do_slice(self, name, z, x0, y0, x1, y1):
        grid = self.grid(name)
        x0, y0, z, x1, y1, z = self.box([x0, y0, z, x1, y1, z])
        need(x1 - x0 < 64 and y1 - y0 < 64, "too-large")

        def shown(x, y):
            value, on = grid.cells.at((x, y, z))
            return grid.text(value) if on else f"({grid.text(value)})"

        rows = [" ".join(["row", str(y), *(shown(x, y) for x in range(x0, x1 + 1))]) for y in range(y0, y1 + 1)]
        return [*rows, f"end {len(rows)}"]

    def do_census(self, name):
        return [" ".join(["census", *map(str, self.grid(name).census())])]

    def two(self, word, name, other):
        grid, second = self.grid(name), self.grid(other)
        need(name != other, "same-grid")
        grid.combine(word, second)
        return ["ok"]

    def iterate(self, word, name, iterations):
        self.grid(name).iterate(word == "dilate", int(iterations))
        return ["ok"]

    def do_meta(self, name, key, text):
        grid = self.grid(name)
        need(key in grid.pairs or len(grid.pairs) < 16, "meta-limit")
        grid.pairs[key] = text
        return ["ok"]

    def do_unmeta(self, name, key):
        self.grid(name).pairs.pop(key, None)
        return ["ok"]

    def do_metas(self, name):
        pairs = sorted(self.grid(name).pairs.items())
        return [*(f"{key} {text}" for key, text in pairs), f"end {len(pairs)}"]

    def nodes(self):
        """Returns how many upper, lower and leaf extents have cells that differ: each needs a node."""
        return [sum(grid.cells.uneven(side) for grid in self.grids.values()) for side in EXTENTS]

    def parts(self):
        """Returns how many nodes and root blocks there are to save, which says how long `saved` takes."""
        return sum(self.nodes()) + sum(grid.cells.roots((grid.background, False)) for grid in self.grids.values())

    def saved(self):
        """Returns the bytes of the scene's file."""
        return encoding.save([self.encoded(name, grid) for name, grid in sorted(self.grids.items())])

    def encoded(self, name, grid):
        pairs = sorted((key.encode(), text.encode()) for key, text in grid.pairs.items())
        default, corner = (grid.background, False), range(3)
        roots = []
        for key in grid.cells.root_keys(default):
            roots.append((key, grid.cells.body([key[axis] * 4096 for axis in corner], 4096, default)))
        return encoding.Grid(name.encode(), KINDS.index(grid.kind), grid.background, grid.limit, pairs, roots)
