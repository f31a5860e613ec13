#!/usr/bin/env python3
# SPDX-License-Identifier: Apache-2.0
"""Makes random calls of libvdb and compares them with a map: fuzz.py LIBRARY [CALLS [SEED]]

LIBRARY is a libvdb.so with failing.c, as tests/c/test_libvdb.py builds it. Each call must return the code and the results that the
map has (tests/fuzz/language.py). After a code other than 0 the cells are compared: they, and the results, must be as before. In two calls
of each shape of arguments, and in one of a hundred others, each allocation fails in turn, up to 1,999. At last no memory may be
held. The last lines name the calls that allocate, with the shapes of each, and those that were never made, and say 'N calls, M failed
allocations'.
"""
from __future__ import annotations

import ctypes
import itertools
import random
import sys
import time
from collections import Counter
from ctypes import byref, c_int16, c_int32, c_int64, c_long, c_size_t, c_uint8, c_uint16, c_uint32, c_uint64
from pathlib import Path

import numpy as np
from header import Header

sys.path.append(str(Path(__file__).resolve().parents[1] / "fuzz"))
import language  # noqa: E402
from cells import HIGH, LOW, lengths, volume  # noqa: E402
from language import CALLS, KINDS, SPANS  # noqa: E402

OK, EMPTY, MEMORY, ROOT_LIMIT, RANGE, OTHER_KIND = 0, 1, 2, 3, 4, 6
ERRORS = {"root-limit": ROOT_LIMIT, "sum-range": 5, "kind": 6, "no-sum": 7}
NO_GRID, NAME, NAME_TAKEN, GRID_LIMIT, META_LIMIT, NO_META, TEXT, BUFFER = 8, 9, 10, 11, 12, 13, 14, 15
FAULTS = range(20, 36)
GRIDS, VIEWS, VERIFY_EVERY, FAIL_EVERY = 4, 2, 400, 100
#: The number of calls of a shape whose allocations fail, and the most allocations of such a call.
TIMES, FAILURES = 2, 2000

#: The most active voxels of a grid that is dilated or eroded.
MOST_ACTIVE = 40_000
#: Cuts of each axis, between which places and boxes begin and end. Voxels near 0, among them the borders of leaf extents:
VOXELS = range(-10, 16)
#: The borders of blocks of each level, near 0 and at the ends of an axis.
BORDERS = [-8192, -4096, -128, -9, -8, -1, 0, 1, 2, 7, 8, 9, 127, 128, 129, 4096, 8192, 12288, 16384, LOW + 1, LOW + 4096, HIGH - 4095, HIGH]
#: The types of the elements of an array, each with its least and its greatest value.
ELEMENTS = {
    "bool": (c_uint8, 0, 255), "u8": (c_uint8, 0, 255), "i16": (c_int16, -(1 << 15), (1 << 15) - 1), "u16": (c_uint16, 0, (1 << 16) - 1),
    "i32": (c_int32, *SPANS["i32"]), "i64": (c_int64, *SPANS["i64"]),
}  # fmt: skip
NAMES = [b"a", b"b_1", b"organ", b"abcdefghijklmnop"]
WRONG_NAMES = [b"", b"A", b"1a", b"a-b", b"abcdefghijklmnopq", b"\xff"]
TEXTS, WRONG_TEXTS = [b"mm", b"~" * 64, b"!"], [b"", b"a b", b"x" * 65, b"\x7f"]


class Wrong(Exception):
    """The library and the map differ."""


class Grid(language.Grid):
    """A grid of the map, whose voxels can be read and written many at once."""

    def copy(self):
        return Grid(self.kind, self.background, self.limit, (), self.cells)

    def get(self, at):
        return self.cells.at(at)

    def set(self, voxels):
        self.become(self.cells.with_voxels(voxels))

    def accepted(self, places, cells):
        """Returns how many of these writes in turn succeed, until one needs an upper extent more than the limit."""
        keys, now = [tuple(part >> 12 for part in at) for at in places], {}
        default, left = (self.background, False), self.limit - self.cells.roots((self.background, False))
        if left >= len({*keys}):
            return len(places)
        held = {key: self.held(key) for key in keys}
        for number, (at, key, cell) in enumerate(zip(places, keys, cells)):
            more = (cell != default) - (now.get(at, self.get(at)) != default)
            left += (held[key] > 0) - (held[key] + more > 0)
            if left < 0:
                return number
            now[at], held[key] = cell, held[key] + more
        return len(places)

    def held(self, key):
        """Returns how many voxels of an upper extent aren't inactive background."""
        marks = self.cells.numbers != self.cells.number_of((self.background, False))
        return volume(marks, [lengths(cuts, it << 12, (it << 12) + 4095) for cuts, it in zip(self.cells.cuts, key)])

    def some(self, chance, most):
        """Returns voxels of up to so many entries of the map that aren't inactive background."""
        found = np.argwhere(self.cells.numbers != self.cells.number_of((self.background, False)))
        picked = found[chance.sample(range(len(found)), min(most, len(found)))].tolist()
        cuts = [[*axis, HIGH + 1] for axis in self.cells.cuts]
        return [tuple(chance.choice(range(axis[it], axis[it + 1])) for it, axis in zip(entry, cuts)) for entry in picked]


class Step:
    """A call of the library.

    `outs` are the results, with the values that they must have after the code 0, in the order of `results`. `refusals` are the
    codes of errors of which one must be returned, if there are any; otherwise `commit` changes the map and returns the code. `prefix` makes
    in the map the writes before the one that failed, if the call writes in turn. A call that `goes_on` may return OK though an
    allocation failed.
    """

    goes_on = False

    def __init__(self, name, arguments, outs=(), refusals=(), commit=None, results=None, grids=(), prefix=None):
        self.name, self.arguments, self.outs, self.refusals = name, arguments, outs, set(refusals)
        self.commit, self.results, self.grids, self.prefix = commit or (lambda: None), results or (lambda: ()), grids, prefix


class Session:
    """Handles of the library, and for each the grid or the scene of the map, or None."""

    def __init__(self, library, header, cuts, chance):
        self.library, self.header, self.is_near, self.chance = library, header, cuts is VOXELS, chance
        self.fail_in, self.failed, self.held = (c_long.in_dll(library, f"test_{it}") for it in ("fail_in", "failed", "held"))
        self.grids = [header.types["vdb_grid"]() for _ in range(GRIDS)]
        self.maps = [None] * GRIDS
        self.scene, self.scene_map = header.types["vdb_scene"](), None
        self.views, self.view_maps = [header.types["vdb_view"]() for _ in range(VIEWS)], [None] * VIEWS
        self.saved = []
        edges = sorted({LOW, *cuts, HIGH + 1})
        self.intervals = [range(a, b) for a, b in zip(edges, edges[1:])]
        self.voxels = [it for it in self.intervals if len(it) == 1]
        self.near = [it for it in self.intervals if -16 <= it[0] and it[-1] <= 16]
        self.middle = [it for it in self.intervals if -128 <= it[0] and it[-1] <= 128]
        self.aligned = [it for it in self.intervals if it[0] % 4096 == 0 and it[-1] % 4096 == 4095]
        self.calls = self.failures = 0
        self.shapes = Counter()
        self.allocating = {}

    # -- arguments

    def type(self, name, *values):
        return self.header.types[name](*values)

    def rarely(self, part=0.02):
        return self.chance.random() < part

    def grid(self):
        """The number of a handle, rarely of an empty one."""
        full = [slot for slot in range(GRIDS) if self.maps[slot]]
        return self.chance.choice(full) if full and not self.rarely(0.05) else self.chance.randrange(GRIDS)

    def accessor(self):
        return self.chance.choice([-2, 8, 2**31 - 1]) if self.rarely() else self.chance.randrange(-1, 8)

    def value(self, kind):
        if self.rarely():
            return self.chance.choice([2, -1, 2**31, -(2**31) - 1])
        return self.chance.choice(SPANS[kind] if self.rarely(0.1) else [0, 1] if kind == "bool" else [0, 1, 5, -7, 1000])

    def place(self):
        """A voxel, mostly one near 0."""
        voxels = self.voxels if self.is_near or self.rarely(0.3) else [it for it in self.near if it in self.voxels]
        return tuple(self.chance.choice(voxels)[0] for _ in range(3))

    def anywhere(self):
        return tuple(self.chance.choice(self.chance.choice(self.intervals)) for _ in range(3))

    def side(self, choices, most):
        first = self.chance.randrange(len(choices))
        return choices[first][0], choices[min(len(choices) - 1, first + self.chance.randrange(most))][-1]

    def box(self, small=False):
        """A box that needs few leaves: its first coordinates, and its last."""
        kind = self.chance.random()
        if self.is_near:
            sides = [self.side(self.voxels, 7) for _ in range(3)]
        elif small or kind < 0.6:
            sides = [self.side(self.near, 7) for _ in range(3)]
        elif kind < 0.7:
            sides = [self.side(self.middle, 5) for _ in range(3)]
        elif kind < 0.85:
            sides = [self.side(self.aligned, 2) for _ in range(3)]
        else:
            sides = [self.side(self.near, 3) for _ in range(3)]
            sides[self.chance.randrange(3)] = self.side(self.voxels, 1)
        return [low for low, _ in sides] + [high for _, high in sides]

    def cube(self, sides):
        """A box from a place on, with one of these sides along each axis."""
        low = self.place()
        return [*low, *(min(HIGH, it + self.chance.choice(sides) - 1) for it in low)]

    def box_argument(self, box):
        """The box as an argument; rarely one with its corners out of order, for which the second value is True."""
        given, coord = [*box], self.header.types["vdb_coord"]
        unequal = [axis for axis in range(3) if box[axis] != box[axis + 3]]
        is_wrong = bool(unequal) and self.rarely()
        if is_wrong:
            axis = unequal[0]
            given[axis], given[axis + 3] = given[axis + 3], given[axis]
        return self.type("vdb_box", coord(*given[:3]), coord(*given[3:])), is_wrong

    def name(self):
        return self.chance.choice(WRONG_NAMES if self.rarely() else NAMES)

    # -- steps on one grid

    def on_grid(self, name, arguments, wrong=False, more=(), commit=None, outs=(), results=None):
        """A step on some grid; `wrong` says whether an argument is out of range, and `commit` and `results` get the map's grid."""
        slot = more[0] if more else self.grid()
        grid = self.maps[slot]
        refusals = {EMPTY} if grid is None else set()
        if wrong:
            refusals.add(RANGE)
        return Step(
            name,
            [self.grids[slot], *arguments],
            outs,
            refusals,
            commit and (lambda: commit(self.maps[slot])),
            results and (lambda: results(self.maps[slot])),
            [slot],
        )

    def readable(self):
        """Some grid or, at times, some view: the word of its calls, its handle, the map's grid, and the grids of the step."""
        slot, shown = self.grid(), [it for it in range(VIEWS) if self.view_maps[it]]
        if not self.rarely(0.2):
            return "grid", self.grids[slot], self.maps[slot], [slot]
        number = self.chance.choice(shown) if shown and not self.rarely(0.05) else self.chance.randrange(VIEWS)
        return "view", self.views[number], self.view_maps[number], []

    def on_readable(self, call, arguments, wrong=False, outs=(), results=None, commit=None, at=None):
        """A step that reads `at`, or some grid or view. `commit` gets the map's grid, the word of its calls and its handle."""
        word, handle, grid, grids = at or self.readable()
        refusals = {*([EMPTY] if grid is None else []), *([RANGE] if wrong else [])}
        do = commit and (lambda: commit(grid, word, handle))
        return Step(f"vdb_{word}_{call}", [handle, *arguments], outs, refusals, do, results and (lambda: results(grid)), grids)

    def new(self):
        slot, kind = self.chance.randrange(GRIDS), self.chance.choice(["bool", "i32", "i32", "i32", "i64"])
        background = self.value(kind)
        limit = self.chance.choice([0, 65537]) if self.rarely() else self.chance.choice([1, 5, 30, 4096, 4096, 65536])
        given = self.chance.choice([-1, 3]) if self.rarely() else KINDS.index(kind)
        made = Grid(kind, background, limit)
        wrong = not made.has(background) or not 1 <= limit <= 65536 or given in (-1, 3)

        def commit():
            self.maps[slot] = made

        return Step("vdb_grid_new", [self.grids[slot], given, background, limit], (), [RANGE] if wrong else [], commit, None, [slot])

    def free(self):
        slot = self.grid()

        def commit():
            self.maps[slot] = None

        return Step("vdb_grid_free", [self.grids[slot]], (), (), commit, None, [slot])

    def copy(self):
        source, target = self.chance.sample(range(GRIDS), 2)

        def commit():
            self.maps[target] = self.maps[source].copy()

        refusals = [EMPTY] if self.maps[source] is None else []
        return Step("vdb_grid_copy", [self.grids[source], self.grids[target]], (), refusals, commit, None, [source, target])

    def facts(self):
        name, out = self.chance.choice([("kind", c_int32(77)), ("background", c_int64(77)), ("limit", c_uint32(77))])
        results = lambda grid: [KINDS.index(grid.kind) if name == "kind" else getattr(grid, name)]  # noqa: E731
        return self.on_readable(name, [byref(out)], outs=[out], results=results)

    def get(self):
        at = self.anywhere() if self.rarely(0.4) else self.place()
        value, on = c_int64(77), c_int32(77)
        results = lambda grid: [grid.get(at)[0], int(grid.get(at)[1])]  # noqa: E731
        if self.rarely(0.5):
            return self.on_readable("get", [*at, byref(value), byref(on)], outs=[value, on], results=results)
        accessor = self.accessor()
        arguments = [accessor, *at, byref(value), byref(on)]
        return self.on_grid("vdb_grid_probe", arguments, not -1 <= accessor < 8, outs=[value, on], results=results)

    def set(self):
        slot, at, accessor, on = self.grid(), self.place(), self.accessor(), self.chance.randrange(2)
        grid = self.maps[slot]
        value = self.value(grid.kind if grid else "i32")
        wrong, unheld = not -1 <= accessor < 8, grid is not None and not grid.has(value)
        place = [accessor, *at]
        form = self.chance.randrange(3)
        if form == 0:
            return self.on_grid("vdb_grid_set", [*place, value, on], wrong or unheld, [slot], lambda grid: grid.set({at: (value, on == 1)}))
        if form == 1:
            commit = lambda grid: grid.set({at: (value, grid.get(at)[1])})  # noqa: E731
            return self.on_grid("vdb_grid_set_value", [*place, value], wrong or unheld, [slot], commit)
        return self.on_grid("vdb_grid_set_active", [*place, on], wrong, [slot], lambda grid: grid.set({at: (grid.get(at)[0], on == 1)}))

    def fill(self):
        slot, box, on = self.grid(), self.box(), self.chance.randrange(2)
        grid = self.maps[slot]
        value = self.value(grid.kind if grid else "i32")
        argument, wrong = self.box_argument(box)
        wrong = wrong or (grid is not None and not grid.has(value))
        return self.on_grid("vdb_grid_fill", [argument, value, on], wrong, [slot], lambda grid: grid.change(box, lambda _: (value, on == 1)))

    def clip(self):
        box = self.box() if self.rarely(0.5) else [self.near[0][0]] * 3 + [self.near[-1][-1]] * 3
        argument, wrong = self.box_argument(box)
        return self.on_grid("vdb_grid_clip", [argument], wrong, commit=lambda grid: grid.clip(box))

    def nodes(self):
        if self.rarely(0.3):
            return self.on_grid("vdb_grid_prune", [])
        argument, wrong = self.box_argument(self.box(small=True))
        return self.on_grid("vdb_grid_voxelise", [argument], wrong)

    def iterate(self):
        slot, grows = self.grid(), self.chance.random() < 0.6
        times = self.chance.choice([0, 17, 2**32 - 1]) if self.rarely() else self.chance.randrange(1, 4)
        name = "vdb_grid_dilate" if grows else "vdb_grid_erode"
        grid, wrong = self.maps[slot], not 1 <= times <= 16
        if grid is not None and grid.cells.count() > MOST_ACTIVE:
            return self.clip()
        return self.on_grid(name, [times], wrong, [slot], lambda grid: grid.iterate(grows, times))

    # -- many voxels at once

    def arrays(self, slot, count):
        """Arrays of values and states with `count` elements, or rarely with one more or one less, or with none; and their lengths."""
        lengths = [0 if self.rarely(0.15) else max(0, count + (self.chance.choice([-1, 1]) if self.rarely() else 0)) for _ in range(2)]
        kind = self.maps[slot].kind if self.maps[slot] else "i32"
        values = (c_int64 * max(1, lengths[0]))(*(self.value(kind) for _ in range(lengths[0])))
        states = (c_uint8 * max(1, lengths[1]))(*(self.chance.choice([0, 1, 1, 255]) for _ in range(lengths[1])))
        return values, states, lengths

    def many(self):
        slot, accessor, at = self.grid(), self.accessor(), [self.place() for _ in range(self.chance.choice([0, 1, 2, 5, 9]))]
        coord, count = self.header.types["vdb_coord"], len(at)
        values, states, lengths = self.arrays(slot, count)
        coords = (coord * max(1, count))(*(coord(*it) for it in at))
        arguments = [accessor, coords, count, values, lengths[0], states, lengths[1]]
        wrong = not -1 <= accessor < 8 or any(it not in (0, count) for it in lengths)
        if self.rarely(0.5):
            results = lambda grid: [  # noqa: E731
                tuple(grid.get(it)[0] for it in at) if lengths[0] else tuple(values),
                tuple(int(grid.get(it)[1]) for it in at) if lengths[1] else tuple(states),
            ]
            return self.on_grid("vdb_grid_get_many", arguments, wrong, [slot], None, [values, states], results)
        return self.writes("vdb_grid_write_many", arguments, wrong, slot, at, range(count), (values, states, lengths))

    def writes(self, name, arguments, wrong, slot, places, elements, arrays):
        """A call that sets places one after another to elements of arrays, and says how many it set."""
        grid, written, (values, states, lengths) = self.maps[slot], c_size_t(77), arrays
        wrong = wrong or (len(places) > 0 and lengths == [0, 0])
        if lengths[0] and not wrong:
            wrong = grid is not None and not all(grid.has(values[it]) for it in elements)

        def commit(grid, most=len(places)):
            """Writes up to so many of the places, in turn."""
            now, cells = {}, []
            for at, element in zip(places[:most], elements):
                value, on = now.get(at) or grid.get(at)
                now[at] = values[element] if lengths[0] else value, states[element] != 0 if lengths[1] else on
                cells.append(now[at])
            count = grid.accepted(places[:most], cells)
            grid.set(dict(zip(places[:count], cells)))
            if count < most:
                need(written.value == count, f"{written.value} voxels are written, and not {count}")
                raise language.Error("root-limit")

        step = self.on_grid(name, [*arguments, byref(written)], wrong, [slot], commit, [written], lambda grid: [len(places)])
        step.prefix = lambda grid: commit(grid, written.value)
        return step

    def steps(self, sides):
        """The strides of an array with the voxels of a box of these sides, in some order of the axes; rarely one of them is wrong."""
        steps, step = [0, 0, 0], self.chance.choice([1, 1, 1, 2, 3])
        for axis in self.chance.choice([(2, 1, 0), (2, 1, 0), *itertools.permutations(range(3))]):
            steps[axis] = step
            step = step * sides[axis] + self.chance.choice([0, 0, 0, 1, 5])
        if self.rarely():
            axis = self.chance.randrange(3)
            steps[axis] = self.chance.choice([0, steps[axis] - 1])
        return steps

    def dense(self):
        slot, is_wide = self.grid(), self.is_near and self.rarely(0.1)
        box = self.cube(range(8, 13) if is_wide else range(1, 8 if self.is_near else 4))
        sides = sides_of(box)
        argument, wrong = self.box_argument(box)
        steps = self.steps(sides)
        wrong = wrong or not are_nested(sides, steps)
        places, elements = elements_of(box, steps)
        count = max(elements) + 1
        values, states, lengths = self.arrays(slot, count)
        wrong = wrong or any(0 < it < count for it in lengths)
        strides = self.type("vdb_strides", *steps)
        arguments = [argument, byref(strides), values, lengths[0], states, lengths[1]]
        if self.rarely(0.5):
            accessor = self.accessor()
            wrong = wrong or not -1 <= accessor < 8
            step = self.writes("vdb_grid_write_box", [accessor, *arguments], wrong, slot, places, elements, (values, states, lengths))
            step.goes_on = is_wide  # without a leaf it writes voxel by voxel
            return step

        def results(grid):
            found = [list(values) if lengths[0] else [], list(states) if lengths[1] else []]
            for at, element in zip(places, elements):
                for part, cell in zip(found, grid.get(at)):
                    if part:
                        part[element] = int(cell)
            return [tuple(part or array) for part, array in zip(found, (values, states))]

        at = self.readable()
        grid = at[2]
        kind = self.chance.choice(["bool", "i32"] if grid is None or self.rarely() else ["i64", grid.kind])
        call = "read_box" if kind == "i64" else f"read_box_{kind}"  # the call for grids of any type, or of this one
        if kind != "i64":
            arguments[2] = values = (ELEMENTS[kind][0] * max(1, lengths[0]))()
        step = self.on_readable(call, arguments, wrong, [values, states], results, at=at)
        if grid is not None and kind not in ("i64", grid.kind):
            step.refusals.add(OTHER_KIND)
        return step

    def from_box(self):
        """A grid of the elements of a box of voxels, most of which are the background or another value."""
        slot, word = self.chance.randrange(GRIDS), self.chance.choice([*ELEMENTS, "i32"])
        kind = word if word in KINDS else "i32"
        box = self.cube(range(8, 13) if self.is_near and self.rarely(0.3) else range(1, 8))
        background, limit = self.value(kind), self.chance.choice([0, 65537]) if self.rarely() else self.chance.choice([1, 2, 4096])
        made, sides = Grid(kind, background, limit), sides_of(box)
        argument, wrong = self.box_argument(box)
        steps = self.steps(sides)
        places, elements = elements_of(box, steps)
        count = max(elements) + 1
        element, *spans = ELEMENTS[word]
        some = [*spans, 0, 1, 5] + [background] * 9 * made.has(background)
        values = (element * count)(*self.chance.choices(some[self.chance.randrange(len(some)) :], k=count))
        length = self.chance.randrange(count) if self.rarely() else count
        wrong = wrong or not are_nested(sides, steps) or length < count or not made.has(background) or not 1 <= limit <= 65536

        def commit():
            numbers = [int(values[it] != 0) if kind == "bool" else values[it] for it in elements]
            made.set({at: (number, number != background) for at, number in zip(places, numbers)})
            self.maps[slot] = made

        name = f"vdb_grid_from_box_{word}"
        strides = self.type("vdb_strides", *steps)
        arguments = [self.grids[slot], background, limit, argument, byref(strides), values, length]
        return Step(name, arguments, (), [RANGE] if wrong else [], commit, None, [slot])

    # -- leaves

    def leaf_count(self):
        """The number of leaves, which must be at least that of the smallest tree."""
        count, census = c_uint64(77), self.type("vdb_census")

        def commit(_grid, word, handle):
            getattr(self.library, f"vdb_{word}_census")(handle, byref(census))
            need(count.value >= census.leaf, f"{count.value} leaves, and {census.leaf} in the smallest tree")

        return self.on_readable("leaf_count", [byref(count)], False, [count], lambda grid: [count.value], commit)

    def leaves(self):
        """Some leaves from the first on, or past a voxel. They must be all leaves there, and have the cells of the map."""
        is_first, most = self.rarely(0.5), self.chance.choice([0, 1, 1, 2, 3, 5])
        after = self.place()
        lengths = [0 if self.rarely(0.2) else most * side + (1 if self.rarely() else 0) for side in (512, 8)]
        origins, copied = (self.header.types["vdb_coord"] * max(1, most))(), c_size_t(77)
        values, states = (c_int64 * max(1, lengths[0]))(), (c_uint64 * max(1, lengths[1]))()
        arguments = [origins, most, values, lengths[0], states, lengths[1], byref(copied)]
        wrong = most == 0 or lengths[0] not in (0, most * 512) or lengths[1] not in (0, most * 8)

        def commit(grid, word, handle):
            last = None if is_first else order_of(after)
            for number in range(copied.value):
                at = text_of(origins[number])
                need(not any(it % 8 for it in at), f"no leaf is at {at}")
                need(last is None or last < order_of(at), f"the leaf at {at} is out of order")
                last = order_of(at)
                for index in self.chance.sample(range(512), 40):
                    x, y, z = index >> 6, index >> 3 & 7, index & 7
                    cell = grid.get(tuple(map(sum, zip(at, (x, y, z)))))
                    need(not lengths[0] or values[512 * number + index] == cell[0], f"the value {x} {y} {z} of the leaf at {at}")
                    need(not lengths[1] or (states[8 * number + x] >> (8 * y + z) & 1) == cell[1], f"the state {x} {y} {z} of the leaf at {at}")
            if is_first and copied.value < most:
                count = c_uint64()
                getattr(self.library, f"vdb_{word}_leaf_count")(handle, byref(count))
                need(copied.value == count.value, f"{copied.value} leaves of {count.value}")

        outs = [origins, values, states, copied]
        name, given = ("first_leaves", arguments) if is_first else ("next_leaves", [*after, *arguments])
        return self.on_readable(name, given, wrong, outs, lambda grid: [text_of(it) for it in outs], commit)

    def parts(self):
        """Some parts from the first on, or past a voxel. They must be in order, have the cells of the map, and leave none out."""
        is_first, most = self.rarely(0.5), self.chance.choice([0, 1, 2, 5, 40])
        after = self.place()
        found, copied = (self.header.types["vdb_part"] * max(1, most))(), c_size_t(77)

        def commit(grid, word, handle):
            boxes = [(text_of(it.box.min), text_of(it.box.max)) for it in found[: copied.value]]
            ends = [order_of(high) for _, high in boxes]
            need(ends == sorted(ends), "parts are out of order")
            need(all(order_of(low) > end for (low, _), end in zip(boxes[1:], ends)), "a part begins before the last one ends")
            need(is_first or not ends or ends[0] > order_of(after), "the first part has no voxel past the place")
            for part, (low, high) in zip(found, boxes):
                side = high[0] - low[0] + 1
                need(side in (8, 128, 4096) and all(a % side == 0 and b - a + 1 == side for a, b in zip(low, high)), f"{low} to {high} is no cube of a node")
                need(side == 8 if part.state == 2 else (part.value, part.state) != (grid.background, 0), f"the part at {low}")
                for _ in range(3):
                    at = tuple(self.chance.randint(a, b) for a, b in zip(low, high))
                    need(part.state == 2 or (part.value, bool(part.state)) == grid.get(at), f"the cell at {at} of a tile")
            for at in grid.some(self.chance, 20):
                if (is_first or order_of(at) > order_of(after)) and (copied.value < most or ends and order_of(at) <= ends[-1]):
                    need(any(all(a <= it <= b for a, it, b in zip(low, at, high)) for low, high in boxes), f"no part has {at}")

        outs = [found, copied]
        name, given = ("first_parts", []) if is_first else ("next_parts", after)
        return self.on_readable(name, [*given, found, most, byref(copied)], False, outs, lambda grid: [text_of(it) for it in outs], commit)

    # -- views

    def view(self):
        """A grid becomes a view, a view is shared, copied to a grid or freed, or a voxel is read."""
        slot, number = self.grid(), self.chance.randrange(VIEWS)
        grid, shown = self.maps[slot], self.view_maps[number]
        handle, refusals = self.views[number], [] if shown else [EMPTY]
        form = self.chance.choice(["new", "share", "copy", "take", "free", *["get"] * 4, *["many"] * 3])

        def commit():
            if form == "new":
                self.view_maps[number], self.maps[slot] = grid, None
            elif form == "share":
                self.view_maps[1 - number] = shown
            elif form == "copy":
                self.maps[slot] = shown.copy()
            elif form == "take":
                self.view_maps[number], self.maps[slot] = None, shown
            elif form == "free":
                self.view_maps[number] = None

        if form == "new":
            return Step("vdb_view_new", [self.grids[slot], handle], (), [] if grid else [EMPTY], commit, None, [slot])
        if form == "share":
            return Step("vdb_view_share", [handle, self.views[1 - number]], (), refusals, commit)
        if form == "copy":
            return Step("vdb_view_copy", [handle, self.grids[slot]], (), refusals, commit, None, [slot])
        if form == "take":
            refusals = [RANGE] if shown and self.view_maps[1 - number] is shown else refusals
            return Step("vdb_view_take", [handle, self.grids[slot]], (), refusals, commit, None, [slot])
        if form == "free":
            return Step("vdb_view_free", [handle], (), (), commit)
        if form == "many":
            at = [self.place() for _ in range(self.chance.choice([1, 2, 5]))]
            coord, count = self.header.types["vdb_coord"], len(at)
            length = count + 1 if self.rarely() else count
            values, states = (c_int64 * length)(), (c_uint8 * count)()
            coords = (coord * count)(*(coord(*it) for it in at))
            results = lambda: [tuple(shown.get(it)[0] for it in at), tuple(int(shown.get(it)[1]) for it in at)]  # noqa: E731
            refusals = [*refusals, RANGE] if length != count else refusals
            return Step("vdb_view_get_many", [handle, coords, count, values, length, states, count], [values, states], refusals, commit, results)
        at, value, on = self.place(), c_int64(77), c_int32(77)
        results = lambda: [shown.get(at)[0], int(shown.get(at)[1])]  # noqa: E731
        return Step("vdb_view_get", [handle, *at, byref(value), byref(on)], [value, on], refusals, commit, results)

    # -- steps on two grids

    def combine(self):
        slot, second = self.chance.sample(range(GRIDS), 2)
        word, (grid, other) = self.chance.choice([*CALLS]), (self.maps[slot], self.maps[second])
        refusals = [EMPTY] if grid is None or other is None else []
        handles = [self.grids[slot], self.grids[second]]
        return Step(f"vdb_grid_{CALLS[word]}", handles, (), refusals, lambda: grid.combine(word, other), None, [slot, second])

    def equal(self):
        slot, second = self.chance.sample(range(GRIDS), 2)
        grid, other, out = self.maps[slot], self.maps[second], c_int32(77)

        def results():
            unequal = {*grid.cells.combined(other.cells, lambda a, b: (a != b, False)).palette} - {(False, False)}
            return [int((grid.kind, grid.background) == (other.kind, other.background) and not unequal)]

        refusals = [EMPTY] if grid is None or other is None else []
        return Step("vdb_grid_equal", [self.grids[slot], self.grids[second], byref(out)], [out], refusals, None, results, [slot, second])

    # -- reports

    def count(self):
        out = self.type("vdb_count", 77, 77)
        if self.rarely(0.5):
            return self.on_readable("count", [byref(out)], outs=[out], results=lambda grid: [count_of(grid.cells.count())])
        box = self.box()
        argument, wrong = self.box_argument(box)
        return self.on_readable("count_in", [argument, byref(out)], wrong, [out], lambda grid: [count_of(grid.cells.count(box))])

    def bounds(self):
        out, found = self.type("vdb_box", (77, 77, 77), (77, 77, 77)), c_int32(77)

        def results(grid):
            box = grid.cells.bounds()
            return [(tuple(box[:3]), tuple(box[3:])) if box else ((77,) * 3,) * 2, int(box is not None)]

        return self.on_readable("bounds", [byref(out), byref(found)], outs=[out, found], results=results)

    def census(self):
        out = self.type("vdb_census", 77, 77, 77, 77)
        return self.on_readable("census", [byref(out)], outs=[out], results=lambda grid: [tuple(grid.census())])

    def active(self):
        """One step of a walk over a box of voxels, from its start or from some voxel."""
        box, after = self.box(small=True), self.place() if self.rarely(0.7) else None
        argument, wrong = self.box_argument(box)
        at = self.type("vdb_coord", *(after or (77, 77, 77)))
        value, found = c_int64(77), c_int32(77)

        def results(grid):
            left = (it for it in grid.cells.voxels(box) if after is None or order_of(it) > order_of(after))
            found = next(left, None)
            return [found, grid.get(found)[0], 1] if found else [after or (77, 77, 77), 77, 0]

        name = "first_active" if after is None else "next_active"
        outs = [at, value, found]
        return self.on_readable(name, [argument, *map(byref, outs)], wrong, outs, results)

    # -- the scene

    def on_scene(self, name, arguments, refusals=(), outs=(), commit=None, results=None, grids=()):
        refusals = {*refusals, EMPTY} if self.scene_map is None else set(refusals)
        return Step(name, [self.scene, *arguments], outs, refusals, commit, results, grids)

    def scene_new(self):
        def commit():
            self.scene_map = {}

        if self.rarely(0.05):
            self.saved.clear()
            return Step("vdb_scene_free", [self.scene], (), (), lambda: setattr(self, "scene_map", None))
        if self.scene_map is not None and not self.rarely(0.1):
            return self.scene_put()
        return Step("vdb_scene_new", [self.scene], (), (), commit)

    def scene_load(self):
        if not self.saved:
            return self.scene_save()
        encoding, grids = self.chance.choice(self.saved)
        is_wrong = self.rarely(0.3)
        if is_wrong:
            encoding = encoding[: self.chance.randrange(len(encoding))] if self.rarely(0.5) else encoding + b"\0"

        def commit():
            self.scene_map = {name: (grid.copy(), dict(pairs)) for name, (grid, pairs) in grids.items()}

        given = (ctypes.c_uint8 * max(1, len(encoding))).from_buffer_copy(encoding or b"\0")
        return Step("vdb_scene_load", [self.scene, given, len(encoding)], (), FAULTS if is_wrong else (), commit)

    def scene_save(self):
        length = c_uint64(77)
        code = self.library.vdb_scene_length(self.scene, byref(length))
        need(code == (EMPTY if self.scene_map is None else OK), f"vdb_scene_length returned {code}")
        room = length.value if self.rarely(0.7) else self.chance.randrange(length.value)
        if room > 2**24:
            return self.scene_new()
        buffer, written = (ctypes.c_uint8 * max(1, room))(), c_uint64(77)

        def commit():
            self.saved = [*self.saved[-3:], (bytes(buffer), {name: (grid.copy(), dict(pairs)) for name, (grid, pairs) in self.scene_map.items()})]

        refusals = [BUFFER] if room < length.value else []
        arguments = [buffer, room, byref(written)]
        return self.on_scene("vdb_scene_save", arguments, refusals, [written], commit, lambda: [length.value])

    def scene_names(self):
        count, used, index = c_uint64(77), c_uint64(77), self.chance.randrange(5)
        if self.rarely(0.3):
            return self.on_scene("vdb_scene_count", [byref(count)], (), [count], None, lambda: [len(self.scene_map)])
        names = sorted(self.scene_map or {})
        room = self.chance.randrange(16) if self.rarely(0.1) else 16
        refusals = [NO_GRID] if index >= len(names) else [BUFFER] if len(names[index]) > room else []
        out = ctypes.create_string_buffer(b"?" * 16, 17)
        results = lambda: [names[index].ljust(16, b"?"), len(names[index])]  # noqa: E731
        return self.on_scene("vdb_scene_name", [index, out, room, byref(used)], refusals, [out, used], None, results)

    def named(self, name):
        """The codes of errors of a call on a grid by its name."""
        return [NAME] if name in WRONG_NAMES else [NO_GRID] if name not in (self.scene_map or {}) else []

    def scene_put(self):
        slot, name = self.grid(), self.name()
        refusals = [NAME] if name in WRONG_NAMES else [NAME_TAKEN] if name in (self.scene_map or {}) else []
        if self.maps[slot] is None:
            refusals.append(EMPTY)

        def commit():
            self.scene_map[name], self.maps[slot] = (self.maps[slot], {}), None

        return self.on_scene("vdb_scene_put", [name, len(name), self.grids[slot]], refusals, (), commit, None, [slot])

    def scene_take(self):
        slot, name, moves = self.grid(), self.name(), self.rarely(0.6)

        def commit():
            self.maps[slot] = self.scene_map[name][0].copy()
            if moves:
                del self.scene_map[name]

        call = "vdb_scene_take" if moves else "vdb_scene_copy"
        return self.on_scene(call, [name, len(name), self.grids[slot]], self.named(name), (), commit, None, [slot])

    def scene_swap(self):
        slot, name = self.grid(), self.name()
        refusals = [*self.named(name), *([EMPTY] if self.maps[slot] is None else [])]

        def commit():
            grid, pairs = self.scene_map[name]
            self.scene_map[name], self.maps[slot] = (self.maps[slot], pairs), grid

        return self.on_scene("vdb_scene_swap", [name, len(name), self.grids[slot]], refusals, (), commit, None, [slot])

    def scene_meta(self):
        name, key = self.name(), self.name()
        if self.scene_map and not self.rarely(0.2):
            name = self.chance.choice(sorted(self.scene_map))
        refusals = self.named(name)
        pairs = self.scene_map[name][1] if self.scene_map and name in self.scene_map else {}
        form, used = self.chance.randrange(5), c_uint64(77)
        given = [name, len(name)]
        wrong_key = [NAME] if key in WRONG_NAMES else []
        if form == 0:
            return self.on_scene("vdb_scene_meta_count", [*given, byref(used)], refusals, [used], None, lambda: [len(pairs)])
        if form <= 2:
            index, keys = self.chance.randrange(3), sorted(pairs)
            room = 16 if form == 1 else 64
            out = ctypes.create_string_buffer(b"?" * room, room + 1)

            def results():
                text = keys[index] if form == 1 else pairs[keys[index]]
                return [text.ljust(room, b"?"), len(text)]

            refusals = refusals or ([NO_META] if index >= len(keys) else [])
            call = "vdb_scene_meta_key" if form == 1 else "vdb_scene_meta_text"
            return self.on_scene(call, [*given, index, out, room, byref(used)], refusals, [out, used], None, results)
        if form == 3:
            text = self.chance.choice(WRONG_TEXTS if self.rarely() else TEXTS)
            refusals = [*refusals, *wrong_key, *([TEXT] if text in WRONG_TEXTS else [])]
            commit = lambda: pairs.__setitem__(key, text)  # noqa: E731
            return self.on_scene("vdb_scene_meta_set", [*given, key, len(key), text, len(text)], refusals, (), commit)
        commit = lambda: pairs.pop(key, None) and None  # noqa: E731
        return self.on_scene("vdb_scene_meta_remove", [*given, key, len(key)], [*refusals, *wrong_key], (), commit)

    # -- running

    KINDS_OF_STEP = [
        (set, 30), (get, 25), (fill, 8), (clip, 3), (nodes, 3), (iterate, 2), (combine, 5), (equal, 3), (new, 3), (free, 0.5), (copy, 2), (facts, 2),
        (count, 2), (bounds, 2), (census, 1), (active, 5), (many, 6), (dense, 6), (from_box, 3), (leaf_count, 1), (leaves, 3), (parts, 3), (view, 3), (scene_new, 0.5), (scene_load, 0.3), (scene_save, 0.5),
        (scene_names, 1), (scene_put, 0.8), (scene_take, 0.8), (scene_swap, 0.8), (scene_meta, 2),
    ]  # fmt: skip

    def run(self, calls):
        """Makes random calls, each compared with the map."""
        makers, weights = zip(*self.KINDS_OF_STEP)
        while self.calls < calls:
            step = self.chance.choices(makers, weights)[0](self)
            self.calls += 1
            shape = self.shape_of(step)
            self.shapes[shape] += 1
            before = self.failures
            try:
                self.take(step, self.shapes[shape] <= TIMES or self.calls % FAIL_EVERY == 0)
            except Wrong as wrong:
                raise Wrong(f"call {self.calls}, {step.name}: {wrong}") from None
            if self.failures > before:
                self.allocating.setdefault(step.name, set()).add(shape)
        for slot in range(GRIDS):
            self.library.vdb_grid_free(self.grids[slot])
        for handle in self.views:
            self.library.vdb_view_free(handle)
        self.library.vdb_scene_free(self.scene)
        need(self.held.value == 0, f"{self.held.value} blocks are held at the end")

    def shape_of(self, step):
        """What a call is like: the types of its grids, which of its numbers are 0, and whether it must fail."""
        kinds = [self.maps[slot] and self.maps[slot].kind for slot in step.grids]
        return step.name, *kinds, *(it != 0 for it in step.arguments if isinstance(it, int)), bool(step.refusals)

    def take(self, step, fails):
        """Makes a call and compares it with the map. If it `fails`, each allocation of the call fails before."""
        before = [text_of(it) for it in step.outs]
        codes = []
        for number in range(1, FAILURES if fails else 1):
            self.fail_in.value, self.failed.value = number, 0
            code = getattr(self.library, step.name)(*step.arguments)
            self.fail_in.value = 0
            if not self.failed.value:
                break
            self.failures += 1
            if not code and step.goes_on:
                break
            need(code, f"returns OK, though allocation {number} failed")
            codes.append(code)
            if step.prefix is None or code not in (MEMORY, ROOT_LIMIT):
                self.unchanged(step, before, f"allocation {number} failed")
            else:
                step.prefix(self.maps[step.grids[0]])
                self.verify(step.grids[0], 200)
        else:
            code = getattr(self.library, step.name)(*step.arguments)
        self.compare(step, code, before)
        need({*codes} <= {MEMORY, code}, f"{codes} after failed allocations, and {code} without")

    def compare(self, step, code, before):
        code = code or OK
        if step.refusals:
            need(code in step.refusals, f"{code}, and not one of {sorted(step.refusals)}")
        else:
            wanted = self.committed(step)
            need(code == wanted, f"{code}, and not {wanted}")
        if code and not (step.prefix and code == ROOT_LIMIT):
            self.unchanged(step, before, f"code {code}")
        elif code:
            self.verify(step.grids[0], 40)
        elif step.outs:
            found, wanted = [text_of(it) for it in step.outs], list(step.results())
            need(found == wanted, f"the results are {found}, and not {wanted}")
        if self.calls % VERIFY_EVERY == 0:
            for slot in range(GRIDS):
                self.verify(slot, 10**6)

    def committed(self, step):
        """Changes the map as a call that isn't refused must, and returns the code that it must return."""
        try:
            return step.commit() or OK
        except language.Error as error:
            return ERRORS[str(error)]

    def cell(self, slot, at):
        """The library's cell at a voxel."""
        value, on = c_int64(), c_int32()
        self.library.vdb_grid_get(self.grids[slot], *at, byref(value), byref(on))
        return value.value, on.value != 0

    def unchanged(self, step, before, why):
        """Checks that the results and the grids are as they were."""
        after = [text_of(it) for it in step.outs]
        need(after == before, f"{why}, and the results changed from {before} to {after}")
        for slot in step.grids:
            self.verify(slot, 40)

    def verify(self, slot, most):
        """Compares up to `most` cells of a grid that aren't the background, some others, and its reports, with the map."""
        grid, handle = self.maps[slot], self.grids[slot]
        value, count = c_int64(), self.type("vdb_count")
        code = self.library.vdb_grid_background(handle, byref(value))
        need(code == (EMPTY if grid is None else OK), f"the background returns {code}")
        if grid is None:
            return
        need(value.value == grid.background, f"the background is {value.value}, and not {grid.background}")
        self.library.vdb_grid_count(handle, byref(count))
        wanted = grid.cells.count()
        need(count.high << 64 | count.low == wanted, f"{count.high << 64 | count.low} voxels are active, and not {wanted}")
        for at in [*grid.some(self.chance, most), *(self.anywhere() for _ in range(10))]:
            found = self.cell(slot, at)
            need(found == grid.get(at), f"the cell at {at} is {found}, and not {grid.get(at)}")


def need(holds, what):
    if not holds:
        raise Wrong(what)


def sides_of(box):
    return [last - first + 1 for first, last in zip(box[:3], box[3:])]


def elements_of(box, steps):
    """The voxels of a box, and for each the number of its element in an array with these strides."""
    places = [*itertools.product(*(range(first, last + 1) for first, last in zip(box[:3], box[3:])))]
    return places, [sum((it - low) * step for it, low, step in zip(at, box, steps)) for at in places]


def are_nested(sides, steps):
    """Whether in some order of the axes a step along each passes all elements that those before it reach."""
    last = 0
    for step, side in sorted(zip(steps, sides)):
        if side > 1 and step <= last:
            return False
        last += (side - 1) * step
    return True


def count_of(count):
    return count & 2**64 - 1, count >> 64


def order_of(at):
    """A voxel's place in block order, as something to compare."""
    return [[it >> bits for it in at] for bits in (12, 7, 3, 0)]


def text_of(out):
    """Returns a result as a number, or as tuples of numbers, or as bytes."""
    if isinstance(out, ctypes.Structure):
        return tuple(text_of(getattr(out, name)) for name, _ in out._fields_)
    if isinstance(out, ctypes.Array):
        return out.value if out._type_ is ctypes.c_char else tuple(text_of(it) for it in out)
    return getattr(out, "value", out)


def main(words):
    if not 1 <= len(words) <= 3:
        sys.exit(__doc__.splitlines()[0])
    calls, seed = (int(words[it]) if len(words) > it else otherwise for it, otherwise in ((1, 100_000), (2, 0)))
    header, began = Header(), time.process_time()
    library = header.load(words[0])
    failures, allocating, made = 0, {}, set()
    for cuts, part in ((VOXELS, calls // 2), (BORDERS, calls - calls // 2)):
        session = Session(library, header, cuts, random.Random(f"{seed} {len(cuts)}"))
        session.run(part)
        failures += session.failures
        made |= {name for name, *_ in session.shapes}
        for name, shapes in session.allocating.items():
            allocating.setdefault(name, set()).update(shapes)
    print(f"{time.process_time() - began:.0f} seconds")
    print("allocating:", ", ".join(f"{name} {len(shapes)}" for name, shapes in sorted(allocating.items())))
    print("never made:", ", ".join(sorted(header.calls.keys() - made)))
    print(f"{calls} calls, {failures} failed allocations")


if __name__ == "__main__":
    main(sys.argv[1:])
