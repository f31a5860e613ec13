# SPDX-License-Identifier: Apache-2.0
"""The cells of a grid, by docs/LANGUAGE.md alone: a map from boxes of coordinates to cells, without tree, tile or accessor.

Each axis is cut at some coordinates, and all voxels between neighbouring cuts are alike. So a box of any size is a few entries. A cell
is a pair (value, state), and `palette` has each that occurs. `numbers[i, j, k]` is the index in it of the cell of interval i along x, j
along y and k along z. Nothing is rounded: sums, counts and coordinates are integers of Python."""
import itertools
from bisect import bisect_right
from functools import cached_property

import numpy as np

LOW, HIGH = -(2**31), 2**31 - 1
EXTENTS = (4096, 128, 8)
SIDES = {4096: 128, 128: 8, 8: 1}  # of the parts of each extent
MOST = 3_000_000  # entries of a map; beyond, the model gives up


class TooLarge(Exception):
    """The map would have too many entries for this model. It says nothing about the program."""


def intervals(cuts, ends):
    """Returns the numbers of the intervals between cuts that contain these coordinates."""
    return [bisect_right(cuts, end) - 1 for end in ends]


def lengths(cuts, low=LOW, high=HIGH):
    """Returns for each interval how many of its coordinates are from `low` to `high`."""
    ends = [*cuts[1:], HIGH + 1]
    return [max(0, min(end, high + 1) - max(cut, low)) for cut, end in zip(cuts, ends)]


def volume(marks, sides):
    """Returns how many voxels the marked entries have, whose intervals have these lengths along each axis."""
    along_z = np.dot(marks.astype(object), np.array(sides[2], object))
    return int(np.dot(np.dot(along_z, np.array(sides[1], object)), np.array(sides[0], object)))


def box_ends(box):
    return list(zip(box[:3], box[3:]))


class Cells:
    """The cells of one grid. No call changes it: each returns other cells."""

    def __init__(self, cuts, numbers, palette):
        self.cuts, self.numbers, self.palette = cuts, numbers, palette

    @classmethod
    def all_equal(cls, cell):
        return cls([[LOW]] * 3, np.zeros((1, 1, 1), np.int32), [cell])

    def cut(self, more):
        """Returns the same cells with these cuts too, a list for each axis, and with all cuts kept."""
        cuts = [sorted({*old, *new}) for old, new in zip(self.cuts, more)]
        if np.prod([len(axis) for axis in cuts], dtype=object) > MOST:
            raise TooLarge
        places = [intervals(old, new) for old, new in zip(self.cuts, cuts)]
        return Cells(cuts, self.numbers[np.ix_(*places)], self.palette)

    def cut_at(self, box):
        return self.cut([[low, *([high + 1] if high < HIGH else [])] for low, high in box_ends(box)])

    def part(self, box):
        """Returns the slices of the entries that a box meets."""
        ends = [intervals(cuts, ends) for cuts, ends in zip(self.cuts, box_ends(box))]
        return tuple(slice(first, last + 1) for first, last in ends)

    def tidy(self):
        """Returns the same cells with each cell once in the palette and no cut between equal cells."""
        used = np.bincount(self.numbers.ravel(), minlength=len(self.palette)) > 0
        known, place = {}, np.zeros(len(self.palette), np.int32)
        for number in np.flatnonzero(used):
            place[number] = known.setdefault(self.palette[number], len(known))
        numbers, cuts = place[self.numbers], []
        for axis in range(3):
            lined = np.moveaxis(numbers, axis, 0)
            kept = [0, *(1 + np.flatnonzero((lined[1:] != lined[:-1]).any(axis=(1, 2))))]
            cuts.append([self.cuts[axis][number] for number in kept])
            numbers = numbers.take(kept, axis)
        return Cells(cuts, numbers, list(known))

    def at(self, place):
        return self.palette[self.numbers[tuple(bisect_right(cuts, part) - 1 for cuts, part in zip(self.cuts, place))]]

    def changed(self, box, change):
        """Returns the cells with each one in the box changed by a function."""
        made = self.cut_at(box)
        part, count = made.part(box), len(made.palette)
        made.numbers[part] += count
        return Cells(made.cuts, made.numbers, [*made.palette, *map(change, made.palette)]).tidy()

    def with_voxels(self, voxels):
        """Returns the cells with those of some voxels, by their coordinates, replaced."""
        made = self.cut([{cut for at in voxels for cut in (at[axis], at[axis] + 1) if cut <= HIGH} for axis in range(3)])
        places = [np.searchsorted(cuts, ends) for cuts, ends in zip(made.cuts, zip(*voxels))]
        if voxels:
            made.numbers[tuple(places)] = np.arange(len(voxels)) + len(made.palette)
        return Cells(made.cuts, made.numbers, [*made.palette, *voxels.values()]).tidy()

    def kept(self, box, outside):
        """Returns the cells with each one outside the box replaced."""
        made = self.cut_at(box)
        part = made.part(box)
        numbers = np.full_like(made.numbers, len(made.palette))
        numbers[part] = made.numbers[part]
        return Cells(made.cuts, numbers, [*made.palette, outside]).tidy()

    def combined(self, other, both):
        """Returns the cells that a function makes of the two cells at each coordinate."""
        mine, theirs = self.cut(other.cuts), other.cut(self.cuts)
        count = len(other.palette)
        pairs = mine.numbers * count + theirs.numbers
        used = np.flatnonzero(np.bincount(pairs.ravel()))
        palette = [None] * (int(used[-1]) + 1)
        for pair in used:
            palette[pair] = both(self.palette[pair // count], other.palette[pair % count])
        return Cells(mine.cuts, pairs, palette).tidy()

    @cached_property
    def states(self):
        """Which entries are active."""
        return np.array([on for _, on in self.palette])[self.numbers]

    def iterated(self, grows):
        """Returns the cells after one iteration of a dilation or an erosion. Beyond the ends of an axis no voxel lies, so none there
        activates or deactivates another one."""
        near = [[cut + step for cut in [*axis, HIGH + 1] for step in (-1, 1) if LOW <= cut + step <= HIGH] for axis in self.cuts]
        made = self.cut(near)
        old, new = made.states, made.states
        for axis, cuts in enumerate(made.cuts):
            for step in (-1, 1):
                beside = [cut + step for cut in cuts]
                other = old.take(intervals(cuts, [min(max(it, LOW), HIGH) for it in beside]), axis)
                shape = [-1 if it == axis else 1 for it in range(3)]
                none = np.array([not LOW <= it <= HIGH for it in beside]).reshape(shape)
                new = new | (other & ~none) if grows else new & (other | none)
        palette = [(value, on) for value, _ in made.palette for on in (False, True)]
        return Cells(made.cuts, made.numbers * 2 + new, palette).tidy()

    def count(self, box=(LOW, LOW, LOW, HIGH, HIGH, HIGH)):
        """Returns how many active voxels a box has."""
        return volume(self.states, [lengths(cuts, *ends) for cuts, ends in zip(self.cuts, box_ends(box))])

    def bounds(self):
        """Returns the bounding box of the active voxels, or None."""
        states, corners = self.states, []
        if not states.any():
            return None
        for axis, cuts in enumerate(self.cuts):
            marked = np.flatnonzero(states.any(axis=tuple(it for it in range(3) if it != axis)))
            corners.append((cuts[marked[0]], [*cuts, HIGH + 1][marked[-1] + 1] - 1))
        return [low for low, _ in corners] + [high for _, high in corners]

    def grouped(self, side):
        """Returns the extents of `side` voxels in groups of equal ones: the least and the greatest number of a cell in each, and along each
        axis the first extent of a group and how many it has."""
        edges = [[cut // side * side + step for cut in axis if cut % side for step in (0, side)] for axis in self.cuts]
        made = self.cut([[edge for edge in axis if edge <= HIGH] for axis in edges])
        least = most = made.numbers
        firsts, sides = [], []
        for axis, cuts in enumerate(made.cuts):
            starts = [number for number, cut in enumerate(cuts) if cut % side == 0]
            least, most = np.minimum.reduceat(least, starts, axis), np.maximum.reduceat(most, starts, axis)
            firsts.append([cuts[number] // side for number in starts])
            sides.append([end - first for first, end in zip(firsts[axis], [*firsts[axis][1:], (HIGH + 1) // side])])
        return least, most, firsts, sides

    def number_of(self, cell):
        return self.palette.index(cell) if cell in self.palette else -1

    def rooted(self, default):
        """Returns which groups of upper extents have a cell other than the default, and the groups along each axis."""
        least, most, firsts, sides = self.grouped(EXTENTS[0])
        number = self.number_of(default)
        return (least != number) | (most != number), firsts, sides

    def roots(self, default):
        """Returns how many upper extents have a cell other than the default."""
        marks, _, sides = self.rooted(default)
        return volume(marks, sides)

    def root_keys(self, default):
        """Returns these upper extents by their numbers along each axis, in order."""
        marks, firsts, sides = self.rooted(default)
        found = []
        for group in np.argwhere(marks):
            spans = [range(firsts[axis][at], firsts[axis][at] + sides[axis][at]) for axis, at in enumerate(group)]
            found += itertools.product(*spans)
        return sorted(found)

    def uneven(self, side):
        """Returns how many extents of this side have cells that differ."""
        least, most, _, sides = self.grouped(side)
        return volume(least != most, sides)

    def blocks(self, box, side):
        """Yields the aligned cubes of a side, each cut to the box, that have an active voxel: by rising x, then y, then z."""
        def along(box, axis):
            if axis == 3:
                yield box
                return
            part = self.part(box)
            marked = self.states[part].any(axis=tuple(it for it in range(3) if it != axis))
            low, high, last = box[axis], box[axis + 3], None
            cuts = [*self.cuts[axis], HIGH + 1]
            for number in part[axis].start + np.flatnonzero(marked):
                for key in range(max(low, cuts[number]) // side, min(high, cuts[number + 1] - 1) // side + 1):
                    if last is None or key > last:
                        smaller = list(box)
                        smaller[axis], smaller[axis + 3] = max(low, key * side), min(high, key * side + side - 1)
                        yield from along(smaller, axis + 1)
                        last = key

        yield from along(list(box), 0)

    def voxels(self, box, sides=(*EXTENTS, 1)):
        """Yields the active voxels of a box in block order."""
        for block in self.blocks(box, sides[0]):
            if len(sides) == 1:
                yield tuple(block[:3])
            else:
                yield from self.voxels(block, sides[1:])

    def with_body(self, low, side, body):
        """Returns the cells with those of a cube replaced by a body, as `body` returns one."""
        if isinstance(body, tuple):
            return self.changed([*low, *(part + side - 1 for part in low)], lambda _: (body[1], body[0] == 2))
        below, made = SIDES[side], self
        count = side // below
        for number, entry in body:
            place = number // count**2, number // count % count, number % count
            made = made.with_body([part + step * below for part, step in zip(low, place)], below, entry)
        return made

    def body(self, low, side, default):
        """Returns the body of the cube of `side` voxels at its least corner, as tests/rows/encoding.py reads one."""
        box = [*low, *(part + side - 1 for part in low)]
        inner = np.unique(self.numbers[self.part(box)])
        if len(inner) == 1:
            value, on = self.palette[inner[0]]
            return 1 + on, int(value)
        below = SIDES[side]
        edges = [[part + step for step in range(0, side, below)] for part in low]
        made = self.cut([[edge for edge in axis if edge <= HIGH] for axis in edges])
        part = made.part(box)
        marks = made.numbers[part] != made.number_of(default)
        starts = [[made.cuts[axis].index(edge) - part[axis].start for edge in edges[axis]] for axis in range(3)]
        for axis in range(3):
            marks = np.logical_or.reduceat(marks, starts[axis], axis)
        entries = np.argwhere(marks).tolist()
        count = side // below
        return [((x * count + y) * count + z, made.body([edges[0][x], edges[1][y], edges[2][z]], below, default)) for x, y, z in entries]
