# SPDX-License-Identifier: Apache-2.0
"""Reads scene files of versions 1 and 2.

The walk over the nodes of a grid passes over each leaf by its number of voxels. Then NumPy tests and stores the voxels of all
leaves. A fault is the first one in the order of docs/FORMAT.md: what looks wrong is read once more field by field.
"""
from __future__ import annotations

import struct
from array import array
from typing import Callable, NoReturn

import numpy as np

from .. import forms
from ..errors import FAULTS, FormatError
from ..forms import ENTRIES, KEY_SPAN, KIND_NUMBERS, MAX_FILE, Kind, Progress
from .tree import Leaves, Tiles, Tree, chunks

#: Zeros behind the last byte of a file, so that the head of an entry can be read at once: its index, tag and count.
PADDING = 16
HEAD = struct.Struct(">HBH")
UPPER, LOWER, LEAF = range(3)
BLOCKS = ("upper extent", "lower extent", "leaf extent", "voxel")


class Reader:
    """Reads fields from `data`, of which the last PADDING bytes are no part of the file."""

    def __init__(self, data: bytearray, path: "str | None", progress: "Progress | None" = None) -> None:
        self.data = data
        self.view = memoryview(data)
        self.size = len(data) - PADDING
        #: Where the last field that can be read ends.
        self.end = min(self.size, MAX_FILE)
        self.path = path
        self.progress = progress
        self.at = 0

    def fail(self, fault: str, offset: int, reason: str) -> NoReturn:
        raise FAULTS[fault](offset, reason, self.path)

    def field(self, length: int, what: str) -> bytes:
        """Returns the next field's bytes."""
        at, end = self.at, self.at + length
        if end > MAX_FILE:
            self.fail("too-long", at, f"{what} would end past byte {MAX_FILE:,}")
        if end > self.size:
            self.fail("truncated", at, f"the file ends before the end of {what}")
        self.at = end
        return bytes(self.view[at:end])

    def number(self, length: int, what: str) -> int:
        return int.from_bytes(self.field(length, what), "big")

    def name(self, before: "str | None", fault: str, what: str) -> str:
        """Returns a name or a metadata key, which must be greater than the one before."""
        at = self.at
        length = self.number(1, f"the length of a {what}")
        if not 1 <= length <= forms.MAX_NAME:
            self.fail(fault, at, f"a {what} has {length} bytes, not 1 to 16")
        text = self.field(length, f"a {what}")
        if not forms.NAME_FORM.match(text):
            self.fail(fault, at + 1, f"the {what} {text!r} isn't a letter a to z and then a to z, 0 to 9 and _")
        if before is not None and text <= before.encode():
            self.fail(fault, at + 1, f"the {what} {text.decode()} isn't greater than {before}, the one before")
        return text.decode()

    def value(self, kind: Kind, what: str) -> "bool | int":
        at = self.at
        (value,) = struct.unpack(">" + kind.code, self.field(kind.size, what))
        if kind.word == "bool":
            if value > 1:
                self.fail("value", at, f"{what} is the byte {value}, not 0 or 1")
            return bool(value)
        return value

    def head(self) -> "tuple[int, int]":
        """Returns the version, and how many grids there are."""
        text = self.field(4, "the magic")
        if text != b"VDBS":
            self.fail("magic", 0, f"the file begins with {text!r}, not b'VDBS'")
        version = self.number(2, "the version")
        if version not in (1, 2):
            self.fail("version", 4, f"version {version}, not 1 or 2")
        grids = self.number(2, "the number of grids")
        if grids > forms.MAX_GRIDS:
            self.fail("name", 6, f"{grids} grids, more than {forms.MAX_GRIDS}")
        return version, grids

    def kind(self) -> Kind:
        at = self.at
        number = self.number(1, "the type")
        if number >= len(KIND_NUMBERS):
            self.fail("kind", at, f"type {number}, not 0 to 2")
        return KIND_NUMBERS[number]

    def limit(self) -> int:
        at = self.at
        limit = self.number(4, "the root limit")
        if not 1 <= limit <= forms.MAX_LIMIT:
            self.fail("limit", at, f"the root limit {limit} isn't from 1 to 65,536")
        return limit

    def pairs(self) -> "dict[str, str]":
        at = self.at
        count = self.number(1, "the number of metadata pairs")
        if count > forms.MAX_PAIRS:
            self.fail("meta", at, f"{count} metadata pairs, more than {forms.MAX_PAIRS}")
        pairs: "dict[str, str]" = {}
        key = None
        for _ in range(count):
            key = self.name(key, "meta", "metadata key")
            pairs[key] = self.text(key)
        return pairs

    def text(self, key: str) -> str:
        at = self.at
        length = self.number(1, f"the length of the text of {key}")
        if not 1 <= length <= forms.MAX_TEXT:
            self.fail("meta", at, f"the text of {key} has {length} bytes, not 1 to 64")
        text = self.field(length, f"the text of {key}")
        if not forms.TEXT_FORM.match(text):
            self.fail("meta", at + 1, f"the text of {key} has a space or an unprintable byte: {text!r}")
        return text.decode()

    def tree(self, kind: Kind, background: "bool | int", limit: int) -> Tree:
        """Reads the root blocks of a grid."""
        at = self.at
        roots = self.number(4, "the number of root blocks")
        if roots > limit:
            self.fail("root-limit", at, f"{roots:,} root blocks, and the limit is {limit:,}")
        walk = Walk(self, kind, background)
        try:
            for place in range(roots):
                walk.root_block(place)
        except FormatError:
            walk.leaves()  # an earlier voxel may be faulty
            raise
        return Tree(kind, background, walk.keys(), walk.leaves(), walk.tiles())

    def finish(self) -> None:
        if self.at < self.size:
            self.fail("trailing", self.at, "a byte after the last field")


class Walk:
    """Walks over the nodes of one grid, and notes where its leaves and tiles are."""

    def __init__(self, reader: Reader, kind: Kind, background: "bool | int") -> None:
        self.reader, self.kind, self.background = reader, kind, background
        self.unpack_value = struct.Struct(">" + kind.code).unpack_from
        self.roots: "list[tuple[int, int, int]]" = []
        # per level, leaf extents first: the codes, values and states of tiles. A list would take four times the memory of an array.
        self.noted = [(array("q"), array(kind.code), array("B")) for _ in range(3)]
        # per leaf: its code, the place of its first voxel in the file, how many voxels it lists
        self.leaf_codes, self.leaf_places, self.leaf_counts = array("q"), array("q"), array("q")

    def root_block(self, place: int) -> None:
        """Reads the key and the body of a root block."""
        reader, at = self.reader, self.reader.at
        x, y, z = struct.unpack(">iii", reader.field(12, "the key of a root block"))
        key = x, y, z
        if not all(-KEY_SPAN <= part < KEY_SPAN for part in key):
            reader.fail("key", at, f"the key {key} has a part outside {-KEY_SPAN:,} to {KEY_SPAN - 1:,}")
        if self.roots and key <= self.roots[-1]:
            reader.fail("key", at, f"the key {key} isn't greater than {self.roots[-1]}, the one before")
        self.roots.append(key)
        at = reader.at
        if reader.data[at] == 3 and at < reader.end:
            reader.at = self.node(at + 1, UPPER, place << 15)
        else:
            self.exact_body(UPPER)
            codes, values, states = self.noted[2]
            codes.append(place)
            values.append(self.unpack_value(reader.data, at + 1)[0])
            states.append(reader.data[at] == 2)

    def node(self, at: int, depth: int, base: int) -> int:
        """Reads an upper or lower node whose number of entries is at byte `at`. Returns where its body ends.

        `base` is the code of the node's first entry.
        """
        data, end, most, head = self.reader.data, self.reader.end, ENTRIES[depth], HEAD.unpack_from
        codes, values, states = self.noted[1 - depth]
        unpack_value, size = self.unpack_value, 2 + 1 + self.kind.size  # of a voxel, and of a tile
        hidden, greatest = self.background, 1 if self.kind.word == "bool" else np.iinfo(self.kind.dtype).max
        count, others = self.count(at, depth), len(codes)
        first = at = at + 2
        before = -1
        for _ in range(count):
            index, tag, inner = head(data, at)
            previous, before = before, index
            if previous < index < most:
                if tag == 3:
                    if depth == UPPER:
                        if at + 5 <= end:
                            at = self.node(at + 3, LOWER, (base + index) << 12)
                            continue
                    elif 0 < inner <= 512:
                        after = at + 5 + inner * size
                        if after <= end:
                            self.leaf_codes.append(base + index)
                            self.leaf_places.append(at + 5)
                            self.leaf_counts.append(inner)
                            at = after
                            continue
                elif 0 < tag < 3 and at + size <= end:
                    (value,) = unpack_value(data, at + 3)
                    if value <= greatest and (tag == 2 or value != hidden):
                        codes.append(base + index)
                        values.append(value)
                        states.append(tag == 2)
                        at += size
                        continue
            self.reader.at = at
            self.exact_entry(depth, previous)
            raise AssertionError("two readings of an entry differ")
        if len(codes) - others == most:
            rows = np.frombuffer(data, np.uint8, most * size, first).reshape(most, size)[:, 2:]
            if (rows == rows[0]).all():
                self.refuse_constant(first - 3, depth)
        return at

    def count(self, at: int, depth: int) -> int:
        """Returns how many entries a block lists, which is at byte `at`."""
        self.reader.at = at
        count = self.reader.number(2, "the number of entries")
        if not 1 <= count <= ENTRIES[depth]:
            self.reader.fail("index", at, f"a {BLOCKS[depth]} lists {count} entries, not 1 to {ENTRIES[depth]:,}")
        return count

    def refuse_constant(self, at: int, depth: int) -> NoReturn:
        self.reader.fail("constant-node", at, f"a {BLOCKS[depth]} is given by its entries, though all its voxels are equal")

    def exact_entry(self, depth: int, before: int) -> int:
        """Reads an entry of a block field by field. Returns its number."""
        reader, at = self.reader, self.reader.at
        index = reader.number(2, "the number of an entry")
        if index >= ENTRIES[depth]:
            reader.fail("index", at, f"entry {index:,} of a {BLOCKS[depth]}, which has {ENTRIES[depth]:,}")
        if index <= before:
            reader.fail("index", at, f"entry {index:,} of a {BLOCKS[depth]} comes after entry {before:,}")
        self.exact_body(depth + 1)
        return index

    def exact_body(self, depth: int) -> None:
        """Reads the body of a block or voxel field by field."""
        reader, at = self.reader, self.reader.at
        tag = reader.number(1, f"the tag of a {BLOCKS[depth]}")
        if not 1 <= tag <= (3 if depth <= LEAF else 2):
            reader.fail("tag", at, f"the body of a {BLOCKS[depth]} begins with the byte {tag}")
        if tag == 3:
            self.exact_entries(depth)
        elif reader.value(self.kind, "a value") == self.background and tag == 1:
            reader.fail("background", at, f"a {BLOCKS[depth]} is the inactive background, which is left out")

    def exact_entries(self, depth: int) -> None:
        reader, at, before, bodies = self.reader, self.reader.at, -1, set()
        count = self.count(at, depth)
        for _ in range(count):
            first = reader.at + 2
            before = self.exact_entry(depth, before)
            bodies.add(bytes(reader.view[first : reader.at]))
        if count == ENTRIES[depth] and len(bodies) == 1 and bodies.pop()[0] != 3:
            self.refuse_constant(at - 1, depth)

    def keys(self) -> np.ndarray:
        return np.array(self.roots, np.int64).reshape(-1, 3)

    def tiles(self) -> "tuple[Tiles, Tiles, Tiles]":
        """Returns the tiles of the three levels."""
        dtype = self.kind.dtype
        made = [Tiles(np.array(c, np.int64), np.array(v, dtype), np.array(s, np.bool_)) for c, v, s in self.noted]
        return made[0], made[1], made[2]

    def leaves(self) -> Leaves:
        """Reads the voxels of all leaves. Raises the fault of the first faulty one."""
        starts = np.zeros(len(self.leaf_counts) + 1, np.int64)
        np.cumsum(self.leaf_counts, out=starts[1:])
        total = int(starts[-1])
        index, active = np.empty(total, np.uint16), np.empty(total, np.bool_)
        values = np.empty(total, self.kind.dtype)
        for first, last in chunks(starts):
            voxels = slice(starts[first], starts[last])
            chunk = index[voxels], active[voxels], values[voxels]
            suspect = self.chunk(first, last, starts[first : last + 1] - starts[first], *chunk)
            if suspect is not None:
                self.reader.at = self.leaf_places[first + suspect] - 3
                self.exact_body(LEAF)
                raise AssertionError("two readings of a leaf differ")
            if self.reader.progress:
                self.reader.progress(self.leaf_places[last - 1], self.reader.size)
        return Leaves(np.array(self.leaf_codes, np.int64), starts, index, active, values)

    def chunk(self, first: int, last: int, starts: np.ndarray, index, active, values) -> "int | None":
        """Reads the voxels of leaves into these arrays. Returns the first leaf, counted from `first`, with a fault."""
        view, size = self.reader.view, self.kind.voxel.itemsize
        places, counts = self.leaf_places[first:last], self.leaf_counts[first:last]
        packed = b"".join([view[at : at + count * size] for at, count in zip(places, counts)])
        record = np.frombuffer(packed, self.kind.voxel)
        index[:] = record["index"]
        tag = np.ascontiguousarray(record["tag"])
        np.equal(tag, 2, out=active)
        value = record["value"]
        if self.kind.word == "bool":
            values[:] = value.view(np.uint8)
        else:
            values[:] = value
        falls = np.empty(len(index), np.bool_)
        falls[0] = False
        np.less_equal(index[1:], index[:-1], out=falls[1:])
        falls[starts[:-1]] = False
        wrong = [
            falls,
            index >= ENTRIES[LEAF],
            (tag - np.uint8(1)) > 1,
            ~active & (values == self.background),
        ]
        if self.kind.word == "bool":
            wrong.append(value > 1)
        suspects = [int(np.searchsorted(starts, test.argmax(), "right")) - 1 for test in wrong if test.any()]
        constant = self.constant(starts, active, values)
        suspects += [] if constant is None else [constant]
        return min(suspects, default=None)

    @staticmethod
    def constant(starts: np.ndarray, active: np.ndarray, values: np.ndarray) -> "int | None":
        """Returns the first leaf of 512 equal voxels, if there is one."""
        full = np.flatnonzero(np.diff(starts) == ENTRIES[LEAF])
        firsts = starts[full]
        for probe in (511, 256):
            same = (values[firsts] == values[firsts + probe]) & (active[firsts] == active[firsts + probe])
            full, firsts = full[same], firsts[same]
        for leaf, first in zip(full.tolist(), firsts.tolist()):
            part = slice(first, first + ENTRIES[LEAF])
            if (values[part] == values[first]).all() and (active[part] == active[first]).all():
                return leaf
        return None
