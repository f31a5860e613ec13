# SPDX-License-Identifier: Apache-2.0
"""Files of docs/FORMAT.md, good and bad, and files a byte away from them, against the independent reader."""
import re
import tracemalloc
import unittest
from unittest import mock

from .support import TOP, cell, encoding, np, scenefile, verdict, vdb

import vectors
from vdb.scenefile import reader, scene

DOCUMENT = (TOP / "docs" / "FORMAT.md").read_text(encoding="utf-8")
HEX = r"[0-9a-f]{2}(?: [0-9a-f]{2})*"


def table(header, number=0):
    """The rows, as lists of cells, of a table of the document that has this header; the first such table, or the one of that number."""
    lines = DOCUMENT.splitlines()
    first = [at for at, line in enumerate(lines) if line == header][number]
    rows = []
    for line in lines[first + 2 :]:
        if not line.startswith("|"):
            break
        rows.append([cell.strip() for cell in line.strip("|").split("|")])
    return rows


def bytes_of(rows):
    return b"".join(bytes.fromhex(cells[1].strip("`")) for cells in rows)


FILE = bytes_of(table("| Offset | Bytes | Field |"))


def changes():
    """The changes of that file that the document gives by a place and bytes, each with its fault."""
    for change, fault in table("| Change | Fault |"):
        if fault == "constant-node":
            continue
        at = None
        for piece in re.findall(rf"\bbytes? (\d+)|`({HEX})`", change):
            if piece[0]:
                at = int(piece[0])
            else:
                yield fault, FILE[:at] + bytes.fromhex(piece[1]) + FILE[at + len(piece[1].split()) :]


def small_scene():
    """A file of 3 grids with tiles of all levels, leaves of several voxels, and metadata."""
    voxels = [(index, (1 + index % 2, index - 3)) for index in (0, 7, 8, 300, 511)]
    lower = [(0, (2, 5)), (5, voxels), (6, (1, -1)), (4095, voxels[:1])]
    roots = [((-524288, 0, 0), (2, -9)), ((0, 0, -1), [(0, (1, 4)), (9, lower), (32767, (2, 0))]), ((0, 0, 0), (1, 7))]
    mask = [((0, 0, 0), [(3, [(2, [(1, (2, 1)), (2, (1, 1)), (3, (2, 0))]), (3, (1, 1))])])]
    return encoding.save(
        [
            encoding.Grid(b"a", 1, 0, 3, [(b"by", b"me"), (b"unit", b"mm")], roots),
            encoding.Grid(b"a0", 2, 2**40, 65536, [], roots[:2]),
            encoding.Grid(b"m", 0, 0, 1, [], mask),
        ]
    )


def same(test, data, what):
    """Compares what the package makes of a file with the independent reader's verdict."""
    test.assertEqual(verdict(data), encoding.verdict(data), what)


class Document(unittest.TestCase):
    def test_file(self):
        self.assertEqual(len(FILE), 64)
        self.assertEqual(scenefile.loads(FILE).to_bytes(), FILE)
        grid = scenefile.loads(FILE)["a"]
        self.assertEqual((grid.kind, grid.background, grid.limit, dict(grid.metadata)), ("i32", 0, 4096, {"unit": "mm"}))
        self.assertEqual((cell(grid, (1, 2, 3)), cell(grid, (1, 2, 4)), grid.count), ((5, True), (0, False), 1))

    def test_constant_lower_block(self):
        data = FILE[:19] + b"\0" + FILE[28:44] + bytes_of(table("| Offset | Bytes | Field |", 1))
        self.assertEqual(len(data), 46)
        grid = scenefile.loads(data)["a"]
        self.assertEqual((grid.count, grid.bounds, grid.leaf_count), (128**3, ((0, 0, 0), (127, 127, 127)), 0))
        values = np.full((128, 128, 128), 3, np.int32)
        self.assertEqual(scenefile.Scene({"a": scenefile.Grid.from_array(values)}).to_bytes(), data)

    def test_words(self):
        words = {row[0] for row in table("| Word | Reason |")}
        self.assertEqual(words, set(vdb.FAULTS) | {"memory", "read"})

    def test_changes(self):
        found = list(changes())
        self.assertGreaterEqual(len(found), 18)
        for fault, data in found:
            self.assertEqual(verdict(data), fault)

    def test_constant_leaf(self):
        voxels = b"".join(index.to_bytes(2, "big") + b"\x02\0\0\0\x05" for index in range(512))
        self.assertEqual(verdict(FILE[:55] + b"\x02\0" + voxels), "constant-node")

    def test_ends(self):
        for length in range(len(FILE)):
            self.assertEqual(verdict(FILE[:length]), "truncated", length)
        self.assertEqual(verdict(FILE + b"\0"), "trailing")


class Vectors(unittest.TestCase):
    def test_most_pairs(self):
        """A grid with 16 metadata pairs, each as long as it may be."""
        pairs = [(b"a_key_of_sixteen"[:14] + b"%02d" % number, b"~" * 64) for number in range(16)]
        data = encoding.save([encoding.Grid(b"a", 1, 0, pairs=pairs)])
        self.assertEqual((encoding.verdict(data), verdict(data)), (data, data))

    def test_made(self):
        for name, (data, _) in vectors.MADE.items():
            self.assertEqual(verdict(data), data, name)

    def test_older(self):
        for name, (old, new) in vectors.OLDER.items():
            self.assertEqual(verdict(old), new, name)

    def test_larger(self):
        for name, data in vectors.LARGER.items():
            same(self, data, name)

    def test_refused(self):
        for what, word, data in vectors.REJECTED:
            with self.assertRaises(vdb.FAULTS[word], msg=what) as caught:
                scenefile.loads(data)
            self.assertEqual((caught.exception.fault, caught.exception.path), (word, None), what)
            self.assertLessEqual(caught.exception.offset, len(data), what)

    def test_message(self):
        with self.assertRaises(vdb.IndexFault) as caught:
            scenefile.loads(FILE[:57] + b"\x02\0" + FILE[59:])
        self.assertEqual(str(caught.exception), "<bytes>: byte 57: index: entry 512 of a leaf extent, which has 512")


class Changed(unittest.TestCase):
    """Every prefix, and files with a byte changed: the same fault, or the same bytes."""

    def test_prefixes(self):
        for data in (small_scene(), vectors.LARGER["roots"], *vectors.CUT.values()):
            same(self, data, "whole")
            for length in range(len(data)):
                same(self, data[:length], length)
            same(self, data + b"\0", "one more")

    def test_document(self):
        for at in range(len(FILE)):
            for value in range(at % 3, 256, 3):
                same(self, vectors.changed(FILE, at, value), (at, value))

    def test_bytes(self):
        data = small_scene()
        for at in range(len(data)):
            for value in {0, 1, 2, 3, 0xFF, data[at] ^ 1, data[at] + 1 & 0xFF, data[at] - 1 & 0xFF}:
                same(self, vectors.changed(data, at, value), (at, value))

    def test_full_leaf(self):
        data = vectors.LARGER["tiles"]
        for at in range(0, len(data), 41):
            for value in (0, 1, 3, data[at] ^ 1):
                same(self, vectors.changed(data, at, value), (at, value))

    def test_two_faults(self):
        """The first fault counts, also if a later one ends the walk over the nodes."""
        data = small_scene()
        end = len(data) - 60
        for at in range(8, end, 3):
            same(self, vectors.changed(vectors.changed(data, end, 0xFF, 0xFF), at, 0xFF), at)
            same(self, vectors.changed(data, at, 0)[: end + at % 50], at)


def constant(count, block):
    return [(index, block) for index in range(count)]


class Constant(unittest.TestCase):
    """Blocks that are given by their entries, though all their voxels are equal, or but for one."""

    def check(self, block, kind=1):
        same(self, encoding.save([encoding.Grid(b"a", kind, 0, 4096, [], [((0, 0, 0), block)])]), "constant")

    def test_leaf(self):
        for kind, cell in ((0, (2, 1)), (1, (1, -1)), (2, (2, 0))):
            for place in (0, 1, 255, 256, 511):
                leaf = constant(512, cell)
                self.check([(0, [(5, leaf)])], kind)
                leaf[place] = place, (3 - cell[0], 1)
                self.check([(0, [(5, leaf)])], kind)

    def test_lower(self):
        lower = constant(4096, (2, 7))
        self.check([(0, lower)])
        self.check([(0, [(5, constant(512, (2, 7))), *lower[6:]])])
        for place in (0, 1000, 4095):
            other = list(lower)
            other[place] = place, (2, 8)
            self.check([(0, other)])
            other[place] = place, [(3, (2, 7))]
            self.check([(0, other)])

    def test_upper(self):
        upper = constant(32768, (1, 7))
        self.check(upper)
        self.check([*upper[:-1], (32767, (2, 7))])
        self.check([*upper[:-1], (32767, [(0, (2, 7))])])


class Memory(unittest.TestCase):
    def test_most(self):
        """A file of tiles of four bytes, whose grid takes the most memory for a byte."""
        tiles = [(index, (2, index % 2)) for index in range(4096)]
        data = encoding.save([encoding.Grid(b"m", 0, 0, 1, [], [((0, 0, 0), [(index, tiles) for index in range(12)])])])
        tracemalloc.start()
        found = scenefile.loads(data)
        peak = tracemalloc.get_traced_memory()[1]
        tracemalloc.stop()
        self.assertLess(peak, 10 * len(data))
        self.assertEqual(found.to_bytes(), data)


class TooLong(unittest.TestCase):
    """The limit of a file, made small in both readers."""

    def test_limit(self):
        for data in (FILE, small_scene()):
            for limit in range(len(data) + 3):
                with mock.patch.object(reader, "MAX_FILE", limit), mock.patch.object(encoding, "LIMIT", limit):
                    for length in {len(data), min(len(data), limit + 1), limit, max(0, limit - 1)}:
                        given = data[:length]
                        wanted = encoding.verdict(given)
                        self.assertEqual(verdict(given), wanted, (limit, length))

    def test_save(self):
        grid = scenefile.loads(FILE)
        with mock.patch.object(scene, "MAX_FILE", 64):
            self.assertEqual(grid.to_bytes(), FILE)
        with mock.patch.object(scene, "MAX_FILE", 63), self.assertRaises(vdb.SceneTooLongError) as caught:
            grid.to_bytes()
        self.assertEqual((caught.exception.length, caught.exception.most), (64, 63))


if __name__ == "__main__":
    unittest.main()
