# SPDX-License-Identifier: Apache-2.0
"""Makes scripts and scene files from those of the corpus, by chance.

The corpus is the rows of tests/fuzz/corpus.rows and of tests/rows. Scripts are mutated by lines and tokens, and get lines of the grammar of
random_scripts.py. Scene files are mutated by fields and nodes, so that most break one rule of docs/FORMAT.md or none, and by bytes."""
import re
from copy import deepcopy

from language import KINDS, NUMBER, TOP, TWO, encoding
from random_scripts import EDGES, FAR, Script

import rows
import vectors

CORPUS = TOP / "tests/fuzz/corpus.rows"
ALIKE = [
    TWO, KINDS, ["set", "unset", "only"], ["dilate", "erode"], ["clip", "voxelise", "count"],
    ["drop", "prune", "bounds", "census", "metas"],
    ["on", "off"], ["true", "false"], ["-", "0", "1", "7", "8"],
]  # fmt: skip
BOUNDS = [*FAR, 2**63 - 1, -(2**63), 2**63, 16, 17, 64, 65, 4096, 65537]
NOISE = [b"", b" ", b"\t", b"\r", b"#", b"-", b"0", b"+", b"\0", b"\x0b", b"\xff", b"A", b"_", b"x" * 250, b"99999999999999999999"]
LONGEST = 60  # lines of a script


def corpus():
    """Returns the rows of the corpus and of tests/rows, without those of a script that isn't read to its end, and those whose scene
    is too long for a file: each driver saves."""
    every = [row for file in [CORPUS, *rows.DATA] for row in rows.read(file)]
    return [row for row in every if (row.load is not None or not row.stderr) and not row.name.startswith("a scene too long")]


def lines_of(row):
    return row.script.split(b"\n")[:-1] if row.script.endswith(b"\n") else row.script.split(b"\n")


def number_near(chance, number):
    """Returns a number at an edge of something, or near another one."""
    near = [number - 1, number + 1, -number, number + 8, number - 8, number * 2]
    return chance.choice([*near, chance.choice(EDGES), chance.choice(EDGES), chance.choice(BOUNDS)])


def token_changed(chance, words, names):
    """Returns the tokens of a line with one of them changed."""
    at = chance.randrange(len(words))
    word = words[at]
    alike = [it for group in ALIKE for it in group if word in group]
    if re.fullmatch(NUMBER, word) and (at > 2 or not alike):
        word = str(number_near(chance, int(word)))
    elif alike:
        word = chance.choice(alike)
    elif at and names:
        word = chance.choice(names)
    return [*words[:at], word, *words[at + 1 :]]


def named(chance, lines):
    """Returns lines of which most that name no grid, or create one that is there, have another name."""
    known, made = set(), []
    for line in lines:
        words = line.split(b" ")
        creates = {b"grid": 1, b"copy": 2}.get(words[0])
        for at in (1, 2) if words[0].decode("latin-1") in [*TWO, "copy"] else (1,):
            wrong = len(words) > at and (words[at] in known if at == creates else words[at] not in known)
            others = sorted({b"a", b"b", b"c", b"d", b"e"} - known if at == creates else known)
            if wrong and others and re.match(rb"[a-z]", words[0]) and chance.random() < 0.8:
                words[at] = chance.choice(others)
        if creates and len(words) > creates:
            known.add(words[creates])
        if words[0] == b"drop" and len(words) > 1:
            known.discard(words[1])
        made.append(b" ".join(words))
    return made


def is_fruitful(row):
    """Returns whether few lines of a row fail before they reach a grid."""
    lost = [answer.text for answer in row.answers if answer.text in ("error syntax", "error no-grid")]
    return 3 * len(lost) <= len(row.answers)


class Scripts:
    """Makes scripts from those of some rows."""

    def __init__(self, all_rows):
        self.pool = [lines_of(row) for row in all_rows if row.load is None and 2 <= len(lines_of(row)) <= 2 * LONGEST and is_fruitful(row)]

    def make(self, chance):
        """Returns the lines of a script: one of the grammar alone in three, a mutated one else."""
        maker = Script(chance)
        if chance.random() < 0.33:
            return [line.encode() for line in maker.lines(chance.randint(5, 40))]
        lines = list(chance.choice(self.pool))
        for _ in range(chance.choice([1, 2, 3, 5, 8, 13])):
            lines = self.mutated(chance, lines, maker) or lines
        return named(chance, lines[:LONGEST])

    def mutated(self, chance, lines, maker):
        at, way = chance.randrange(len(lines)), chance.random()
        names = [words[1].decode("latin-1") for words in map(bytes.split, lines) if len(words) > 2 and words[0] in (b"grid", b"copy")]
        for line in lines:
            words = line.decode("latin-1").split()
            if len(words) > 3 and words[0] == "grid" and words[2] in KINDS:
                maker.types[words[1]] = words[2]
        if way < 0.1:
            return lines[:at] + lines[at + chance.choice([1, 1, 1, 3]) :]
        if way < 0.2:
            return lines[:at] + [chance.choice(lines)] + lines[at:]
        if way < 0.3:
            other = chance.choice(self.pool)
            first = chance.randrange(len(other))
            return lines[:at] + other[first : first + chance.randint(1, 12)] + lines[at:]
        if way < 0.55:
            return lines[:at] + [maker.line().encode() for _ in range(chance.choice([1, 1, 2, 4]))] + lines[at:]
        if way < 0.97 or not lines[at]:
            words = lines[at].decode("latin-1").split()
            changed = " ".join(token_changed(chance, words, names)) if words else "get a - 0 0 0"
            return lines[:at] + [changed.encode("latin-1")] + lines[at + chance.choice([0, 1, 1]) :]
        place = chance.randrange(len(lines[at]) + 1)
        changed = lines[at][:place] + chance.choice(NOISE) + lines[at][place + chance.choice([0, 0, 1]) :]
        return lines[:at] + [changed.replace(b"\n", b"")] + lines[at + 1 :]


def bytes_changed(chance, text):
    """Returns a file with a few bytes inserted, removed, replaced or repeated."""
    for _ in range(chance.choice([1, 1, 1, 2, 4])):
        at, size = chance.randint(0, len(text)), chance.choice([1, 1, 2, 4, 12])
        few = bytes(chance.choice([0, 1, 2, 3, 255, chance.randrange(256)]) for _ in range(size))
        others = [text[:at] + few + text[at:], text[:at] + text[at + size :], text[:at]]
        others += [text[:at] + few + text[at + size :], text[:at] + text[max(at - size, 0) : at] + text[at:]]
        text = chance.choice([*others, others[3], others[3]])
    return text


def nodes_of(grid):
    """Returns the lists of entries of a grid, the list of its root blocks among them."""
    found = [grid.roots]
    for entries in found:
        found += [body for _, body in entries if isinstance(body, list)]
    return found


def body_near(chance, kind, depth):
    """Returns the body of a node or a voxel, which may be wrong."""
    value = chance.choice([0, 1, 5, 2**31 - 1, 2 ** (8 * encoding.SIZES[kind] - 1) - 1 if kind else 1])
    body = (chance.choice([1, 1, 2, 2, 0, 4]), value)
    return [(chance.choice([0, 1, 511, 4095]), body)] if depth < 3 and chance.random() < 0.3 else body


def entries_changed(chance, grid, entries):
    """Changes one entry of a list of entries: its number, its body, its place, or whether it is there."""
    at, way = chance.randrange(len(entries)), chance.random()
    key, body = entries[at]
    if way < 0.25:
        entries[at] = (key, body_near(chance, grid.kind, 0))
    elif way < 0.5:
        if isinstance(key, tuple):
            axis = chance.randrange(3)
            part = chance.choice([key[axis] + 1, key[axis] - 1, -524_288, 524_287, 524_288])
            key = (*key[:axis], part, *key[axis + 1 :])
        else:
            key = chance.choice([key + 1, max(key - 1, 0), 0, 511, 512, 4095, 4096, 32_767, 32_768])
        entries[at] = (key, body)
    elif way < 0.65:
        entries.pop(at)
    elif way < 0.8:
        entries.insert(at, deepcopy(chance.choice(entries)))
    else:
        chance.shuffle(entries)


def scene_changed(chance, grids):
    """Changes one field or node of a scene's grids."""
    grid, way = chance.choice(grids), chance.random()
    if way < 0.6:
        lists = [it for it in nodes_of(grid) if it]
        if lists:
            entries_changed(chance, grid, chance.choice(lists))
    elif way < 0.65:
        grid.name = chance.choice([b"", b"a", b"A", b"a" * 17, grid.name + b"_", b"z"])
    elif way < 0.7:
        grid.background = chance.choice([0, 1, grid.background])
    elif way < 0.75:
        grid.limit = chance.choice([0, 1, len(grid.roots), 4096, 65_536, 65_537])
    elif way < 0.85:
        pair = chance.choice([b"unit", b"by", b"Z", b""]), chance.choice([b"mm", b"", b"a b", b"~" * 65])
        grid.pairs = chance.choice([grid.pairs + [pair], grid.pairs[1:], grid.pairs[::-1]])
    elif way < 0.95:
        grids.append(deepcopy(grid))
    else:
        grids.sort(key=lambda grid: grid.name)


class Files:
    """Makes scene files from those that some rows load or save."""

    def __init__(self, all_rows):
        constant = vectors.ACTIVE_1[:41] + vectors.EQUAL_VOXELS
        texts = {text for row in all_rows for text in (row.load, row.saved) if text and len(text) < 4000}
        self.pool = sorted({*texts, constant, *vectors.LARGER.values()})
        self.good = [text for text in self.pool if isinstance(encoding.verdict(text), bytes)]

    def make(self, chance):
        if chance.random() < 0.4:
            return bytes_changed(chance, chance.choice(self.pool))
        grids = [grid for _ in range(chance.choice([1, 1, 2])) for grid in encoding.load(chance.choice(self.good))]
        for _ in range(chance.choice([1, 1, 1, 2, 3]) if grids else 0):
            scene_changed(chance, grids)
        try:
            text = encoding.save(grids, chance.choice([1, 2, 2]))
        except (OverflowError, ValueError):
            return b"VDBS"  # a field can't hold its number
        return bytes_changed(chance, text) if chance.random() < 0.1 else text
