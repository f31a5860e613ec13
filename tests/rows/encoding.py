# SPDX-License-Identifier: Apache-2.0
"""Reads and writes scene files by docs/FORMAT.md, independent of the program: what `load` must report for given bytes, and
the one encoding of a scene.

A scene is a list of grids by rising names. A body is a pair (tag, value) if all its cells are equal, with tag 1 (inactive)
or 2 (active); otherwise it is a list of pairs (entry's number, body). A root block is a pair (key, body)."""
from dataclasses import dataclass, field

SIZES = {0: 1, 1: 4, 2: 8}
ENTRIES = [32_768, 4_096, 512]
LIMIT = 268_435_456
FIRST = b"abcdefghijklmnopqrstuvwxyz"
LATER = FIRST + b"0123456789_"


class Fault(Exception):
    """A fault of a file, by its word."""


@dataclass
class Grid:
    name: bytes
    kind: int
    background: int
    limit: int = 4096
    pairs: list = field(default_factory=list)
    roots: list = field(default_factory=list)


class Reader:
    """Reads fields from a file's bytes, one after another."""

    def __init__(self, text):
        self.text, self.at = text, 0

    def read(self, size):
        if self.at + size > LIMIT:
            raise Fault("too-long")
        if self.at + size > len(self.text):
            raise Fault("truncated")
        self.at += size
        return self.text[self.at - size : self.at]

    def number(self, size, signed=False):
        return int.from_bytes(self.read(size), "big", signed=signed)


def need(holds, word):
    """Raises this fault unless the condition holds."""
    if not holds:
        raise Fault(word)


def is_name(text):
    return 1 <= len(text) <= 16 and text[0] in FIRST and all(byte in LATER for byte in text)


def read_value(reader, kind):
    if kind == 0:
        value = reader.number(1)
        need(value <= 1, "value")
        return value
    return reader.number(SIZES[kind], signed=True)


def read_body(reader, kind, background, depth):
    """Reads the body of a root block (depth 0), a lower extent, a leaf extent or a voxel (depth 3)."""
    tag = reader.number(1)
    need(1 <= tag <= (3 if depth < 3 else 2), "tag")
    if tag == 3:
        return read_entries(reader, kind, background, depth)
    value = read_value(reader, kind)
    need(tag == 2 or value != background, "background")
    return tag, value


def read_entries(reader, kind, background, depth):
    count = reader.number(2)
    need(1 <= count <= ENTRIES[depth], "index")
    entries, before = [], -1
    for _ in range(count):
        index = reader.number(2)
        need(before < index < ENTRIES[depth], "index")
        entries.append((index, read_body(reader, kind, background, depth + 1)))
        before = index
    first = entries[0][1]
    constant = count == ENTRIES[depth] and isinstance(first, tuple) and all(body == first for _, body in entries)
    need(not constant, "constant-node")
    return entries


def read_name(reader, before, fault):
    length = reader.number(1)
    need(1 <= length <= 16, fault)
    name = reader.read(length)
    need(is_name(name) and (before is None or before < name), fault)
    return name


def read_pairs(reader):
    count = reader.number(1)
    need(count <= 16, "meta")
    pairs = []
    for _ in range(count):
        key = read_name(reader, pairs[-1][0] if pairs else None, "meta")
        length = reader.number(1)
        need(1 <= length <= 64, "meta")
        text = reader.read(length)
        need(all(0x21 <= byte <= 0x7E for byte in text), "meta")
        pairs.append((key, text))
    return pairs


def read_key(reader, before):
    text = reader.read(12)
    key = tuple(int.from_bytes(text[at : at + 4], "big", signed=True) for at in (0, 4, 8))
    need(all(-524_288 <= part <= 524_287 for part in key) and (before is None or before < key), "key")
    return key


def read_grid(reader, version, before):
    name = read_name(reader, before, "name")
    kind = reader.number(1)
    need(kind <= 2, "kind")
    grid = Grid(name, kind, read_value(reader, kind))
    if version == 2:
        grid.limit = reader.number(4)
        need(1 <= grid.limit <= 65_536, "limit")
        grid.pairs = read_pairs(reader)
    roots = reader.number(4)
    need(roots <= grid.limit, "root-limit")
    for _ in range(roots):
        key = read_key(reader, grid.roots[-1][0] if grid.roots else None)
        grid.roots.append((key, read_body(reader, kind, grid.background, 0)))
    return grid


def load(text):
    """Returns the scene that these bytes encode, in either version. Raises the first fault."""
    reader = Reader(text)
    need(reader.read(4) == b"VDBS", "magic")
    version = reader.number(2)
    need(version in (1, 2), "version")
    count = reader.number(2)
    need(count <= 64, "name")
    grids = []
    for _ in range(count):
        grids.append(read_grid(reader, version, grids[-1].name if grids else None))
    need(reader.at == len(text), "trailing")
    return grids


def value_bytes(kind, value):
    return value.to_bytes(SIZES[kind], "big", signed=kind > 0)


def body_bytes(kind, body):
    if isinstance(body, tuple):
        return bytes([body[0]]) + value_bytes(kind, body[1])
    inner = b"".join(index.to_bytes(2, "big") + body_bytes(kind, entry) for index, entry in body)
    return b"\x03" + len(body).to_bytes(2, "big") + inner


def grid_bytes(grid, version):
    parts = [bytes([len(grid.name)]), grid.name, bytes([grid.kind]), value_bytes(grid.kind, grid.background)]
    if version == 2:
        parts += [grid.limit.to_bytes(4, "big"), bytes([len(grid.pairs)])]
        parts += [bytes([len(part)]) + part for pair in grid.pairs for part in pair]
    parts.append(len(grid.roots).to_bytes(4, "big"))
    for key, body in grid.roots:
        parts += [part.to_bytes(4, "big", signed=True) for part in key]
        parts.append(body_bytes(grid.kind, body))
    return b"".join(parts)


def save(grids, version=2):
    """Returns the encoding of a scene."""
    head = b"VDBS" + version.to_bytes(2, "big") + len(grids).to_bytes(2, "big")
    return head + b"".join(grid_bytes(grid, version) for grid in grids)


def verdict(text):
    """Returns what loading these bytes and saving the scene must give: the word of a fault, or the saved bytes."""
    try:
        return save(load(text))
    except Fault as fault:
        return str(fault)
