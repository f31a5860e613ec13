# SPDX-License-Identifier: Apache-2.0
"""Bad scene files: vdbs2vdb reports the fault and the byte that encoding.py finds; a good one is returned as its canonical bytes."""
import random

import encoding
import vectors


class Told(encoding.Reader):
    """A reader of fields that keeps where the last one began."""

    last = None

    def __init__(self, text):
        super().__init__(text)
        self.field, Told.last = 0, self

    def read(self, size):
        self.field = self.at
        return super().read(size)


encoding.Reader = Told


def wanted_of(text):
    """The canonical bytes; or the word of the fault and the byte of its field, None for a node that is constant."""
    verdict = encoding.verdict(text)
    if not isinstance(verdict, str):
        return verdict
    if verdict == "constant-node":
        return verdict, None
    return verdict, Told.last.at if verdict == "trailing" else Told.last.field


def changed(chance, text):
    """A file with some bytes set, put in, left out or repeated."""
    for _ in range(chance.choice([1, 1, 2, 4])):
        at, size = chance.randint(0, len(text)), chance.choice([1, 1, 2, 4, 12])
        few = bytes(chance.choice([0, 1, 2, 3, 255, chance.randrange(256)]) for _ in range(size))
        set_in, repeated = text[:at] + few + text[at + size :], text[:at] + text[max(at - size, 0) : at] + text[at:]
        text = chance.choice([set_in, set_in, repeated, text[:at] + few + text[at:], text[:at] + text[at + size :]])
    return text


def check_text(place, what, text):
    """Converts these bytes, which may be a scene file, in a folder that has an old file under the name to write."""
    wanted = wanted_of(text)
    place.write("bad.vdbs", text)
    place.write("bad.vdb", b"old")
    if isinstance(wanted, bytes):
        place.is_converted("vdbs2vdb", "bad.vdbs", "bad.vdb", what=what)
        place.is_converted("vdb2vdbs", "bad.vdb", "back.vdbs", "--strict", what=what)
        place.equal(place.read("back.vdbs"), wanted, what)
        return
    status, answers, lines = place.convert("vdbs2vdb", "bad.vdbs", "bad.vdb")
    place.equal((status, answers, len(lines), place.read("bad.vdb")), (1, "", 1, b"old"), what)
    program, name, byte, word = [*"".join(lines[:1]).split(": "), "", "", ""][:4]
    place.equal((program, name, word), ("vdbs2vdb", "bad.vdbs", wanted[0]), what)
    place.check(wanted[1] is None or byte == f"byte {wanted[1]}", f"{what}: {lines}, not byte {wanted[1]}")


def check_vectors(place):
    """The files of docs/FORMAT.md, good and bad, in both versions."""
    for name, (text, _) in vectors.MADE.items():
        check_text(place, name, text)
    for name, (old, new) in vectors.OLDER.items():
        check_text(place, f"{name} of version 1", old)
        place.equal(place.read("back.vdbs"), new, f"{name} of version 1")
    for name, text in vectors.LARGER.items():
        check_text(place, name, text)
    for what, word, text in vectors.REJECTED:
        place.equal(wanted_of(text)[0], word, f"the fault of {what}")
        check_text(place, what, text)
    check_text(place, "a byte more", vectors.ACTIVE + b"x")
    full = vectors.with_root(2, b"r", [b"\x01\0\0\0\3"] * 4096)  # more than the reader's buffer holds
    check_text(place, "4,096 root blocks", full)
    check_text(place, "4,096 root blocks without a byte", full[:-1])


def check_bytes(place):
    """Each prefix of a file, and each byte of it changed."""
    text = vectors.WITH_UNIT
    for size in range(len(text)):
        check_text(place, f"the first {size} bytes", text[:size])
    for at in range(len(text)):
        for value in {0, 1, 2, 3, 8, 0x41, 0xFF, text[at] ^ 1} - {text[at]}:
            check_text(place, f"byte {at} as {value}", text[:at] + bytes([value]) + text[at + 1 :])


def check_constant(place):
    """The byte of a constant node is that of its first field."""
    place.write("bad.vdbs", vectors.ACTIVE_1[:41] + vectors.EQUAL_VOXELS)
    told = "vdbs2vdb: bad.vdbs: byte 41: constant-node: a block is given by its entries, though all its cells are equal"
    place.equal(place.convert("vdbs2vdb", "bad.vdbs", "bad.vdb"), (1, "", [told]), "a constant leaf")


def check_long(place):
    """A file at the limit of its length, and one that goes past it."""
    for more, wanted in ((0, (0, "", [])), (1, None)):
        place.write("bad.vdbs", b"".join(vectors.at_limit(more)))
        found = place.convert("vdbs2vdb", "bad.vdbs", "bad.vdb", "--compress", "none")
        if wanted is None:
            place.check(found[0] == 1 and ": too-long: " in found[2][0], f"a file of 268,435,457 bytes: {found}")
        else:
            place.equal(found, wanted, "a file of 268,435,456 bytes")
            place.is_converted("vdb2vdbs", "bad.vdb", "back.vdbs")
            place.check(place.read("back.vdbs") == place.read("bad.vdbs"), "a file of 268,435,456 bytes: other bytes")


def check_changes(place, seed, count):
    """Files that are changed at random."""
    chance = random.Random(seed)
    for number in range(count):
        check_text(place, f"change {number}", changed(chance, chance.choice([*vectors.CUT.values(), vectors.LARGER["tiles"][:400]])))


def check(place, seed, scenes):
    check_vectors(place)
    check_constant(place)
    check_bytes(place)
    check_long(place)
    check_changes(place, seed, 10 * scenes)
