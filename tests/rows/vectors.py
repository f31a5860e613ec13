# SPDX-License-Identifier: Apache-2.0
"""Scene files: those of the rows, with the scripts that make their scenes, and larger ones that are made here."""
import rows


def from_hex(text):
    return bytes.fromhex(text.replace(" ", ""))


def rows_of(subject):
    """Returns the rows of a file of rows by their names."""
    return {row.name: row for row in rows.read(rows.FOLDER / f"{subject}.rows")}


SCENES = rows_of("scene-files")
EMPTY_1, EMPTY = (SCENES["the empty scene, of version 1"].load, SCENES["the empty scene"].saved)
ACTIVE_1, ACTIVE = (SCENES["an active voxel, of version 1"].load, SCENES["an active voxel"].saved)
INACTIVE_1, BOOLEAN_1 = (SCENES[f"{what} voxel, of version 1"].load for what in ("an inactive", "a boolean"))
NEGATIVE_1 = SCENES["a voxel at negative coordinates, of version 1"].load
WITH_UNIT, TWO = (SCENES[name].saved for name in ("a voxel of a grid with a metadata pair", "two grids by their names"))

# each file that a script makes, with the script
MADE = {name: (row.saved, row.script) for name, row in SCENES.items() if row.load is None and row.saved}

# each file of version 1 with the file that is saved after it is loaded
OLDER = {name: (row.load, row.saved) for name, row in SCENES.items() if name.endswith("of version 1") and not row.script}

# a leaf whose 512 voxels are all 5 and active, written voxel by voxel
EQUAL_VOXELS = b"\x03\x02\x00" + b"".join(index.to_bytes(2, "big") + b"\x02\x00\x00\x00\x05" for index in range(512))

# files that are rejected, each with the word of its fault
REJECTED = [(name, row.stderr.decode().split()[-1], row.load) for name, row in rows_of("bad-scene-files").items()]
REJECTED.append(("a leaf of equal voxels", "constant-node", ACTIVE_1[:41] + EQUAL_VOXELS))

# the files whose prefixes and extensions are all rejected
CUT = {
    "active-1": ACTIVE_1,
    "inactive-1": INACTIVE_1,
    "boolean-1": BOOLEAN_1,
    "negative-1": NEGATIVE_1,
    "active": ACTIVE,
    "with-unit": WITH_UNIT,
    "two-grids": TWO,
}


def changed(text, at, *values):
    """Returns a file with these bytes from an offset on."""
    return text[:at] + bytes(values) + text[at + len(values) :]


def with_root(version, name, bodies):
    """Returns a file of one i32 grid with background 0 and these bodies of root blocks, side by side along z."""
    head = from_hex("56444253") + version.to_bytes(2, "big") + b"\x00\x01" + bytes([len(name)]) + name + b"\x01" + bytes(4)
    head += from_hex("00001000 00") if version == 2 else b""
    blocks = b"".join(bytes(8) + place.to_bytes(4, "big") + body for place, body in enumerate(bodies))
    return head + len(bodies).to_bytes(4, "big") + blocks


# a leaf whose voxels have the values 1 to 512
COUNTING = b"\x03\x02\x00" + b"".join(
    index.to_bytes(2, "big") + b"\x02" + (index + 1).to_bytes(4, "big") for index in range(512)
)

# files whose loading allocates more: two root blocks with tiles of each depth and two leaves, and 40 tiles of the root table
LARGER = {
    "tiles": with_root(
        2,
        b"tiles",
        [
            b"\x03\x00\x03" + from_hex("0000 02 00000001  0001 03 0002 0005 01 00000009 0006") + COUNTING
            + from_hex("7fff 03 0001 0fff") + COUNTING,
            from_hex("02 00000007"),
        ],
    ),
    "roots": with_root(1, b"r", [from_hex("01 00000003")] * 40),
}


def without_end(*parts):
    """Yields a file that begins with these parts and repeats the last of them for ever."""
    yield from parts
    last = parts[-1] * (65_536 // len(parts[-1]))
    while True:
        yield last


def planes(version, lowers=1024, leaves=0, pairs=()):
    """Yields a file of four bool grids, each true and active in the plane x = 0 of one root block. The last grid has
    `lowers` lower nodes of the plane, then one with `leaves` leaves, and these metadata pairs."""
    leaf = b"\x03\x00\x40" + b"".join(index.to_bytes(2, "big") + b"\x02\x01" for index in range(64))
    entries = [index.to_bytes(2, "big") + leaf for index in range(256)]
    lower = b"\x03\x01\x00" + b"".join(entries)
    yield from_hex("56444253") + version.to_bytes(2, "big") + b"\x00\x04"
    whole = [(name, 1024, 0, ()) for name in (b"a", b"b", b"c")]
    for name, count, parts, metas in [*whole, (b"d", lowers, leaves, pairs)]:
        yield b"\x01" + name + b"\x00\x00" + (from_hex("00001000") + pair_bytes(metas) if version == 2 else b"")
        yield b"\x00\x00\x00\x01" + bytes(12) + b"\x03" + (count + (parts > 0)).to_bytes(2, "big")
        for index in range(count):
            yield index.to_bytes(2, "big") + lower
        if parts > 0:
            yield count.to_bytes(2, "big") + b"\x03" + parts.to_bytes(2, "big") + b"".join(entries[:parts])


def pair_bytes(pairs):
    return bytes([len(pairs)]) + b"".join(bytes([len(part)]) + part for pair in pairs for part in pair)


def at_limit(more=0):
    """Returns a file of 268,435,456 bytes, and `more`."""
    pairs = [(key, b"x" * 64) for key in (b"a", b"b", b"c")] + [(b"d", b"x" * (32 + more))]
    return planes(2, 945, 58, pairs)
