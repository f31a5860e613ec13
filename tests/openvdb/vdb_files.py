# SPDX-License-Identifier: Apache-2.0
"""Random .vdb files that OpenVDB made, turned into scenes: vdb finds the cells that OpenVDB finds, and the bytes are canonical."""
import random

import encoding

NUMBERS = {"bool": ["true", "false"], "mask": ["true", "false"]}
NUMBERS["i32"] = ["0", "1", "5", "-7", "2147483647", "-2147483648"]
NUMBERS["i64"] = ["0", "1", "5", "-7", "9223372036854775807", "-9223372036854775808"]
CORNERS = [-2147483648, -4097, -4096, -129, -128, -9, -8, -1, 0, 1, 7, 8, 127, 128, 4095, 4096, 2147483647]
WRITTEN = ["zip", "blosc", "none", "stream"]


class RandomFile:
    """Makes the probe's lines for a file, and keeps the places that they name."""

    def __init__(self, chance):
        self.chance, self.places, self.last = chance, {}, [0, 0, 0]

    def place(self, name):
        if self.chance.random() < 0.4:
            self.last = [self.chance.choice(CORNERS) for _ in range(3)]
        else:
            self.last = [min(max(at + self.chance.choice([-8, -1, 0, 1, 8, 128]), -2147483648), 2147483647) for at in self.last]
        self.places[name].append(tuple(self.last))
        return " ".join(str(at) for at in self.last)

    def line(self, name, kind):
        value, state = self.chance.choice(NUMBERS[kind]), self.chance.choice(["on", "off"])
        word = self.chance.choice(["voxel", "voxel", "voxel", "tile", "tile", "leaf"])
        if word == "leaf":
            return f"leaf {self.place(name)}"
        if word == "voxel":
            return f"voxel {self.place(name)} {value} {state}"
        return f"tile {self.chance.choice([1, 1, 2, 3])} {self.place(name)} {value} {state}"

    def full_node(self, name, kind):
        """Lines that fill a leaf or a lower node with equal cells, so that it must become a tile."""
        value, state = self.chance.choice(NUMBERS[kind]), self.chance.choice(["on", "off"])
        level = self.chance.choice([0, 1])
        side, extent = [(8, 1), (16, 8)][level]
        self.places[name].append((0, 0, 0))
        word = "voxel" if level == 0 else "tile 1"
        spans = [(x * extent, y * extent, z * extent) for x in range(side) for y in range(side) for z in range(side)]
        lines = [f"{word} {x} {y} {z} {value} {state}" for x, y, z in spans]
        return lines if self.chance.random() < 0.5 else lines[:-1]

    def lines(self, how):
        for number in range(self.chance.randint(1, 4)):
            kind, name = self.chance.choice(sorted(NUMBERS)), f"g{number}"
            self.places[name] = [(0, 0, 0)]
            yield f"grid {kind} {name} {'false' if kind == 'mask' else self.chance.choice(NUMBERS[kind])}"
            for _ in range(self.chance.randint(0, 25)):
                yield self.line(name, kind)
            if self.chance.random() < 0.3:
                yield from self.full_node(name, kind)
            if self.chance.random() < 0.2:
                self.places[f"s{number}"] = self.places[name]
                yield f"share s{number}"
        yield f"write {how}"

    def asked(self):
        """The places that lines named, and some about them."""
        for name, places in self.places.items():
            for at in places:
                yield (name, *at)
                yield (name, *(min(max(part + self.chance.choice([-1, 1, 8, -128]), -2147483648), 2147483647) for part in at))


def is_inactive_mask(found, name, kinds):
    """An inactive voxel of a mask is false in a scene, whatever an inactive tile has."""
    return kinds[name] == "Tree_mask_5_4_3" and found.endswith(" off")


def check_file(place, number):
    how = WRITTEN[number % len(WRITTEN)]
    maker, what = RandomFile(random.Random(number)), f".vdb file {number} by {how}"
    place.probed("make", "made.vdb", maker.lines(how))
    place.is_converted("vdb2vdbs", "made.vdb", "made.vdbs", "--strict", what=what)
    text = place.read("made.vdbs")
    if len(text) < 200_000:
        place.check(encoding.verdict(text) == text, f"{what}: the scene file isn't canonical")
    facts = [line.split(" ") for line in place.probed("info", "made.vdb") if line.startswith("grid ")]
    kinds = {fact[1]: fact[2] for fact in facts}
    counts = place.played([f"count {fact[1]} all" for fact in facts], "--load", "made.vdbs")
    place.equal(counts, [f"count {fact[4]}" for fact in facts], f"{what}: active voxels")
    asked = [*maker.asked()]
    by_vdb = place.played([f"get {name} - {x} {y} {z}" for name, x, y, z in asked], "--load", "made.vdbs")
    by_openvdb = place.probed("get", "made.vdb", [f"{name} {x} {y} {z}" for name, x, y, z in asked])
    place.equal(len(by_vdb), len(asked), f"{what}: answers of vdb")
    for at, one, other in zip(asked, by_vdb, by_openvdb):
        wanted = "value false off" if is_inactive_mask(other, at[0], kinds) else other
        wanted = "value true on" if kinds[at[0]] == "Tree_mask_5_4_3" and other.endswith(" on") else wanted
        place.equal(one, wanted, f"{what}: the cell {at}")


def check(place, seed, scenes):
    for number in range(seed, seed + scenes):
        check_file(place, number)
