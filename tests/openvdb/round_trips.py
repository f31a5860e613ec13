# SPDX-License-Identifier: Apache-2.0
"""Random scenes saved by vdb, made into .vdb files and back: the bytes are the same, and OpenVDB reads the same cells."""
import random

import encoding
from random_scripts import EDGES, Script

COMPRESSIONS = ["zip", "blosc", "none"]
EXTENTS = [4096, 128, 8, 1]
ENTRIES = [32, 16, 8]


def first_voxels(grid):
    """The first voxel of each block of one cell in a grid of a scene."""
    for key, block in grid.roots:
        yield from voxels_of([part * 4096 for part in key], block, 0)


def voxels_of(origin, block, depth):
    if isinstance(block, tuple):
        yield origin
        return
    side, extent = ENTRIES[depth], EXTENTS[depth + 1]
    for index, entry in block:
        parts = index // side // side, index // side % side, index % side
        yield from voxels_of([at + part * extent for at, part in zip(origin, parts)], entry, depth + 1)


def places(chance, grid):
    """Some places of a grid: about its cells, and anywhere."""
    cells = [*first_voxels(grid)]
    near = [[at + chance.choice([-1, 0, 0, 0, 1]) for at in chance.choice(cells)] for _ in range(40 if cells else 0)]
    far = [[chance.choice(EDGES) for _ in range(3)] for _ in range(10)]
    ends = [[chance.choice([-2147483648, 2147483647]) for _ in range(3)] for _ in range(3)]
    return [place for place in near + far + ends if all(-2147483648 <= at <= 2147483647 for at in place)]


def check_cells(place, chance, scene, made, what):
    """OpenVDB's reader finds in `made` the cells that vdb finds in the scene."""
    asked = [(grid.name.decode(), *at) for grid in encoding.load(place.read(scene)) for at in places(chance, grid)]
    by_vdb = place.played([f"get {name} - {x} {y} {z}" for name, x, y, z in asked], "--load", scene)
    by_openvdb = place.probed("get", made, [f"{name} {x} {y} {z}" for name, x, y, z in asked])
    place.equal(len(by_vdb), len(asked), f"{what}: answers of vdb")
    for at, one, other in zip(asked, by_vdb, by_openvdb):
        place.equal(other, one, f"{what}: the cell {at}")


def check_scene(place, number):
    maker = Script(random.Random(number))
    text = place.saved(maker.lines(maker.chance.randint(5, 40)), "scene.vdbs")
    compression = COMPRESSIONS[number % 3]
    place.is_converted("vdbs2vdb", "scene.vdbs", "scene.vdb", "--compress", compression, "--strict")
    place.is_converted("vdb2vdbs", "scene.vdb", "back.vdbs", "--strict")
    place.check(place.read("back.vdbs") == text, f"scene {number} by {compression}: other bytes")
    if len(text) < 300_000:
        check_cells(place, maker.chance, "scene.vdbs", "scene.vdb", f"scene {number} by {compression}")


def check_chosen(place):
    """`--grid` in each of its forms."""
    place.saved(["grid a i32 1", "grid b bool true", "grid c i64 2", "set c - 1 1 1 5"], "scene.vdbs")
    wanted = place.saved(["grid a i32 1", "grid c i64 2", "set c - 1 1 1 5"], "wanted.vdbs")
    for options in (["--grid", "c", "a"], ["--grid=a", "--grid", "c"], ["--grid=c", "--strict", "--grid=a"]):
        place.is_converted("vdbs2vdb", "scene.vdbs", "chosen.vdb", *options)
        place.is_converted("vdb2vdbs", "chosen.vdb", "chosen.vdbs")
        place.equal(place.read("chosen.vdbs"), wanted, f"vdbs2vdb {options}")
    place.is_converted("vdbs2vdb", "scene.vdbs", "whole.vdb")
    place.is_converted("vdb2vdbs", "whole.vdb", "chosen.vdbs", "--grid", "c", "a")
    place.equal(place.read("chosen.vdbs"), wanted, "vdb2vdbs --grid c a")
    for program, given in (("vdbs2vdb", "scene.vdbs"), ("vdb2vdbs", "whole.vdb")):
        told = [f'{program}: {given}: no grid "d"']
        place.equal(place.convert(program, given, "none", "--grid", "d"), (1, "", told), f"{program} --grid d")


def check_texts(place):
    """Pairs whose keys OpenVDB has for itself, and a full set of pairs."""
    keys = ["name", "class", "creator", "vector_type", "is_local_space", "file_compression", "vdb_root_limit", "file_mem_bytes"]
    keys += [f"k{number}" for number in range(8)]
    lines = ["grid a i32 0 65536", *(f"meta a {key} {'~' * 64}" for key in keys), "grid b bool true 1", "meta b class fog"]
    text = place.saved(lines, "texts.vdbs")
    place.is_converted("vdbs2vdb", "texts.vdbs", "texts.vdb")
    place.is_converted("vdb2vdbs", "texts.vdb", "back.vdbs", "--strict")
    place.check(place.read("back.vdbs") == text and text.count(b"~") == 1024, "pairs of reserved keys")
    found = place.probed("info", "texts.vdb")
    place.check("meta vdb_root_limit int32 65536" in found and f"meta creator string {'~' * 64}" in found, f"metadata: {found}")


AFFINES = [
    # what `affine` of the probe says, by the images of x, y, z and 0 0 0; the pairs; the place of voxel 1 2 3, by hand
    ("0.5 0 0  0 0.5 0  0 0 0.5  0 0 0", ("0.5,0,0,0", "0,0.5,0,0", "0,0,0.5,0"), "[0.5, 1, 1.5]"),
    ("0 2 0  -0.25 0 0  0 0.125 4  10 -3 7", ("0,-0.25,0,10", "2,0,0.125,-3", "0,0,4,7"), "[9.5, -0.625, 19]"),
    ("1 0 0  0 1 0  0 0 1  -9 3 4090", ("1,0,0,-9", "0,1,0,3", "0,0,1,4090"), "[-8, 5, 4093]"),
]


def check_affines(place):
    """Transforms become pairs and pairs transforms; the transform wins, and pairs of another form stay as they are."""
    keys = ["affine_x", "affine_y", "affine_z"]
    for numbers, rows, image in AFFINES:
        text = place.saved(["grid a i32 0", *(f"meta a {key} {row}" for key, row in zip(keys, rows))], "affine.vdbs")
        place.is_converted("vdbs2vdb", "affine.vdbs", "affine.vdb", "--strict")
        place.check(f"voxel {image}" in place.probed("info", "affine.vdb"), f"the transform of {rows}: not {image}")
        for also in ((), (f"meta string {key} {row}" for key, row in zip(keys, ("7,0,0,0", "0,7,0,0", "0,0,7,0")))):
            place.probed("make", "made.vdb", ["grid i32 a 0", *also, f"affine {numbers}", "write zip"])
            place.is_converted("vdb2vdbs", "made.vdb", "back.vdbs", "--strict")
            place.equal(place.read("back.vdbs"), text, f"the pairs of the transform {numbers}")
    place.probed("make", "made.vdb", ["grid i32 a 0", *(f"meta string {key} {row}" for key, row in zip(keys, AFFINES[0][1])), "write zip"])
    place.is_converted("vdb2vdbs", "made.vdb", "back.vdbs", "--strict")
    place.equal(place.read("back.vdbs"), place.saved(["grid a i32 0"], "wanted.vdbs"), "pairs beside an identity")
    other = [
        ("1.50,0,0,0", "0,1e0,0,-0", "0,0,1,0"), ("1,0,0,0", "0,1,0,0", "0,0,1,0"), ("0,0,0,0", "0,0,0,0", "0,0,0,0"), ("1,2,3", "~", "1,2,3,4,5"),
        ("1,0,0,inf", "0,1,0,0", "0,0,1,0"), ("0.33333333333333331,0,0,1e300", "0,3.0000000000000004,0,0", "0,0,-1e9,0"),
        ("0.33333333333333331,0,0,1e10", "0,3.0000000000000004,0,-1e10", "0,0,-0.1,7"),
    ]  # fmt: skip
    for rows in other:
        text = place.saved(["grid a i32 0", *(f"meta a {key} {row}" for key, row in zip(keys, rows))], "affine.vdbs")
        place.is_converted("vdbs2vdb", "affine.vdbs", "affine.vdb", "--strict")
        place.is_converted("vdb2vdbs", "affine.vdb", "back.vdbs", "--strict")
        place.check(place.read("back.vdbs") == text and text.count(b"affine_") == 3, f"the pairs {rows}")
    numbers = "0.33333333333333331 0 0  0 -0.14285714285714285 0  0 0.1 1e-3  -1234567.8901234567 0.7 1e5"
    place.probed("make", "made.vdb", ["grid i32 a 0", f"affine {numbers}", "write zip"])
    place.is_converted("vdb2vdbs", "made.vdb", "back.vdbs", "--strict")
    place.is_converted("vdbs2vdb", "back.vdbs", "made.vdb", "--strict")
    place.check("voxel [-1.23457e+06, 0.714286, 100000]" in place.probed("info", "made.vdb"), f"the transform {numbers}")


def check(place, seed, scenes):
    for number in range(seed, seed + scenes):
        check_scene(place, number)
    check_chosen(place)
    check_texts(place)
    check_affines(place)
