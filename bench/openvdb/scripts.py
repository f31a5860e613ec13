#!/usr/bin/env python3
# SPDX-License-Identifier: Apache-2.0
"""Writes the scripts by which programs are measured into a folder.

    scripts.py FOLDER [SEED [TYPE [NAME..]]]

    scripts.py scripts 11 i64 random-plain

SEED is a number, 7 if it is left out: the same seed gives the same scripts. TYPE is that of the grids of numbers, i32 or i64, and i32 if it
is left out. With names it writes these scripts alone; without, all of them, some 117 MB. Each has at most the 16,777,216 bytes that a
script may have.
"""
import math
import os
import random
import sys

LENGTH_LIMIT = 16777216
GRID = ["grid a i32 0"]


def numbers(*parts):
    """Numbers and sequences of numbers as the tokens of a line."""
    return " ".join(str(n) for part in parts for n in (part if isinstance(part, (list, tuple)) else [part]))


def random_voxels(accessor, seed):
    """Sets of random voxels of a cube, then gets of the same voxels in reverse order."""
    draw = random.Random(seed + 4)
    voxels = [(draw.randrange(256), draw.randrange(256), draw.randrange(256)) for _ in range(350000)]
    sets = [f"set a {accessor} {numbers(voxel)} 7" for voxel in voxels]
    return GRID + sets + [f"get a {accessor} {numbers(voxel)}" for voxel in reversed(voxels)]


def walk(accessor, seed):
    """Gets and sets in turn along a random walk, each step of which goes to a face neighbour."""
    draw = random.Random(seed)
    at, lines = [128, 128, 128], list(GRID)
    for turn in range(700000):
        axis = draw.randrange(3)
        at[axis] = min(255, max(0, at[axis] + draw.choice((-1, 1))))
        lines.append(f"set a {accessor} {numbers(at)} 7" if turn % 2 else f"get a {accessor} {numbers(at)}")
    return lines


def sequential(kind, background, accessor, value, count):
    """Sets of successive voxels, along z first."""
    voxels = (numbers(i // 7921, i // 89 % 89, i % 89) for i in range(count))
    return [f"grid a {kind} {background}"] + [f"set a {accessor} {voxel} {value}" for voxel in voxels]


def fill_mixed(seed):
    """Boxes of all sizes filled over one another."""
    draw = random.Random(seed + 24)
    lines = list(GRID)
    for _ in range(4000):
        size = [draw.choice([1, 4, 8, 20, 60, 120]) for _ in range(3)]
        least = [draw.randrange(400 - side) for side in size]
        greatest = [first + side - 1 for first, side in zip(least, size)]
        lines.append(f"fill a {numbers(least, greatest, draw.randrange(4))} {draw.choice(['on', 'on', 'off'])}")
    return lines + ["count a all"]


def fill_clip():
    """Large boxes filled, then clipped."""
    lines = []
    for turn in range(10):
        lines += GRID + ["fill a -8192 -8192 -8192 8191 8191 8191 1 on", "fill a -300 -300 -300 399 399 399 2 on"]
        lines += [f"clip a {-500 - turn} {-450 + turn} -400 500 450 400", "count a all", "drop a"]
    return lines


def prune_dense():
    """A box voxelised and pruned; then one voxel changed, and pruned again, twice."""
    eighths = [(x, y, z) for x in (0, 128) for y in (0, 128) for z in (0, 128)]
    lines = []
    for _ in range(5):
        lines += GRID + ["fill a 0 0 0 255 255 255 1 on"]
        lines += [f"voxelise a {numbers(least, [first + 127 for first in least])}" for least in eighths]
        lines += ["set a - 77 77 77 2", "prune a", "set a - 77 77 77 1", "prune a", "count a all", "drop a"]
    return lines


def shell(name, value, centre):
    """Sets of the voxels of a sphere of radius 100."""
    caps = set()
    for x in range(-100, 101):
        for y in range(-100, 101):
            rest = 10000 - x * x - y * y
            if rest >= 0:
                caps |= {(x, y, math.isqrt(rest)), (x, y, -math.isqrt(rest))}
    voxels = caps | {(x, z, y) for x, y, z in caps} | {(z, y, x) for x, y, z in caps}
    placed = ([a + b for a, b in zip(voxel, centre)] for voxel in sorted(voxels))
    return [f"grid {name} i32 0"] + [f"set {name} 0 {numbers(at, value)}" for at in placed]


def two_grids():
    """Operations on two shells, each on a copy."""
    lines = shell("a", 3, (0, 0, 0)) + shell("b", 4, (30, -20, 10)) + ["dilate a 3", "dilate b 3"]
    for word in ("union", "difference", "intersect", "sum", "max", "replace"):
        lines += ["copy a c", f"{word} c b", "count c all", "drop c"] * 8
    return lines


def reports():
    """All reports on a thick shell and a box."""
    asked = ["count a all", "bounds a", "count a -90 -80 -70 60 50 40", "list a -101 -101 -101 0 0 0 4096"]
    asked += ["list a 201 203 205 600 600 600 4096", "slice a 3 -32 -32 31 31"]
    lines = shell("a", 3, (0, 0, 0)) + ["dilate a 3", "fill a 200 200 200 700 700 700 5 on"]
    return lines + asked * 30 + ["census a"] * 10


def save_scene(seed):
    """A scene of scattered voxels and two copies."""
    draw = random.Random(seed - 4)
    voxels = sorted({(draw.randrange(256), draw.randrange(256), draw.randrange(256)) for _ in range(440000)})
    sets = [f"set a 0 {numbers(voxel, number % 1000)}" for number, voxel in enumerate(voxels)]
    return GRID + sets + ["copy a b", "copy a c", "count c all"]


def scattered(seed):
    """Reports on voxels that each lie in an upper extent of their own."""
    draw = random.Random(seed + 20)
    voxels = [[draw.randrange(-2**31, 2**31) for _ in range(3)] for _ in range(300)]
    wide, half = ([-2**31] * 3, [2**31 - 1, 2**31 - 1, 2**31 - 2]), ([-10**9] * 3, [10**9] * 3)
    asked = ["count a all", "bounds a", f"count a {numbers(*half)}", f"list a {numbers(*wide)} 4096", "census a"]
    return GRID + [f"set a - {numbers(voxel)} 1" for voxel in voxels] + asked * 10


def small_boxes(seed):
    """Small fills and counts in a grid of many upper extents."""
    draw = random.Random(seed + 21)
    lines = GRID + ["fill a 0 0 0 65535 65535 4095 1 on"]
    for turn in range(20000):
        least = [draw.randrange(60000), draw.randrange(60000), draw.randrange(4000)]
        corners = numbers(least, [first + draw.randrange(12) for first in least])
        lines.append(f"fill a {corners} 2 on" if turn % 2 else f"count a {corners}")
    return lines


def lists(seed):
    """Long lists and wide slices."""
    draw = random.Random(seed + 22)
    lines = GRID + [f"set a 0 {numbers([draw.randrange(-60, 60) for _ in range(3)], i % 99)}" for i in range(60000)]
    for turn in range(60):
        lines += ["list a -60 -60 -60 59 59 59 4096", f"list a {turn - 50} -60 -60 59 59 59 4096", f"slice a {turn - 30} -32 -32 31 31"]
    return lines


def booleans(seed):
    """Boxes in boolean grids, and operations on their states."""
    draw = random.Random(seed + 23)
    lines = ["grid m bool false", "grid n bool false"]
    for name in "mn":
        for _ in range(300):
            least = [draw.randrange(-200, 200) for _ in range(3)]
            lines.append(f"fill {name} {numbers(least, [first + draw.randrange(60) for first in least])} true on")
    for turn in range(4):
        c = f"c{turn}"
        lines += [f"copy m {c}", f"union {c} n", f"dilate {c} 2", f"difference {c} m", f"erode {c} 1", f"count {c} all", f"drop {c}"]
    return lines


def all_scripts(seed):
    """Returns for each script's name the call that makes its lines. `load-scene` begins with the scene that `save-scene` saves: see run.py."""
    return {
        "random-accessor": lambda: random_voxels("0", seed),
        "random-plain": lambda: random_voxels("-", seed),
        "walk-accessor": lambda: walk("0", seed),
        "walk-plain": lambda: walk("-", seed),
        "sequential-accessor": lambda: sequential("i32", 0, "0", 7, 700000),
        "sequential-plain": lambda: sequential("i32", 0, "-", 7, 700000),
        "sequential-bool": lambda: sequential("bool", "false", "0", "true", 600000),
        "fill-mixed": lambda: fill_mixed(seed),
        "fill-clip": fill_clip,
        "prune-dense": prune_dense,
        "shell-sets": lambda: shell("a", 3, (0, 0, 0)) + ["count a all"],
        "shell-dilate-erode": lambda: shell("a", 3, (0, 0, 0)) + ["dilate a 5", "count a all", "erode a 5", "count a all"] * 2,
        "shell-two-grids": two_grids,
        "reports": reports,
        "save-scene": lambda: save_scene(seed),
        "load-scene": lambda: ["count a all", "count b all", "count c all", "get c - 1 2 3"],
        "scattered": lambda: scattered(seed),
        "small-boxes": lambda: small_boxes(seed),
        "lists": lambda: lists(seed),
        "booleans": lambda: booleans(seed),
    }


def main(words):
    if any(it in ("-h", "--help") for it in words):
        print(__doc__.strip())
        return
    folder, seed, kind, *wanted = [*words, *["7", "i32"][len(words) - 1 :]] if words else ["", "", ""]
    if not folder or folder.startswith("-") or not seed.isdigit() or kind not in ("i32", "i64"):
        sys.exit("scripts.py: usage: scripts.py FOLDER [SEED [TYPE [NAME..]]], as in scripts.py scripts 11 i64 random-plain")
    made = all_scripts(int(seed))
    unknown = [name for name in wanted if name not in made]
    if unknown:
        sys.exit(f"scripts.py: no script is called {unknown[0]}; there are {', '.join(made)}")
    os.makedirs(folder, exist_ok=True)
    for name in wanted or made:
        text = "\n".join(made[name]()).replace(" i32 ", f" {kind} ") + "\n"
        if len(text) > LENGTH_LIMIT:
            sys.exit(f"scripts.py: {name} is longer than a script may be")
        with open(os.path.join(folder, f"{name}.script"), "w", encoding="ascii") as file:
            file.write(text)


if __name__ == "__main__":
    main(sys.argv[1:])
