# SPDX-License-Identifier: Apache-2.0
"""Plays scripts by OpenVDB, where its meaning is ours: by the program of bench/openvdb, or by another one that the variable OPENVDB names."""
import math
import os
import re
import subprocess

from cells import EXTENTS, TooLarge
from language import NUMBER, TOP, Scene, error_of, has_form

FOLDER = TOP / "bench" / "openvdb"
PROGRAM = os.environ.get("OPENVDB", FOLDER / "unoptimised")
FAR = 2**30  # OpenVDB's sums of greater numbers overflow, and its boxes that reach the ends of an axis don't end
MOST_ACTIVE = 100_000  # voxels of a grid that it dilates or erodes, since it allocates each
MOST_NODES = 1_000  # that a filled box needs, since it allocates one for each extent that the box cuts, even if all cells are equal
SECONDS = 60
# the ends of lines that tell what each grid has at the end of a script
ENDS = {"count": "all", "bounds": "", "census": "", "list": f"{-FAR} {-FAR} {-FAR} {FAR} {FAR} {FAR} 400"}
ENDS |= {"slice": "0 -8 -8 7 7", "get": f"- {FAR} {FAR} {FAR}"}
# intersect has another meaning; voxelise may take all memory; the others it doesn't know
UNLIKE = ("intersect", "voxelise", "meta", "unmeta", "metas")


def build():
    """Builds the program, unless the variable names another one, or none."""
    if "OPENVDB" not in os.environ:
        subprocess.run(["flock", FOLDER, "make", "-s", "-C", FOLDER, PROGRAM.name], check=True)


def nodes_of(numbers):
    """Returns how many entries of the root table, and nodes, a filled box needs."""
    ends = [*zip(map(int, numbers[:3]), map(int, numbers[3:]))]
    met = [math.prod(high // side - low // side + 1 for low, high in ends) for side in EXTENTS]
    whole = [math.prod(max(0, (high + 1) // side + -low // side) for low, high in ends) for side in EXTENTS]
    return met[0] + sum(met) - sum(whole)


def is_alike(scene, words):
    """Returns whether OpenVDB gives a command the meaning that it has here, after all commands before."""
    if not words or words[0] in UNLIKE:
        return False
    if any(re.fullmatch(NUMBER, it) and abs(int(it)) > FAR for it in words):
        return False
    if words[0] == "fill" and has_form(words) and nodes_of(words[2:8]) > MOST_NODES:
        return False
    grid = scene.grids.get(words[1]) if words[0] in ("dilate", "erode") and len(words) > 1 else None
    return grid is None or grid.cells.count() <= MOST_ACTIVE


def compared(lines):
    """Plays the lines of a script that mean the same, and asks what the grids then have. Returns how many lines it played, and the first
    other answer or an empty text."""
    scene, kept = Scene(), []
    for line in lines:
        before = {name: grid.copy() for name, grid in scene.grids.items()}
        try:
            words = line.decode("latin-1").split()
            answer = scene.answer(line) if is_alike(scene, words) else None
            has_limit = words[:1] == ["grid"] and len(words) == 5  # the root limit, which OpenVDB's grids lack
            if max(scene.nodes()) > 300 or error_of(answer) in ("sum-range", "root-limit") or (has_limit and error_of(answer)):
                raise TooLarge
            kept += [(b" ".join(line.split()[:4]) if has_limit else line, answer)] if answer else []
        except TooLarge:
            scene.grids = before
    ends = [f"{word} {name} {rest}".encode() for name in scene.grids for word, rest in ENDS.items()]
    kept += [(line, scene.answer(line)) for line in ends]
    script = b"".join(line + b"\n" for line, _ in kept)
    try:
        ran = subprocess.run([PROGRAM], input=script, stdout=subprocess.PIPE, timeout=SECONDS, check=False)
    except subprocess.TimeoutExpired:
        return len(kept), f"OpenVDB: no end within {SECONDS} seconds"
    found = ran.stdout.decode("latin-1").split("\n")
    for line, answer in kept:
        got, found = found[: len(answer)], found[len(answer) :]
        if got != answer:
            return len(kept), f"OpenVDB: {line!r} answers {got[:3]}, not {answer[:3]}"
    return len(kept), ""
