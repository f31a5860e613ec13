# SPDX-License-Identifier: Apache-2.0
"""Memory by the active voxel, for cubes of which more and more voxels are active.

The voxels are drawn at random and written by `set`, as many as a script may have; the scene is saved, and further scripts go on from it.
Measured is a run that loads the last scene and carries out nothing, less a run with no scene.
"""
import os
import random

import re
import subprocess

from . import programs
from .parts import in_turn, room, row, table, tell, write
from .play import play, play_well
from .programs import OPENVDB, Failed, vdb

# how many sets a script may have, by the length limit of a script
SETS = 600_000

# density 1 / 2^N for each N of these; a cube of 256 voxels along each axis up to 1/32, of 128 above
POWERS = (15, 13, 11, 9, 7, 6, 5, 4, 3, 2, 1, 0)
QUICK_POWERS = (15, 9, 5, 3)


def scripts_of(kind, power, folder):
    """Writes the scripts that make a scene of a density, and returns their paths and how many voxels they make active."""
    side = 256 if power >= 5 else 128
    count = side**3 >> power
    draw = random.Random(power)
    voxels = draw.sample(range(side**3), count)
    paths = []
    for first in range(0, count, SETS):
        # the values differ, so that no leaf is constant
        lines = [f"set a 0 {at // side // side} {at // side % side} {at % side} {at % 1000}" for at in sorted(voxels[first : first + SETS])]
        paths.append(write(f"{folder}/{len(paths)}.script", lines if first else [f"grid a {kind} 0", *lines]))
    return paths, count


def make(command, scripts, scene):
    """Plays scripts one after another, each on the scene that the one before saved."""
    for number, script in enumerate(scripts):
        loaded = ["--load", scene] if number else []
        run = play_well([*command, *loaded, "--save", f"{scene}.new"], script)
        if run.status:
            raise Failed(f"{command[0]}: a line of the script {script} was an error")
        os.replace(f"{scene}.new", scene)


def own_figure(peer, scene, folder):
    """Returns the bytes that OpenVDB says that the grid of a scene uses."""
    play_well([peer, "--load", scene, "--memory"], stderr=f"{folder}/memory")
    with open(f"{folder}/memory", encoding="ascii") as file:
        return int(file.read().split()[-1])


def measure(runs, quick):
    commands = {"vdb": [vdb()], "one": [programs.peer("openvdb")]}
    rows = []
    powers = QUICK_POWERS if quick else POWERS
    with room() as folder:
        empty = {key: min(play(command).peak for _ in range(runs)) for key, command in commands.items()}
        for kind in ("i32", "i64"):
            for number, power in enumerate(powers, 1):
                tell(f"density 1/{2**power} {kind}", number, len(powers))
                scripts, count = scripts_of(kind, power, folder)
                scenes = {key: f"{folder}/{key}" for key in commands}
                for key, command in commands.items():
                    make(command, scripts, scenes[key])

                def measured(key):
                    return lambda _: max(0, play_well([*commands[key], "--load", scenes[key]]).peak - empty[key]) / count

                series = in_turn({key: measured(key) for key in commands}, runs)
                series["own"] = [own_figure(f"{OPENVDB}/openvdb", scenes["one"], folder) / count]
                name = f"{kind}, 1/{2**power}" if power else f"{kind}, 1"
                rows.append(row(name, "bytes per voxel", series, **{"Active voxels": f"{count:,}"}))
    note = (
        "Bytes of memory by the active voxel: the peak of a process that has loaded the grid, less that of one with no grid. The fraction is of a"
        " cube of 256 voxels along each axis, above 1/32 of 128. `memUsage` is what OpenVDB says of the grid itself."
    )
    return [table("Memory against density", note, rows, {"vdb": "vdb", "one": "OpenVDB", "own": "OpenVDB's `memUsage`"}), one_voxel(runs)]


def one_voxel(runs):
    """Returns the table of grids that hold one voxel, through the C library."""
    program, rows = programs.peer("calls"), {}

    def sizes(library):
        ran = subprocess.run([program, library, "one-voxel"], stdin=subprocess.DEVNULL, capture_output=True, text=True)
        found = re.findall(r"(?m)^(\w+): (\d+) resident, (\d+) allocated$", ran.stdout)
        if ran.returncode or not found:
            raise Failed(f"{program} {library} one-voxel ended with status {ran.returncode}: {ran.stderr.strip()[:300]}")
        return found

    for key, series in in_turn({"vdb": lambda _: sizes("vdb"), "one": lambda _: sizes("openvdb")}, runs).items():
        for each in series:
            for kind, *both in each:
                for what, size in zip(("resident", "allocated"), both):
                    rows.setdefault(f"{kind}, {what}", {}).setdefault(key, []).append(int(size) / 1e3)
    note = (
        "KB of 1,000 bytes per grid: the mean of 400 grids, each with one random voxel, through the C library and through OpenVDB's trees. Resident memory is"
        " what the system gave; the allocated one counts places that are reserved and not written."
    )
    return table("Memory of a grid of one voxel", note, [row(name, "KB per grid", series) for name, series in rows.items()], {"vdb": "vdb", "one": "OpenVDB"})
