# SPDX-License-Identifier: Apache-2.0
"""Time and memory by the active voxel, from ten thousand voxels to a hundred million.

Each line of a script fills a box of 7 voxels along each axis, one in each leaf, so that 10^8 voxels fit in a script. Scripts of fewer voxels
make their grid several times, one after another, so that each does enough to be measured.
"""
from statistics import median

from . import programs
from .parts import STARTS, THREADS, in_turn, room, row, table, tell, write
from .play import play_well
from .programs import vdb

SIDE = 7


# how many voxels a script makes active at least
LEAST = 10**7


def script_of(voxels):
    """Returns the lines that make grids of about so many active voxels, how many a grid has, and how many all grids have."""
    boxes = max(1, round(voxels / SIDE**3))
    along = next(it for it in range(1, boxes + 1) if it**3 >= boxes)
    lines = ["grid a i32 0"]
    for number in range(boxes):
        x, y, z = (8 * it for it in (number // along // along, number // along % along, number % along))
        lines.append(f"fill a {x} {y} {z} {x + SIDE - 1} {y + SIDE - 1} {z + SIDE - 1} {number % 9 + 1} on")
    count = boxes * SIDE**3
    times = max(1, round(LEAST / count))
    return [*lines, "count a all", "drop a"] * times, count, times * count


def measure(runs, quick):
    peer = programs.peer("openvdb")
    commands = {"vdb": [vdb()], "one": [peer, "--threads", "1"], "all": [peer, "--threads", "all"]}
    times, peaks = [], []
    powers = range(4, 7 if quick else 9)
    with room() as folder:
        nothing = write(f"{folder}/nothing", ["grid a i32 0", "count a all", "drop a"])
        empty = in_turn({key: lambda _, command=command: play_well(command, nothing) for key, command in commands.items()}, max(runs, STARTS))
        seconds = {key: median([run.seconds for run in series]) for key, series in empty.items()}
        least = {key: min(run.peak for run in series) for key, series in empty.items()}
        for number, power in enumerate(powers, 1):
            tell(f"scaling, 10^{power} voxels", number, len(powers))
            lines, count, filled = script_of(10**power)
            script = write(f"{folder}/script", lines)
            found = in_turn({key: lambda _, command=command: play_well(command, script) for key, command in commands.items()}, runs)
            more = {"Active voxels": f"{count:,}"}
            name = f"10^{power} voxels"
            series = {key: [max(0, run.seconds - seconds[key]) * 1e9 / filled for run in it] for key, it in found.items()}
            times.append(row(name, "ns per voxel", series, **more))
            series = {key: [max(0, run.peak - least[key]) / count for run in it] for key, it in found.items()}
            peaks.append(row(name, "bytes per voxel", series, **more))
    note = f"Grids in which a box of {SIDE} voxels along each axis is filled in each leaf, and a count. The run of a script with an empty grid is subtracted."
    return [table("Time by size", note, times), table("Memory by size", f"Peak memory of the same runs. {note}", peaks, THREADS)]
