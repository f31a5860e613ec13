# SPDX-License-Identifier: Apache-2.0
"""Size of a scene file, and the time to load and to save it, beside OpenVDB's file without and with compression."""
import os

from . import programs
from .parts import in_turn, net, room, row, starts_of, table, tell, write
from .play import play_well
from .programs import vdb
from .scripts import write_scripts

# the scripts of bench/openvdb/scripts.py whose last scene is saved, with what it holds
SCENES = {
    "save-scene": "three grids of 434,000 scattered voxels",
    "reports": "a thick shell and a box",
    "lists": "60,000 scattered voxels",
    "booleans": "two masks of 300 boxes",
}
HEADINGS = {"vdb": "vdb", "none": "OpenVDB, uncompressed", "zip": "OpenVDB, ZIP", "blosc": "OpenVDB, Blosc"}


def commands_of():
    peer = programs.peer("openvdb")
    return {"vdb": [vdb()], **{key: [peer, "--compression", key] for key in HEADINGS if key != "vdb"}}


def made(script, commands, folder):
    """Plays a script on each program, and returns the file that each saves, by series."""
    files = {key: f"{folder}/{key}" for key in commands}
    for key, command in commands.items():
        play_well([*command, "--save", files[key]], script)
    return files


def loading(commands, files):
    """Returns for each series the run that loads its file."""
    return {key: lambda _, key=key: play_well([*commands[key], "--load", files[key]]) for key in commands}


def copying(commands, files):
    """Returns for each series the run that loads its file and saves it under another name."""
    return {key: lambda _, key=key: play_well([*commands[key], "--load", files[key], "--save", f"{files[key]}.copy"]) for key in commands}


def measure_scene(name, script, commands, folder, starts, runs):
    """Returns the rows of a scene: its size, a run that loads it, and one that saves it too. `starts` has the seconds of both with no grid."""
    files = made(script, commands, folder)
    rows = [row(f"{name}: size", "MB", {key: [os.path.getsize(file) / 1e6] for key, file in files.items()})]
    for what, players, start in zip(("load", "load and save"), (loading(commands, files), copying(commands, files)), starts):
        found = in_turn(players, runs)
        series, raw = net({**found, "one": found["none"]}, {**start, "one": start["none"]})
        rows.append(row(f"{name}: {what}", "s", {key: series[key] for key in commands}, **{"Raw": raw}))
    return rows


def measure(runs, quick):
    commands, rows = commands_of(), []
    kinds = ("i32",) if quick else ("i32", "i64")
    with room() as folder:
        for kind in kinds:
            write_scripts(f"{folder}/{kind}", "7", kind, *SCENES)
        empty = made(write(f"{folder}/nothing", []), commands, folder)
        starts = [starts_of(players, runs) for players in (loading(commands, empty), copying(commands, empty))]
        scenes = [(script, kind) for script in SCENES for kind in (kinds if script != "booleans" else kinds[:1])]
        for number, (script, kind) in enumerate(scenes, 1):
            name = f"{SCENES[script]}, {kind if script != 'booleans' else 'bool'}"
            tell(f"files, {name}", number, len(scenes))
            rows += measure_scene(name, f"{folder}/{kind}/{script}.script", commands, folder, starts, runs)
    note = (
        "A MB is 1,000,000 bytes. Times are without the start of the program, which is measured with a file of no grid; `Raw` has the medians of vdb and of"
        " OpenVDB uncompressed with it. The files lie in memory, so no disk is measured. ZIP and Blosc leave out inactive values, as OpenVDB's default does."
    )
    return [table("Scene files", note, rows, HEADINGS, "none")]
