# SPDX-License-Identifier: Apache-2.0
"""Scripts of commands through the program, and through the one that plays them on OpenVDB."""
import filecmp
import os
import subprocess

from . import programs
from .parts import KEEP, KEEPING, in_turn, net, python, room, row, starts_of, table, tell, write
from .play import play_well
from .programs import OPENVDB, Failed, vdb

SEEDS = ("7", "11")


def options(command, script, folder):
    """Returns the options that a script's name asks for. The file that it loads is made by a first run."""
    file = os.path.join(folder, "scene")
    place, name = os.path.split(script)
    if name.startswith("save-"):
        return ["--save", file]
    if name.startswith("load-"):
        play_well([*command, "--save", file], os.path.join(place, f"save-{name[5:]}"))
        return ["--load", file]
    return []


def write_scripts(folder, seed, kind, *wanted):
    """Writes all scripts of a seed and a type, or those wanted, and returns their names in the order of scripts.py."""
    ran = subprocess.run(python([f"{OPENVDB}/scripts.py", folder, seed, kind, *wanted]), capture_output=True, text=True)
    if ran.returncode:
        raise Failed(f"bench/openvdb/scripts.py failed: {ran.stderr.strip()}")
    return sorted(os.listdir(folder), key=lambda name: os.stat(f"{folder}/{name}").st_mtime_ns)


class Player:
    """A program with a folder of its own, which plays one script: that of a seed in each run."""

    def __init__(self, command, folder, scripts):
        os.makedirs(folder, exist_ok=True)
        self.answers, self.calls = f"{folder}/answers", []
        for number, script in enumerate(scripts):
            own = f"{folder}/{number}"
            os.makedirs(own, exist_ok=True)
            self.calls.append(([*command, *options(command, script, own)], script))

    def __call__(self, number):
        command, script = self.calls[number % len(self.calls)]
        return play_well(command, script, self.answers)


def commands_of():
    """Returns the command of each series."""
    peer = programs.peer("openvdb")
    one = [peer, "--threads", "1"]
    return {"vdb": [vdb()], "one": one, "all": [peer, "--threads", "all"], "keeps": [*KEEP, *one]}


def measure_script(name, commands, folder, scripts, starts, runs):
    """Plays a script on all programs in turn, and returns its row. `starts` has the seconds of their starts."""
    players = {key: Player(command, f"{folder}/{key}", scripts) for key, command in commands.items()}
    same = True

    def play_last(number):
        nonlocal same
        run = players["keeps"](number)
        same = same and all(filecmp.cmp(players["vdb"].answers, players[key].answers, shallow=False) for key in commands if key != "vdb")
        return run

    found = in_turn({**players, "keeps": play_last}, runs)
    same = same and {run.status for run in found["vdb"]} == {run.status for run in found["one"]}
    peaks = [max(run.peak for run in found[key]) / 1e6 for key in ("vdb", "one")]
    series, raw = net(found, starts)
    memory = {"Peak MB, vdb": f"{peaks[0]:.0f}", "Peak MB, OpenVDB": f"{peaks[1]:.0f}", "Answers": "same" if same else "DIFFER"}
    return row(name, "s", series, **{"Raw": raw}, **memory)


def measure(runs, quick):
    commands, rows, failed = commands_of(), [], []
    kinds, seeds = (("i32",), SEEDS[:1]) if quick else (("i32", "i64"), SEEDS)
    with room() as folder:
        sets = {(kind, seed): f"{folder}/{kind}-{seed}" for kind in kinds for seed in seeds}
        for (kind, seed), place in sets.items():
            names = write_scripts(place, seed, kind)
        nothing = write(f"{folder}/nothing", [])
        starts = starts_of({key: lambda _, command=command: play_well(command, nothing) for key, command in commands.items()}, runs)
        for kind in kinds:
            for number, name in enumerate(names, 1):
                title = f"{name.removesuffix('.script')} {kind}"
                tell(f"script {title}", number, len(names))
                try:
                    scripts = [f"{sets[kind, seed]}/{name}" for seed in seeds]
                    rows.append(measure_script(title, commands, f"{folder}/run", scripts, starts, runs))
                except Failed as failure:
                    failed.append(f"{title}: {failure}")
    note = (
        "A run of each program, in seconds, without its start: the median of runs of an empty script"
        f" ({starts['vdb'] * 1e3:.1f} ms for vdb, {starts['one'] * 1e3:.1f} ms for OpenVDB on one thread). `Raw` has the medians of vdb and of OpenVDB on one"
        " thread with it. The runs take the scripts of two seeds in turn. The program over OpenVDB carries out the same commands. In the last series it"
        " keeps up to 511 MiB of freed memory, as vdb does."
    )
    failed += [f"{it['name']}: the answers differ" for it in rows if it["more"]["Answers"] != "same"]
    return [{**table("Scripts", note, rows, KEEPING), "failed": failed}]
