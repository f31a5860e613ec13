# SPDX-License-Identifier: Apache-2.0
"""What all parts share: rows and tables, runs in turn, and folders for what is made meanwhile.

A part returns tables. A table has a title, a note, the headings of its series, the series that the ratio is by and its peer's name, and rows;
a row has a name, a unit, and for each series the figures of all runs. All of it is plain lists and dictionaries, as in results.json.
"""
import contextlib
import os
import shutil
import sys
import tempfile
from statistics import median

from .programs import say

# the series of a table of times
THREADS = {"vdb": "vdb", "one": "OpenVDB, one thread", "all": "OpenVDB, all threads"}
KEEPING = {**THREADS, "keeps": "OpenVDB, keeping freed memory"}

# starts a program whose allocator keeps up to 511 MiB of freed memory, and maps no block by itself, as that of vdb does
KEEP = ["env", f"GLIBC_TUNABLES=glibc.malloc.trim_threshold={511 << 20}:glibc.malloc.mmap_max=0"]

# the least runs by which the start of a program is measured, since it is short
STARTS = 9

# the room that the files of a part need at most, in bytes
ROOM = 3_000_000_000


def table(title, note, rows, headings=None, base="one", peer="OpenVDB"):
    return {"title": title, "note": note, "headings": headings or THREADS, "base": base, "peer": peer, "rows": rows}


def row(name, unit, series, unlike=None, **more):
    """Returns a row. `unlike` says why its two sides do not do the same, if so; `more` has the further columns, each with its text."""
    return {"name": name, "unit": unit, "series": series, "unlike": unlike, "more": more}


def in_turn(players, runs):
    """Calls each player once a run, one after another, and returns what each gave: a list for each key."""
    found = {key: [] for key in players}
    for number in range(runs):
        for key, player in players.items():
            found[key].append(player(number))
    return found


def starts_of(players, runs):
    """Returns the median seconds that each of these programs takes to start and end: each player runs its program with nothing to do."""
    return {key: median([run.seconds for run in series]) for key, series in in_turn(players, max(runs, STARTS)).items()}


def net(found, starts):
    """Returns the seconds of each run without those of the start, and a text of both medians with them for the column `Raw`."""
    raw = " / ".join(f"{median([run.seconds for run in found[key]]):.3g}" for key in ("vdb", "one"))
    return {key: [max(0, run.seconds - starts[key]) for run in series] for key, series in found.items()}, raw


@contextlib.contextmanager
def room():
    """Makes a folder that goes at the end, in memory if there is room, so that no disk is measured."""
    shared = "/dev/shm"
    in_memory = os.access(shared, os.W_OK) and shutil.disk_usage(shared).free > 2 * ROOM
    with tempfile.TemporaryDirectory(prefix="bench-", dir=shared if in_memory else None) as folder:
        yield folder


def write(path, lines):
    """Writes a script, and returns its path."""
    with open(path, "w", encoding="ascii") as file:
        file.writelines(f"{line}\n" for line in lines)
    return path


def tell(name, number, count):
    """Prints which row is measured."""
    say(f"{name} ({number} of {count})")


def python(words):
    """Returns the command that runs a script of Python."""
    return [sys.executable, *words]
