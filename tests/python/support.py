# SPDX-License-Identifier: Apache-2.0
"""What the tests share: the program, the command vdb-scene in this process, the independent reader of scene files, and grids by voxels."""
import contextlib
import io
import os
import random
import subprocess
import sys
import tempfile
import unittest
from pathlib import Path

TOP = Path(__file__).resolve().parents[2]
sys.path[:0] = [str(TOP / "python"), str(TOP / "tests" / "rows"), str(TOP / "tests" / "fuzz")]

try:
    import numpy as np
except ImportError as error:
    raise unittest.SkipTest("NumPy is missing") from error

import encoding  # noqa: E402
import vdb  # noqa: E402
from vdb import scenefile  # noqa: E402
from vdb.command import main  # noqa: E402
from vdb.library import LIBRARY  # noqa: E402

PROGRAM = os.environ.get("VDB", str(TOP / "crates" / "vdb" / "out" / "vdb"))
EXTREMES = {
    "bool": [False, True],
    "i32": [0, 1, -1, 5, 2**31 - 1, -(2**31)],
    "i64": [0, 1, -1, 5, 2**31, 2**63 - 1, -(2**63)],
}
DTYPES = {"bool": np.bool_, "i32": np.int32, "i64": np.int64}

needs_program = unittest.skipUnless(os.access(PROGRAM, os.X_OK), f"there is no program {PROGRAM}: name one in VDB")


def library_missing():
    """Why the library can't be used, or an empty text."""
    try:
        return "" if LIBRARY.vdb_grid_new else ""
    except ImportError as error:
        return str(error)


def cell(grid, at):
    """The value and the state of a voxel."""
    return grid[at], grid.active[at]


def rows(labels):
    """Labels as a list of a value, a number and a bounding box each."""
    columns = (column.tolist() for column in labels)
    return [(value, count, (tuple(low), tuple(high))) for value, count, low, high in zip(*columns)]


def verdict(data):
    """The word of the fault that the package finds, or the bytes that it saves after loading these."""
    try:
        return scenefile.loads(data).to_bytes()
    except vdb.FormatError as fault:
        return fault.fault


def play(script, *words):
    """Plays a script by the program. Returns its answers. Raises CalledProcessError if the run has a fault (a status but 0 and 1)."""
    run = subprocess.run([PROGRAM, *words], input=script, stdout=subprocess.PIPE, stderr=subprocess.PIPE, timeout=300)
    if run.returncode not in (0, 1):
        raise subprocess.CalledProcessError(run.returncode, run.args, run.stdout, run.stderr)
    return run.stdout.decode()


def made_by_program(script):
    """The scene file that a script makes, and the answers of the script."""
    with tempfile.TemporaryDirectory() as folder:
        path = f"{folder}/made.vdbs"
        answers = play(script, "--save", path)
        return Path(path).read_bytes(), answers


def random_array(chance, kind, background, low, shape):
    """Random values and states in boxes at the borders of leaf extents, some of them constant."""
    values = np.full(shape, background, DTYPES[kind])
    active = np.zeros(shape, np.bool_)
    for _ in range(chance.randint(0, 6)):
        sides = []
        for at, side in zip(low, shape):
            first = chance.randint(0, side - 1)
            if chance.random() < 0.5:
                first = min(side - 1, max(0, (at + first) // 8 * 8 - at))
            sides.append(slice(first, first + chance.choice([1, 3, 8, 16, 40])))
        part = tuple(sides)
        values[part] = chance.choice(EXTREMES[kind])
        active[part] = chance.random() < 0.6
    return values, active


def boxes(values, active, low):
    """The bounding box of the active voxels by brute force, and the labels: a value to its number and bounding box."""

    def box(mask):
        places = np.argwhere(mask)
        return (
            tuple(int(a) + at for a, at in zip(places.min(axis=0), low)),
            tuple(int(a) + at for a, at in zip(places.max(axis=0), low)),
        )

    labels = [(value.item(), int((active & (values == value)).sum())) for value in np.unique(values[active])]
    return (
        box(active) if active.any() else None,
        [(value, count, box(active & (values == value))) for value, count in labels],
    )


def chance(seed):
    return random.Random(seed)


class CommandCase(unittest.TestCase):
    """Calls of the command vdb-scene in this process, in a folder of their own."""

    def setUp(self):
        holder = tempfile.TemporaryDirectory()
        self.addCleanup(holder.cleanup)
        self.folder = Path(holder.name)
        before = os.getcwd()
        self.addCleanup(os.chdir, before)
        os.chdir(self.folder)

    def called(self, *words):
        """Calls the command line in this process. Returns its status, standard output and standard error."""
        out, errors = io.StringIO(), io.StringIO()
        with contextlib.redirect_stdout(out), contextlib.redirect_stderr(errors):
            try:
                status = main([str(word) for word in words])
            except SystemExit as end:
                status = end.code
        return status, out.getvalue(), errors.getvalue()

    def run_it(self, *words, status=0):
        """Calls the command line, which must end with this status. Returns its standard output."""
        found, out, errors = self.called(*words)
        self.assertEqual(found, status, errors)
        return out

    def fails(self, *words, told):
        """Calls the command line, which must end with status 1 and one line on standard error that has this text."""
        status, out, errors = self.called(*words)
        self.assertEqual((status, out), (1, ""))
        self.assertRegex(errors, r"\Avdb-scene: [^\n]+\n\Z")
        self.assertIn(told, errors)
