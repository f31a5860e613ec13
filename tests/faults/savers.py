# SPDX-License-Identifier: Apache-2.0
"""The programs that load and save files. Each plays one row: it loads the scene of the row and saves it, in a folder of its own."""
import atexit
import contextlib
import json
import os
import shutil
import subprocess
import sys
import tempfile
from dataclasses import dataclass, field, replace
from pathlib import Path

from program import FAST, HERE, PROGRAM, TIMEOUT, Run, Workplace, content, counts, remove
import encoding
import vectors

TOP = HERE.parents[1]
sys.path.append(str(TOP / "tests" / "c"))
from test_libvdb import with_numpy  # noqa: E402

CONVERTERS = TOP / "tools" / "openvdb"
ROW, OLD = vectors.SCENES["tiles of each level"], vectors.ACTIVE
#: what a program may save to: nothing, an old file behind a link, and a pipe
PLACES = ("link", "nothing", "pipe")
#: what vdb-run starts in place of vdb, so that only the child has the shim
WITH_SHIM = '#!/bin/sh\nLD_PRELOAD="$SHIM" exec "$PROGRAM" "$@"\n'
#: the folder of a run
HOLDER = tempfile.TemporaryDirectory(prefix="faults-", dir=FAST)
OWN = Path(HOLDER.name).resolve() / "own"
os.umask(0o022)


@dataclass
class Saver:
    """A program: its words, in which LOAD, SAVE and SCRIPT stand for files, and its statuses after a fault. `answers` is what it prints,
    `saved` what it must save over `old`. It saves `in_place` or by a new file; the faults may be those of the program `in_child` alone. One
    that `runs_vdb` may drop the error of closing a file, which `vdb` drops; the fsync of vdb-run tells a disk's."""

    name: str
    place: Workplace
    words: list
    statuses: tuple
    answers: bytes = b""
    load: bytes = ROW.load
    saved: bytes = ROW.saved
    old: bytes = OLD
    places: tuple = PLACES
    in_place: bool = False
    in_child: bool = False
    runs_vdb: bool = False

    def play(self, at="nothing", **injected) -> Run:
        """Runs the program, which saves where `nothing` is, an old file behind a `link`, or a `pipe`. Returns the run, with its calls on
        its own files and the files that it made, changed or removed."""
        own, report, log = OWN, *(str(self.place.folder / it) for it in ("report", "log"))
        remove(log)
        paths = {"LOAD": own / "load.npy", "SAVE": own / "save.vdbs", "SCRIPT": own / "script"}  # their ends matter to vdb-scene alone
        shutil.rmtree(own, ignore_errors=True)
        for folder in ("tmp", "behind"):
            (own / folder).mkdir(parents=True)
        paths["LOAD"].write_bytes(self.load)
        paths["SCRIPT"].write_bytes(ROW.script)
        with place_at(paths["SAVE"], at, self.old) as saved:
            before = listed(own)
            words = [str(paths.get(word, word)) for word in self.words]
            if self.in_child:
                remove(report)
                injected = {"report": report, "shim": self.place.shim, "program": PROGRAM, **injected}
            injected = {"calls_below": own, "tmpdir": own / "tmp", "call_log": log, **injected}
            done = self.place.execute(words, paths["SCRIPT"], counted=not self.in_child, **injected)
            calls = [line.split()[0] for line in (content(log) if os.path.exists(log) else b"").decode().splitlines()]
            return replace(done, saved=saved(), left=listed(own) ^ before, counts=counts(report), calls=calls)

    def is_new(self, saved):
        """Returns whether these bytes are what the program must save. A .vdb file has an identifier of its own, and is converted back."""
        if saved is None or self.name != "vdbs2vdb":
            return saved == self.saved
        return converted("vdb2vdbs", saved, self.place.folder) == self.saved


class Copies(Workplace):
    """A workplace for programs in Python, which copies.py carries out."""

    def __init__(self):
        super().__init__(with_numpy() or sys.exit("there is no Python with NumPy"))
        more = {"LD_PRELOAD": str(self.shim), "PYTHONPATH": str(TOP / "python"), "OPENBLAS_NUM_THREADS": "1"}
        words = [self.program, HERE / "copies.py"]
        self.process = subprocess.Popen(words, stdin=subprocess.PIPE, stdout=subprocess.PIPE, env={**os.environ, **more})
        atexit.register(self.end)

    def end(self):
        self.process.stdin.close()
        self.process.wait(TIMEOUT)

    def status(self, words, environment, streams, seconds):
        self.process.stdin.write(json.dumps([words[1:], environment, streams, seconds], default=str).encode() + b"\n")
        self.process.stdin.flush()
        return int(self.process.stdout.readline())


@contextlib.contextmanager
def place_at(path, what, old):
    """Puts nothing, a link to an old file or a pipe at this path. Yields a call that returns what a program has written there."""
    if what == "pipe":
        os.mkfifo(path)
        pipe = os.open(path, os.O_RDWR | os.O_NONBLOCK)  # so that a program that opens it doesn't wait
        yield lambda: b"".join(read_all(pipe))
        os.close(pipe)
        return
    if what == "link":
        path.symlink_to("behind/save.vdbs")
        path.write_bytes(old)
        path.chmod(0o604)
    yield lambda: content(path) if path.exists() else None


def read_all(pipe):
    """Yields what a pipe holds."""
    with contextlib.suppress(BlockingIOError):
        while True:
            yield os.read(pipe, 65_536)


def numbered(names):
    """Returns each call by its name, and the how-manieth of this name it is."""
    return [(name, names[: at + 1].count(name)) for at, name in enumerate(names)]


def listed(folder):
    """Returns the files below a folder, each with its permissions or with where it leads."""
    found = set()
    for path in folder.rglob("*"):
        name = path.relative_to(folder)
        if path.is_symlink():
            found.add(f"{name} -> {os.readlink(path)}")
        elif not path.is_dir():
            found.add(f"{name} {path.stat().st_mode & 0o7777:o}")
    return found


def converted(program, given, folder):
    """Returns what a converter makes of these bytes."""
    (folder / "given").write_bytes(given)
    subprocess.run([CONVERTERS / program, folder / "given", folder / "made"], check=True, timeout=TIMEOUT)
    return (folder / "made").read_bytes()


def vdb():
    return Saver("vdb", Workplace(), ["--load", "LOAD", "--save", "SAVE", "SCRIPT"], (3, 4), ROW.answered, in_place=True, runs_vdb=True)


def vdb_run():
    words = [TOP / "tools" / "vdb-run", "--vdb", PROGRAM, "--load", "LOAD", "--save", "SAVE", "SCRIPT"]
    return Saver("vdb-run", Copies(), words, (2, 3, 4), ROW.answered, runs_vdb=True)


def child():
    place = Copies()
    program = place.folder / "vdb-with-shim"
    program.write_text(WITH_SHIM, encoding="ascii")
    program.chmod(0o700)
    words = [TOP / "tools" / "vdb-run", "--vdb", program, "--load", "LOAD", "--save", "SAVE", "SCRIPT"]
    return Saver("vdb below vdb-run", place, words, (3, 4), ROW.answered, in_child=True, runs_vdb=True)


def cpp():
    place = Workplace(sys.executable)
    place.program = str(place.folder / "resave")
    library = TOP / "out" / "lib" / "libvdb.a"
    subprocess.run(["g++", "-std=c++17", "-I", TOP / "include", HERE / "resave.cpp", library, "-o", place.program], check=True)
    return Saver("C++", place, ["LOAD", "SAVE"], (1,))


# the statuses of a program in Python that fails: 120 if what it tells is lost, since all later writes fail too
LOST = (1, 120)


def library():
    return Saver("vdb in Python", Copies(), [HERE / "resave.py", "vdb", "LOAD", "SAVE"], LOST)


def scenefile():
    return Saver("vdb.scenefile", Copies(), [HERE / "resave.py", "vdb.scenefile", "LOAD", "SAVE"], LOST)


def vdb_scene():
    """Adds a grid of an array to a file that has another one, as the row says: a voxel of 7 that isn't active. The grid also tells of the
    array: its type, its sides and its first voxel."""
    place, both = Copies(), encoding.load(vectors.TWO)
    of_array = [(b"image_array", b"int64,1,1,1"), (b"image_low", b"-1,-1,-1")]
    saved = encoding.save([replace(grid, pairs=of_array) if grid.name == b"a" else grid for grid in both])
    mask = place.folder / "mask.npy"
    mask.write_bytes(npy("|b1", b"\0"))
    words = ["vdb-scene", "convert", "LOAD", "SAVE", "--grid", "a", "--active", mask]
    words += "--origin -1 -1 -1 --background -1 --limit 2".split()
    values, old = npy("<i8", (7).to_bytes(8, "little")), encoding.save([grid for grid in both if grid.name != b"a"])
    return Saver("vdb-scene", place, words, LOST, load=values, saved=saved, old=old, places=("link",))


def npy(kind, data):
    """Returns the file of an array of one voxel."""
    head = f"{{'descr': '{kind}', 'fortran_order': False, 'shape': (1, 1, 1), }}".ljust(117) + "\n"
    return b"\x93NUMPY\1\0" + len(head).to_bytes(2, "little") + head.encode() + data


def converter(name):
    subprocess.run(["flock", CONVERTERS, "make", "-s", "-C", CONVERTERS, "all"], check=True)
    return Saver(name, Workplace(CONVERTERS / name), ["LOAD", "SAVE"], (1,))


def vdbs2vdb():
    return converter("vdbs2vdb")


def vdb2vdbs():
    made = converter("vdb2vdbs")
    return replace(made, load=converted("vdbs2vdb", ROW.load, made.place.folder))


SAVERS = {it.__name__: it for it in (vdb, vdb_run, child, cpp, library, scenefile, vdb_scene, vdbs2vdb, vdb2vdbs)}
