# SPDX-License-Identifier: Apache-2.0
"""Mutated files of other programs' formats: the Python package must return a grid or raise a VdbError, in little memory and time.

A format is a line of the package's table `vdb.formats.FORMATS`, and files that the package writes are its seeds. Each format is read in a
process of its own, which may take MEMORY more bytes of address space."""
import contextlib
import gzip
import multiprocessing
import random
import re
import resource
import shutil
import signal
import tempfile
import warnings
from pathlib import Path

import numpy as np

from drivers import vdb
from mutating import bytes_changed
from vdb import formats

MEMORY = 1 << 30
MOST = 1 << 27  # bytes of arrays that a reader may make
PATIENCE = 10  # processor seconds for one file
EXTREMES = [0, 1, 2, 3, 255, 256, 32_767, 65_535, 2**31 - 1, 2**31, 2**32 - 1, 2**63 - 1, 2**64 - 1]
ARRAYS = [("bool", (5, 4, 3), None), ("i32", (8, 8, 8), "uint8"), ("i64", (17, 2, 9), None), ("i32", (1, 1, 1), "int16")]
WORDS = [b"raw", b"gzip", b"ascii", b"hex", b"little", b"big", b"none", b"int8", b"uint64", b"float", b"Int16", b"Float64", b"LittleEndian"]
WORDS += [b"BigEndian", b"appended", b"binary", b"True", b"|b1", b">i8", b"<f4", b"|O", b"nan", b"inf", b"../data", b"/dev/zero"]


class TooSlow(Exception):
    """Reading a file took more than PATIENCE processor seconds."""


def late(_number, _frame):
    raise TooSlow


def seeds(ending, folder):
    """Returns the bytes of files of a format that the package writes."""
    made = []
    for number, (kind, shape, dtype) in enumerate(ARRAYS):
        path, high = folder / f"seed{number}{ending}", [side - 2 for side in shape]
        values = np.random.RandomState(number).randint(0, 2, shape).astype(vdb.scenefile.Grid(kind).dtype)
        grid = vdb.scenefile.Grid.from_array(values, origin=(-1, -1, -1))
        with contextlib.suppress(vdb.VdbError):  # a format may lack a type
            formats.save(path, grid, bounds=((-1, -1, -1), high), dtype=dtype)
            made.append(stored(path) if path.is_dir() else path.read_bytes())
    if ending == ".nhdr":
        return detached(seeds(".nrrd", folder), folder)
    return made + [raw for text in made if isinstance(text, bytes) for raw in raw_nrrd(text)]


def stored(folder):
    """Returns the bytes of the files of a store, by their paths in it."""
    return {path.relative_to(folder): path.read_bytes() for path in sorted(folder.rglob("*")) if path.is_file()}


def write_mutated(chance, path, given):
    """Writes a mutated file, or a store with one such file."""
    if isinstance(given, bytes):
        path.write_bytes(mutated(chance, given))
        return
    shutil.rmtree(path, ignore_errors=True)
    changed = chance.choice([*given])
    for name, data in given.items():
        (path / name).parent.mkdir(parents=True, exist_ok=True)
        (path / name).write_bytes(mutated(chance, data) if name == changed else data)


def raw_nrrd(text):
    """Yields an NRRD file without compression."""
    head, _, data = text.partition(b"\n\n")
    if head.startswith(b"NRRD") and b"encoding: gzip" in head:
        yield head.replace(b"encoding: gzip", b"encoding: raw") + b"\n\n" + gzip.decompress(data)


def detached(texts, folder):
    """Returns the headers of NRRD files, with their values in other files."""
    made = []
    for number, text in enumerate(texts):
        head, _, data = text.partition(b"\n\n")
        (folder / f"data{number}").write_bytes(data)
        made.append(head + f"\ndata file: data{number}\n\n".encode())
    return made


def header_changed(chance, data):
    """Returns a file with a number or a word of its header changed: in a text, or 2, 4 or 8 bytes at a multiple of 2."""
    head = data[:600]
    tokens = [*re.finditer(rb"-?[0-9]+|[<>|]?[A-Za-z][a-z0-9]+", head)]
    if tokens and chance.random() < 0.5:
        found = chance.choice(tokens)
        new = str(chance.choice([*EXTREMES, -1, 10**30])).encode() if found[0].strip(b"-").isdigit() else chance.choice(WORDS)
        return data[: found.start()] + new + data[found.end() :]
    at, size = chance.randrange(0, max(1, len(head)), 2), chance.choice([2, 4, 8])
    number = chance.choice(EXTREMES) % (1 << 8 * size)
    return data[:at] + number.to_bytes(size, chance.choice(["little", "big"])) + data[at + size :]


def mutated(chance, data):
    """Returns a file with some bytes or numbers changed, those inside a compressed file too."""
    if data[:2] == b"\x1f\x8b" and chance.random() < 0.7:
        return gzip.compress(mutated(chance, gzip.decompress(data)), 1)
    for _ in range(chance.choice([1, 1, 2, 3])):
        data = header_changed(chance, data) if chance.random() < 0.6 else bytes_changed(chance, data)
    return data


def fault_of(path):
    """Returns why reading a file is wrong, or an empty text."""
    signal.signal(signal.SIGPROF, late)
    signal.setitimer(signal.ITIMER_PROF, PATIENCE)
    try:
        grid = formats.load(path, vdb.scenefile.Grid, max_bytes=MOST)
        return "" if isinstance(grid.count, int) else "no grid"
    except vdb.VdbError as error:
        return "" if str(error) and not isinstance(error, MemoryError) else f"{error!r}"
    except BaseException as error:  # whatever else is raised is what this looks for
        return f"{type(error).__name__}: {error}"
    finally:
        signal.setitimer(signal.ITIMER_PROF, 0)


def read_all(ending, seed, counts, told):
    """Reads mutated files of a format, by their numbers, and sends how many were read and each fault."""
    warnings.simplefilter("ignore")  # those of NumPy, for the packages that read a format
    limit = MEMORY + resource.getpagesize() * int(Path("/proc/self/statm").read_text().split()[0])
    resource.setrlimit(resource.RLIMIT_AS, (limit, limit))
    with tempfile.TemporaryDirectory(prefix="volumes-") as holder:
        folder = Path(holder)
        pool = seeds(ending, folder)
        path = folder / f"file{ending}"
        for number in counts if pool else ():
            told.send(("begun", number, ""))
            chance = random.Random(f"{seed} {ending} {number}")
            write_mutated(chance, path, chance.choice(pool))
            told.send(("ended", number, fault_of(path)))


def check(seed, counts):
    """Reads mutated files of each format. Returns how many were read, and the faults."""
    read, faults = 0, []
    for ending in formats.FORMATS:
        here, there = multiprocessing.Pipe(False)
        child = multiprocessing.Process(target=read_all, args=(ending, seed, counts, there))
        child.start()
        there.close()
        before, last = read, "no file"
        try:
            while True:
                word, last, fault = here.recv()
                read += word == "ended"
                if fault:
                    faults.append(f"{seed}:{ending}:{last}: {fault}")
        except EOFError:
            child.join()
        if child.exitcode or read == before:
            faults.append(f"{seed}:{ending}:{last}: the reader ended with {child.exitcode}, {read - before} files were read")
    return read, faults
