# SPDX-License-Identifier: Apache-2.0
"""What CI proved on this machine, kept between runs in the folder VDB_KEPT, else ~/.cache/vdb-ci.

An entry is a folder with what a proof left in crates/NAME/out. Its name is a sum of all that the proof depends on, so a run takes from here
only what it would prove again in the same way. No failure is kept.
"""
import hashlib
import os
import shutil
import tempfile
import time

from crates import crates_below, named_by

FOLDER = os.environ.get("VDB_KEPT") or os.path.expanduser("~/.cache/vdb-ci")
DAYS, BYTES = 14, 6_000_000_000  # an entry that no run used for so long, or that is the oldest beyond so much, goes
SOURCES = ("src", "specs", "proofs")


def files_in(folder):
    """The files at or below a folder, sorted."""
    return sorted(f"{at}/{name}" for at, _, names in os.walk(folder) for name in names)


def key_of(root, kit, name, action):
    """The sum of all that an action on a crate depends on: the kit, the handles allowed, the crate's line of crates.txt, its files, and the
    libraries below: rattle writes a sum of a library into its file `format`, and reads no library that differs from it."""
    with open(f"{root}/crates.txt", encoding="utf-8") as file:
        line = next(it for it in file if it.partition(":")[0].split()[:1] == [name])
    below = sorted(crates_below(name, named_by(root)))
    files = [f"{kit}/KIT-ID", f"{root}/HANDLES", *(f"{root}/crates/{it}/out/rlib/{it}.rlib/format" for it in below)]
    files += [file for part in SOURCES for file in files_in(f"{root}/crates/{name}/{part}")]
    total = hashlib.sha256(f"{action} {line}".encode())
    for path in files:
        with open(path, "rb") as file:
            text = file.read()
        total.update(f"{os.path.relpath(path, root if path.startswith(root) else kit)} {len(text)}\0".encode() + text)
    return total.hexdigest()


def made(key, make, folder, names, anew, out):
    """Takes what is kept into a folder, unless anew is set, or else makes it there by a call, keeps what then has one of these names, and
    returns the status. The call key gives the sum: nothing is kept if it has changed, since a file was edited meanwhile."""
    before = key()
    if not anew and take(before, folder):
        print("kept from an earlier run on this machine", file=out, flush=True)
        return 0
    status = make()
    if not status and key() == before:
        keep(before, [f"{folder}/{name}" for name in names if os.path.exists(f"{folder}/{name}")])
    elif not status:
        print("not kept: a file that this depends on changed meanwhile", file=out, flush=True)
    return status


def take(key, folder):
    """Copies the entry of a key into a folder, in the place of what has its names, and returns whether there is one."""
    place = f"{FOLDER}/{key}"
    if not os.path.isdir(place):
        return False
    os.utime(place)
    os.makedirs(folder, exist_ok=True)
    for name in os.listdir(place):
        shutil.rmtree(f"{folder}/{name}", ignore_errors=True)
        copy(f"{place}/{name}", f"{folder}/{name}")
    return True


def keep(key, files):
    """Keeps files and folders as the entry of a key: all of them or none."""
    os.makedirs(FOLDER, exist_ok=True)
    with tempfile.TemporaryDirectory(prefix="new-", dir=FOLDER) as room:
        os.mkdir(f"{room}/made")
        for file in files:
            copy(file, f"{room}/made/{os.path.basename(file)}")
        shutil.rmtree(f"{FOLDER}/{key}", ignore_errors=True)
        os.rename(f"{room}/made", f"{FOLDER}/{key}")


def copy(source, place):
    """Copies a file or a folder. The copies are new: a library is then newer than those below it, which were copied before."""
    if os.path.isdir(source):
        shutil.copytree(source, place, copy_function=shutil.copyfile)
    else:
        shutil.copyfile(source, place)
        shutil.copymode(source, place)


def prune():
    """Removes what no run used for DAYS, and then the longest unused until the rest has at most BYTES."""
    entries = sorted((os.path.getmtime(it.path), it.path) for it in os.scandir(FOLDER)) if os.path.isdir(FOLDER) else []
    total = 0
    for used, place in reversed(entries):
        total += sum(os.path.getsize(file) for file in files_in(place))
        if used < time.time() - 86_400 * DAYS or total > BYTES:
            shutil.rmtree(place, ignore_errors=True)
