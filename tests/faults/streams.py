#!/usr/bin/env python3
# SPDX-License-Identifier: Apache-2.0
"""Standard streams that are closed, full or read no more, folders in place of files, and no permission: streams.py [PROGRAM..]"""
import os
import shutil
import signal
import subprocess
import sys
import tempfile
from pathlib import Path
from program import PROGRAM, TIMEOUT, Run, Tally, content
from savers import OLD, ROW, TOP, listed, with_numpy

TALLY = Tally("streams")
PATIENCE = max(TIMEOUT, 280)
NOBODY = {"user": 65_534, "group": 65_534, "extra_groups": []} if os.geteuid() == 0 else {}


def close(*numbers):
    """Returns the options of a program that begins with these streams closed."""
    return {"preexec_fn": lambda: [os.close(number) for number in numbers]}


def unread():
    """Returns a pipe whose reader is gone."""
    reader, writer = os.pipe()
    os.close(reader)
    return writer


class Place:
    """A folder with copies of the programs, which another user may run, and with the files of one run."""

    def __init__(self, holder):
        self.folder = Path(holder).resolve()
        self.folder.chmod(0o755)
        self.python = with_numpy() or sys.exit("there is no Python with NumPy")
        if os.path.exists(PROGRAM):
            shutil.copy(PROGRAM, self.folder / "vdb")
        shutil.copy(TOP / "tools" / "vdb-run", self.folder)
        shutil.copytree(TOP / "python" / "vdb", self.folder / "python" / "vdb", ignore=shutil.ignore_patterns("__pycache__"))
        self.own = self.folder / "own"

    def words(self, program):
        """Returns the words that run a program: the player, and two commands of vdb-scene."""
        files = ["--load", self.own / "load", "--save", self.own / "save"]
        scene = [self.python, "-m", "vdb"]
        return {
            "vdb": [self.folder / "vdb", *files],
            "vdb-run": [self.python, self.folder / "vdb-run", "--vdb", self.folder / "vdb", *files],
            "info": [*scene, "info", self.own / "load"],
            "merge": [*scene, "merge", self.own / "load", self.own / "load", self.own / "save", "--prefer", "a"],
            "picture": [*scene, "picture", self.own / "save"],
        }[program]

    def begin(self, script):
        """Makes the files anew."""
        shutil.rmtree(self.own, ignore_errors=True)
        self.own.mkdir(mode=0o777)
        self.own.chmod(0o777)
        for name, data in (("load", ROW.load), ("script", script), ("save", OLD)):
            (self.own / name).write_bytes(data)
        (self.own / "save").chmod(0o666)

    def run(self, program, more, **options):
        """Runs a program with these further words. Returns the run, with the files that it made, changed or removed."""
        before = listed(self.own)
        given = {"stdin": subprocess.DEVNULL, "stdout": subprocess.PIPE, "stderr": subprocess.PIPE, "cwd": self.folder, **options}
        environment = {"PATH": os.environ["PATH"], "PYTHONPATH": str(self.folder / "python"), "TMPDIR": str(self.own)}
        done = subprocess.run([*self.words(program), *more], env=environment, timeout=PATIENCE, check=False, **given)
        save = self.own / "save"
        saved = content(save) if save.is_file() else None
        return Run(done.returncode, done.stdout or b"", done.stderr, saved, left=listed(self.own) ^ before)


def check(place, program, what, status, told, more=(), script=ROW.script, prepare=lambda own: None, saved=OLD, **options):
    """Runs a program after `prepare`, and checks its status, what it tells and what is saved."""
    place.begin(script)
    prepare(place.own)
    done = place.run(program, [place.own / it for it in more], **options)
    text = done.errors.decode("utf-8", "replace").replace(f"{place.own}/", "")
    lines = text.splitlines()
    TALLY.check(done.status == status, f"{program}, {what}: status {done.status}, {text!r}")
    TALLY.check(told in lines if told else not lines, f"{program}, {what}: {text!r}")
    TALLY.check(len(lines) <= 2, f"{program}, {what}: {text!r}")
    TALLY.check(done.saved == saved and not done.left, f"{program}, {what}: saved is {done.saved!r}, with {done.left}")


def player(place, program):
    """vdb, and vdb-run, which names files and reasons."""
    own = program == "vdb"

    def told(part, word, name, reason):
        return f"vdb: {part}: {word}" if own else f"vdb-run: {name}: {part}: {word} ({reason})"

    def case(what, status, line, **more):
        check(place, program, what, status, line, **more)

    def answers(reason):
        return told("answers", "write", "standard output", reason)

    named = {"more": ["script"]}
    with open("/dev/full", "wb") as full:
        case("standard output is full", 4, answers("No space left on device"), stdout=full, **named)
    case("standard output is closed", 4, answers("Bad file descriptor"), **named, **close(1))
    case("standard input is closed", 4, told("script", "read", "<stdin>", "Bad file descriptor"), **close(0))
    case("standard input and error are closed", 0, None, saved=ROW.saved, **named, **close(0, 2))
    case("all streams are closed", 4, None, **named, **close(0, 1, 2))
    for name, status, part, word in (("load", 3, "load", "read"), ("script", 4, "script", "read"), ("save", 4, "save", "write")):
        saved = None if name == "save" else OLD
        line = told(part, word, name, "Is a directory")
        case(f"a folder to {part}", status, line, prepare=lambda own, it=name: in_place(own / it), saved=saved, **named)
        line = told(part, word, name, "Permission denied")
        case(f"no permission to {part}", status, line, prepare=lambda own, it=name: (own / it).chmod(0), **named, **NOBODY)
    line = told("save", "write", "save", "Permission denied")
    case("no permission for the folder", 4, line, prepare=without_save, saved=None, **named, **NOBODY)
    unheard(place, program)


def unheard(place, program):
    """Nobody reads the answers, from the first byte on or after the first one. That is a write fault, whether or not the signal is ignored."""
    for what, reads in (("at all", 0), ("on", 1)):
        for ignored in (False, True):
            place.begin(ROW.script * 2_000)
            reader, writer = os.pipe()
            words = [*place.words(program), place.own / "script"]
            given = {"preexec_fn": lambda: signal.signal(signal.SIGPIPE, signal.SIG_IGN)} if ignored else {}
            child = subprocess.Popen(words, stdin=subprocess.DEVNULL, stdout=writer, stderr=subprocess.PIPE, cwd=place.folder, **given)
            os.close(writer)
            first = os.read(reader, reads)
            os.close(reader)
            text, how = child.communicate(timeout=PATIENCE)[1], f"{program}, nobody reads {what}{', SIGPIPE ignored' if ignored else ''}"
            TALLY.check(child.returncode == 4, f"{how}: status {child.returncode}, {text!r}")
            TALLY.check(b"answers: write" in text, f"{how}: {text!r}")
            TALLY.check(ROW.answered.startswith(first) and len(first) == reads, f"{how}: {first!r}")
            TALLY.check(content(place.own / "save") == OLD, f"{how}: another file is saved")


def in_place(path):
    """Puts a folder in place of a file."""
    path.unlink()
    path.mkdir()


def without_save(own):
    """Leaves no file to save in, and a folder that nobody may write."""
    (own / "save").unlink()
    own.chmod(0o555)


def vdb_scene(place):
    closed = "vdb-scene: standard input or output is closed"
    with open("/dev/full", "wb") as full:
        check(place, "info", "standard output is full", 1, "vdb-scene: No space left on device", stdout=full)
    check(place, "info", "standard output is closed", 1, closed, **close(1))
    check(place, "info", "all streams are closed", 1, None, **close(0, 1, 2))
    check(place, "info", "nobody reads", 1, closed, stdout=unread())
    check(place, "picture", "standard input is closed", 1, closed, **close(0))
    check(place, "merge", "all streams are closed", 0, None, saved=ROW.saved, **close(0, 1, 2))
    check(place, "merge", "a folder to load", 1, "vdb-scene: load: Is a directory", prepare=lambda own: in_place(own / "load"))
    folder = "vdb-scene: save: Is a directory"
    check(place, "merge", "a folder to save", 1, folder, prepare=lambda own: in_place(own / "save"), saved=None)
    for name in ("load", "save"):
        denied = f"vdb-scene: {name}: Permission denied"
        check(place, "merge", f"no permission to {name}", 1, denied, prepare=lambda own, it=name: (own / it).chmod(0o400), **NOBODY)
    denied = "vdb-scene: save: Permission denied"
    check(place, "merge", "no permission for the folder", 1, denied, prepare=without_save, saved=None, **NOBODY)


def main():
    with tempfile.TemporaryDirectory(prefix="streams-") as holder:
        place = Place(holder)
        for name in sys.argv[1:] or ["vdb", "vdb-run", "vdb-scene"]:
            vdb_scene(place) if name == "vdb-scene" else player(place, name)
        place.own.chmod(0o755)
    TALLY.end()


if __name__ == "__main__":
    main()
