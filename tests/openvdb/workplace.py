# SPDX-License-Identifier: Apache-2.0
"""A folder for the files of the tests, the programs that are run in it, and the checks that are counted."""
import os
import shutil
import subprocess
import sys
import tempfile
from pathlib import Path

CONVERTERS = ["vdb2vdbs", "vdbs2vdb"]
# what the converters with sanitizers see; an allocation of more than a gigabyte fails there
ENVIRONMENT = {**os.environ, "ASAN_OPTIONS": "max_allocation_size_mb=1024:detect_leaks=0"}


class Workplace:
    """A temporary folder with copies of the converters, and the tally of checks."""

    def __init__(self, here, ending=""):
        """`ending` is that of the converters to copy: `.cov` for those that count what runs, `.san` for those with sanitizers."""
        self.here, self.counts = here, ending == ".cov"
        self.vdb = os.path.abspath(os.environ.get("VDB", here.parents[1] / "crates" / "vdb" / "out" / "vdb"))
        if not os.access(self.vdb, os.X_OK):
            sys.exit(f"test: no program {self.vdb}: build it by 'rt run < stdin' in crates/vdb, or name one in VDB")
        self.probe = here / "probe"
        self.holder = tempfile.TemporaryDirectory(prefix="openvdb-")
        self.folder = Path(self.holder.name)
        self.programs = self.folder / "programs"
        self.programs.mkdir()
        for name in CONVERTERS:
            shutil.copy(here / f"{name}{ending}", self.programs / name)
        self.passed = self.failed = 0

    def __enter__(self):
        return self

    def __exit__(self, *_):
        self.holder.cleanup()

    def check(self, holds, what):
        """Counts one check. One that fails is printed."""
        self.passed += bool(holds)
        self.failed += not holds
        if not holds and self.failed <= 30:
            print(f"FAILED {what}", flush=True)

    def equal(self, found, wanted, what):
        self.check(found == wanted, f"{what}: {found!r}, not {wanted!r}"[:1000])

    def path(self, name):
        return str(self.folder / name)

    def write(self, name, content):
        (self.folder / name).write_bytes(content)
        return self.path(name)

    def read(self, name):
        """The bytes of a file, None if it isn't there."""
        path = self.folder / name
        return path.read_bytes() if path.exists() else None

    def without(self, name):
        (self.folder / name).unlink(missing_ok=True)

    def convert(self, program, *words, **options):
        """Runs a converter in the folder: its status, standard output and the lines of standard error."""
        words = [self.programs / program, *words]
        done = subprocess.run(words, cwd=self.folder, env=ENVIRONMENT, capture_output=True, timeout=300, check=False, **options)
        return done.returncode, done.stdout.decode(), done.stderr.decode(errors="replace").splitlines()

    def is_converted(self, program, *words, told=(), what=""):
        """Checks that a converter converts, and reports these lines."""
        self.equal(self.convert(program, *words), (0, "", list(told)), what or f"{program} {' '.join(words)}")

    def played(self, lines, *options):
        """The answers of vdb to these lines."""
        text = "".join(f"{line}\n" for line in lines)
        done = subprocess.run([self.vdb, *options], cwd=self.folder, input=text.encode(), capture_output=True, timeout=300, check=False)
        return done.stdout.decode().splitlines()

    def saved(self, lines, name):
        """The bytes of the scene that these lines make, saved under a name."""
        self.without(name)
        self.played(lines, "--save", name)
        return self.read(name)

    def probed(self, command, name, lines=()):
        """What the probe prints about a .vdb file, or of its making."""
        text = "".join(f"{line}\n" for line in lines)
        done = subprocess.run([self.probe, command, self.path(name)], input=text.encode(), capture_output=True, timeout=300, check=False)
        self.equal((done.returncode, done.stderr), (0, b""), f"probe {command} {name}")
        return done.stdout.decode().splitlines()

    def leftovers(self):
        """The temporary files that a converter left in the folder."""
        return sorted(path.name for path in self.folder.glob(".vdb-*"))
