# SPDX-License-Identifier: Apache-2.0
"""Builds the wheel of the package with the library libvdb in it. pyproject.toml says the rest.

The library is the file that the variable VDB_LIBRARY names, else out/lib/libvdb.so of the repository, which tools/build-libvdb builds.
"""
import os
import re
import subprocess
import tempfile
from pathlib import Path

from setuptools import Distribution, setup
from setuptools.command.build_py import build_py
from wheel.bdist_wheel import bdist_wheel

LIBRARY = Path(os.environ.get("VDB_LIBRARY") or Path(__file__).resolve().parent.parent / "out" / "lib" / "libvdb.so")
#: The version of glibc that a wheel with the tag of manylinux may need at most, and the libraries.
GLIBC, ALLOWED = (2, 17), {"libc.so.6", "ld-linux-x86-64.so.2"}


def platform() -> str:
    """Returns the platform of the library's wheel: that of manylinux if the library needs no newer glibc and no other library."""
    if not LIBRARY.is_file() or LIBRARY.read_bytes()[:20:18] != b"\x7f\x3e":
        raise SystemExit(f"{LIBRARY}: no shared library for x86-64: build it by tools/build-libvdb, or name it in VDB_LIBRARY")
    text = subprocess.run(["readelf", "-dVW", LIBRARY], capture_output=True, check=True, text=True).stdout
    needed = re.findall(r"\(NEEDED\).*\[(.*)\]", text)
    newest = max((tuple(map(int, it.split("."))) for it in re.findall(r"Name: GLIBC_([\d.]+)", text)), default=(0,))
    return "manylinux_{}_{}_x86_64".format(*GLIBC) if newest <= GLIBC and {*needed} <= ALLOWED else "linux_x86_64"


class WithLibrary(build_py):
    def run(self) -> None:
        platform()
        super().run()
        self.copy_file(str(LIBRARY), os.path.join(self.build_lib, "vdb", "libvdb.so"))


class Wheel(bdist_wheel):
    def get_tag(self) -> "tuple[str, str, str]":
        return "py3", "none", platform()


class Binary(Distribution):
    def has_ext_modules(self) -> bool:
        return True


with tempfile.TemporaryDirectory(prefix="vdb-wheel-") as room:  # no file of an earlier build gets into the wheel
    setup(cmdclass={"build_py": WithLibrary, "bdist_wheel": Wheel}, distclass=Binary, options={"build": {"build_base": room}})
