# SPDX-License-Identifier: Apache-2.0
"""A scene of the engine, which is the content of a file: grids by name."""
from __future__ import annotations

import os

import numpy as np

from .encoded import Encoded, apart, encoding_of
from .files import check_digest, naming, replacing_scene, unzipped
from .forms import MAX_FILE, Progress
from .grid import Grid
from .grids import Grids

__all__ = ["Scene", "load", "loads"]

#: How many bytes of a file are read or written at a time.
PIECE = 2**24


class Scene(Grids[Grid]):
    __doc__ = Grids.__doc__
    _form = Grid

    def to_bytes(self) -> bytes:
        """Returns the encoding of the scene: version 2, the bytes that `vdb --save` writes. Copies no cell. Raises SceneTooLongError if it
        has more than 268,435,456 bytes."""
        return self._encoding().tobytes()

    def save(self, path: "str | os.PathLike[str]", progress: "Progress | None" = None, *, digest: bool = False) -> None:
        """Writes the encoding of the scene to a file, compressed by gzip if its name ends in .gz.

        The bytes go to a temporary file in the same folder, which then takes the place of `path`. `progress` is called with the number of
        bytes encoded so far and that of all. With `digest` the SHA-256 of the file is written to PATH.sha256, in the form of sha256sum. Raises
        SceneTooLongError if the encoding has more than 268,435,456 bytes, and FileError if the file can't be written; an existing file stays
        as it was then.
        """
        encoding = self._encoding()
        with replacing_scene(path, digest) as write:
            for first in range(0, len(encoding), PIECE):
                write(encoding.data[first : first + PIECE])
                if progress:
                    progress(min(first + PIECE, len(encoding)), len(encoding))

    def _encoding(self) -> np.ndarray:
        """Returns the bytes of the encoding (uint8)."""
        return encoding_of({name.encode(): (grid._held, grid.metadata) for name, grid in self.items()})


def load(path: "str | os.PathLike[str]", progress: "Progress | None" = None, *, digest: bool = False) -> Scene:
    """Reads a scene file of version 1 or 2, compressed if its name ends in .gz. With `digest` its bytes are compared with PATH.sha256.

    `progress` is called with the number of bytes read so far and the size of the file. The engine then decodes all of them in one call.

    Raises FormatError, with the first fault of docs/FORMAT.md, FileError if a file can't be opened or read, and DigestError if the bytes are
    others.

    Examples
    --------
    >>> vdb.Scene({"a": vdb.Grid("i32")}).save("a.vdbs")
    >>> vdb.load("a.vdbs")
    Scene({'a': <Grid i32, background 0, 0 active voxels>})
    """
    data = bytearray()
    with naming(path), open(path, "rb") as file:
        size = os.fstat(file.fileno()).st_size
        while piece := file.read(min(PIECE, MAX_FILE + 1 - len(data))):
            data += piece
            if progress:
                progress(len(data), size)
    if digest:
        check_digest(path, data)
    plain = unzipped(path, data, MAX_FILE + 1)
    with naming(path):
        return loads(data if plain is None else plain)


def loads(data: "bytes | bytearray") -> Scene:
    """Reads a scene from the bytes of a file. Raises FormatError with the first fault.

    Examples
    --------
    >>> vdb.loads(vdb.Scene().to_bytes())
    Scene({})
    """
    scene, encoded = Scene(), apart(lambda: Encoded(data))
    for name in encoded.names():
        pairs = encoded.metadata(name)
        scene[name.decode()] = Grid._of(encoded.take(name), pairs)
    return scene
