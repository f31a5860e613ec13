# SPDX-License-Identifier: Apache-2.0
"""A scene, which is the content of a file: grids by name."""
from __future__ import annotations

import os
import stat
from itertools import chain
from typing import Iterator, Optional

from ..errors import SceneTooLongError
from ..files import check_digest, naming, replacing_scene, unzipped
from ..forms import DEFAULT_LIMIT, MAX_FILE, Progress
from ..grids import Grids
from .grid import Grid
from .reader import PADDING, Reader
from .writer import Body, grid_head, scene_head

__all__ = ["Scene", "load", "loads"]


class Scene(Grids[Grid]):
    __doc__ = Grids.__doc__
    _form = Grid

    def to_bytes(self) -> bytes:
        """Returns the encoding of the scene: version 2, the bytes that `vdb --save` writes.

        Raises SceneTooLongError if it has more than 268,435,456 bytes.
        """
        return b"".join(self._encoded()[1])

    def save(self, path: "str | os.PathLike[str]", progress: Optional[Progress] = None, *, digest: bool = False) -> None:
        """Writes the encoding of the scene to a file, compressed by gzip if its name ends in .gz.

        The bytes go to a temporary file in the same folder, which then takes the place of `path`. `progress` is called with
        the number of bytes encoded so far and that of all. With `digest` the SHA-256 of the file is written to PATH.sha256, in
        the form of sha256sum. Raises SceneTooLongError if the encoding has more than 268,435,456 bytes, and FileError if the
        file can't be written; an existing file stays as it was then.
        """
        length, pieces = self._encoded()
        done = 0
        with replacing_scene(path, digest) as write:
            for piece in pieces:
                write(piece)
                done += len(piece)
                if progress:
                    progress(done, length)

    def _encoded(self) -> "tuple[int, Iterator[bytes]]":
        """Returns how many bytes the encoding has, and yields them piece by piece."""
        head = scene_head(len(self))
        heads, bodies = [], []
        for name, grid in self.items():
            heads.append(grid_head(name, grid._tree, grid.limit, grid.metadata))
            bodies.append(Body(grid._tree))
        length = len(head) + sum(map(len, heads)) + sum(body.length() for body in bodies)
        if length > MAX_FILE:
            raise SceneTooLongError(length, MAX_FILE)
        grids = (piece for start, body in zip(heads, bodies) for piece in chain([start], body.pieces()))
        return length, chain([head], grids)


def load(path: "str | os.PathLike[str]", progress: Optional[Progress] = None, *, digest: bool = False) -> Scene:
    """Reads a scene file of version 1 or 2, compressed if its name ends in .gz.

    `progress` is called with the number of bytes read so far and the size of the file. It takes less than ten times the memory of
    the file's bytes, of which it reads at most 268,435,457. With `digest` the bytes are compared with PATH.sha256.

    Raises the FormatError of the first fault, in the order of docs/FORMAT.md, FileError if a file can't be opened or read, and
    DigestError if the bytes are others.

    Examples
    --------
    >>> scenefile.Scene({"a": scenefile.Grid("i32")}).save("b.vdbs")
    >>> scenefile.load("b.vdbs")["a"].kind
    'i32'
    """
    with naming(path), open(path, "rb") as file:
        found = os.fstat(file.fileno())
        if stat.S_ISREG(found.st_mode):
            data = bytearray(min(found.st_size, MAX_FILE + 1) + PADDING)
            read = file.readinto(memoryview(data)[: len(data) - PADDING])
            del data[read : len(data) - PADDING]
        else:
            data = bytearray(file.read(MAX_FILE + 1) + bytes(PADDING))
    view = memoryview(data)[: len(data) - PADDING]
    if digest:
        check_digest(path, view)
    plain = unzipped(path, view, MAX_FILE + 1)
    if plain is not None:
        data = plain + bytes(PADDING)
    return _scene(Reader(data, os.fspath(path), progress))


def loads(data: bytes) -> Scene:
    """Reads a scene from the bytes of a file. Raises the FormatError of the first fault.

    Examples
    --------
    >>> scenefile.loads(scenefile.Scene().to_bytes())
    Scene({})
    """
    return _scene(Reader(bytearray(data) + bytes(PADDING), None))


def _scene(reader: Reader) -> Scene:
    version, grids = reader.head()
    scene, name = Scene(), None
    for _ in range(grids):
        name = reader.name(name, "name", "name")
        kind = reader.kind()
        background = reader.value(kind, "the background")
        limit, pairs = (reader.limit(), reader.pairs()) if version == 2 else (DEFAULT_LIMIT, {})
        scene[name] = Grid._of(reader.tree(kind, background, limit), limit, pairs)
    reader.finish()
    return scene
