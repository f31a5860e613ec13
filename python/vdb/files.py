# SPDX-License-Identifier: Apache-2.0
"""Files that are replaced only when all of the new content is written, errors that name their file, and digests beside files."""
from __future__ import annotations

import contextlib
import errno
import gzip
import hashlib
import io
import os
import secrets
import stat
import zlib
from types import SimpleNamespace
from typing import Any, BinaryIO, Callable, Iterator

from .errors import DigestError, FormatError, file_error

#: The level of compression of scene files, as of pickles: the others take much longer.
LEVEL = 1


@contextlib.contextmanager
def naming(path: "str | os.PathLike[str]") -> Iterator[None]:
    """Names the file in the errors of its block: an OSError becomes a FileError, and a FormatError gets the path."""
    try:
        yield
    except OSError as error:
        raise file_error(error, os.fspath(path)) from error
    except FormatError as error:
        error.path = os.fspath(path)
        raise


@contextlib.contextmanager
def replacing(path: "str | os.PathLike[str]") -> Iterator[BinaryIO]:
    """Opens a temporary file beside `path`, which takes its place at the end of the block.

    The temporary file is new and has the mode of an existing file from its first byte on. It is on the disk before it takes the place. A
    symbolic link is followed. A pipe or a device is written itself. After an error in the block the temporary file is removed, and what
    was at `path` stays. Raises FileError if the file can't be written.
    """
    with naming(path):
        place = os.path.realpath(path)
        try:
            old = os.lstat(place)
        except FileNotFoundError:
            old = None
        if old and stat.S_ISLNK(old.st_mode):  # realpath passes over a loop, and over a link that it can't read
            raise OSError(errno.ELOOP, os.strerror(errno.ELOOP))
        if old and not os.access(place, os.W_OK):
            raise PermissionError(errno.EACCES, os.strerror(errno.EACCES))
        if old and not stat.S_ISREG(old.st_mode):
            with open(place, "wb") as file:
                yield file
            return
        temporary = os.path.join(os.path.dirname(place), f".{secrets.token_hex(8)}.tmp")
        descriptor = os.open(temporary, os.O_WRONLY | os.O_CREAT | os.O_EXCL | os.O_CLOEXEC, 0o600 if old else 0o666)
        try:
            with os.fdopen(descriptor, "wb") as file:
                if old:
                    os.fchmod(file.fileno(), stat.S_IMODE(old.st_mode))
                yield file
                file.flush()
                os.fsync(file.fileno())
            os.replace(temporary, place)
            synchronise(os.path.dirname(place))
        except BaseException:
            with contextlib.suppress(FileNotFoundError):
                os.unlink(temporary)
            raise


@contextlib.contextmanager
def replacing_scene(path: "str | os.PathLike[str]", digest: bool) -> "Iterator[Callable[[Any], object]]":
    """Yields the call that writes bytes to a scene file, which replaces one at the end: to gzip if the name ends in .gz. With `digest` the
    SHA-256 of the file is written to PATH.sha256, as sha256sum does. Raises FileError if that can't be written."""
    name, sha256 = os.fspath(path), hashlib.sha256()
    with replacing(path) as file:

        def write(data: Any) -> int:
            sha256.update(data)
            return file.write(data)

        if name.endswith(".gz"):
            below: Any = SimpleNamespace(write=write, flush=file.flush)
            with gzip.GzipFile("", "wb", LEVEL, below, mtime=0) as zipped:
                yield zipped.write
        else:
            yield write
    if digest:
        with replacing(f"{name}.sha256") as file:
            file.write(f"{sha256.hexdigest()}  {os.path.basename(name)}\n".encode("utf-8", "surrogateescape"))


def unzipped(path: "str | os.PathLike[str]", data: Any, most: int) -> "bytearray | None":
    """Returns what gzip unpacks from the bytes of a file, up to a number of bytes, or None if the file's name doesn't end in .gz. Raises
    FileError if gzip can't."""
    if not os.fspath(path).endswith(".gz"):
        return None
    with naming(path):
        try:
            return bytearray(gzip.GzipFile(fileobj=io.BytesIO(data)).read(most))
        except (EOFError, OSError, zlib.error) as error:
            raise OSError(errno.EIO, f"no whole file of gzip: {error}") from error


def synchronise(folder: str) -> None:
    """Puts the names of a folder on the disk, where its file system can."""
    with contextlib.suppress(OSError):
        descriptor = os.open(folder, os.O_RDONLY | os.O_DIRECTORY)
        try:
            os.fsync(descriptor)
        finally:
            os.close(descriptor)


def check_digest(path: "str | os.PathLike[str]", data: Any) -> None:
    """Raises DigestError if the bytes of a file don't have the digest in PATH.sha256, and FileError if that can't be read."""
    name = os.fspath(path)
    with naming(f"{name}.sha256"), open(f"{name}.sha256", "rb") as file:
        told = file.read(64).decode("latin-1").lower()
    if told != hashlib.sha256(data).hexdigest():
        raise DigestError(f"{name}: the file isn't the one whose digest is in {name}.sha256")
