# SPDX-License-Identifier: Apache-2.0
"""The errors of the package. Each is a `VdbError`, and also of the built-in class of its kind:

    TypeError          DtypeError, KindsError
    ValueError         RangeError, TextError, LimitError, EmptyError, RootLimitError, ArrayTooLargeError, SceneTooLongError,
                       VolumeError, GeometryError, DigestError, FormatError and its faults
    IndexError         OutsideError
    KeyError           MissingError
    OverflowError      SumRangeError
    MemoryError        OutOfMemoryError
    OSError            FileError
    FileNotFoundError  MissingFileError
    PermissionError    ForbiddenFileError

A call that fails has changed no voxel, unless its documentation says otherwise. A call that succeeds and leaves something out warns by `VdbWarning`.
"""
from __future__ import annotations

__all__ = [
    "VdbError", "DtypeError", "RangeError", "OutsideError", "TextError", "LimitError", "MissingError", "EmptyError", "OutOfMemoryError",
    "RootLimitError", "SumRangeError", "KindsError", "ArrayTooLargeError", "SceneTooLongError", "VolumeError", "GeometryError",
    "DigestError", "VdbWarning", "FileError", "MissingFileError", "ForbiddenFileError", "FormatError", "MagicFault", "VersionFault",
    "TruncatedFault", "NameFault", "KindFault", "ValueFault",
    "LimitFault", "MetaFault", "KeyFault", "RootLimitFault", "TagFault", "IndexFault", "BackgroundFault", "ConstantNodeFault",
    "TrailingFault", "TooLongFault", "FAULTS",
]  # fmt: skip


class VdbError(Exception):
    """The base class of the package's own errors.

    `code` is the code of libvdb in vdb.h, or None if the library wasn't asked.
    """

    code: "int | None" = None


class DtypeError(VdbError, TypeError):
    """An argument has another type, or an array a dtype that doesn't convert safely. The text names the argument and a value."""


class RangeError(VdbError, ValueError):
    """A value, a coordinate, a shape or another argument is out of range. The text names it."""


class OutsideError(VdbError, IndexError):
    """An index of an image is past its end, or has too many axes."""


class TextError(VdbError, ValueError):
    """A name, a metadata key or a metadata text has another form."""


class LimitError(VdbError, ValueError):
    """A scene would have more than 64 grids, or a grid more than 16 metadata pairs."""


class MissingError(VdbError, KeyError):
    """A scene has no such grid, or a grid no such metadata pair."""

    def __str__(self) -> str:
        return str(self.args[0])


class EmptyError(VdbError, ValueError):
    """A handle of the library is empty."""


class OutOfMemoryError(VdbError, MemoryError):
    """An allocation of the library failed."""


class RootLimitError(VdbError, ValueError):
    """A grid would need more root blocks than its root limit. `needed` and `limit` are these numbers, or None if nobody counted."""

    def __init__(self, reason: str, needed: "int | None" = None, limit: "int | None" = None) -> None:
        super().__init__(reason, needed, limit)
        self.needed, self.limit = needed, limit

    def __str__(self) -> str:
        return str(self.args[0])


class SumRangeError(VdbError, OverflowError):
    """A sum is outside the type of the grid's values."""


class KindsError(VdbError, TypeError):
    """Two grids, or a grid and an array, have values of different types, or the type has no sum."""


class ArrayTooLargeError(VdbError, ValueError):
    """Dense arrays would need more bytes (`needed`) than the caller allows (`max_bytes`). `shape` is theirs in voxels, and `path` their file,
    or an empty text."""

    def __init__(self, shape: "tuple[int, ...]", needed: int, max_bytes: int) -> None:
        super().__init__(shape, needed, max_bytes)
        self.shape, self.needed, self.max_bytes, self.path = shape, needed, max_bytes, ""

    def __str__(self) -> str:
        shape = " x ".join(f"{side:,}" for side in self.shape)
        return f"{self.path and self.path + ': '}arrays of {shape} voxels need {self.needed:,} bytes, more than max_bytes = {self.max_bytes:,}"


class SceneTooLongError(VdbError, ValueError):
    """The encoding of a scene would have more bytes (`length`) than a file may have (`most`)."""

    def __init__(self, length: int, most: int) -> None:
        super().__init__(length, most)
        self.length, self.most = length, most

    def __str__(self) -> str:
        return f"too-long: the scene needs {self.length:,} bytes, and a file has at most {self.most:,}"


class VolumeError(VdbError, ValueError):
    """A file of another format has a fault, or holds what no grid can. `path` is the file, or None if the error isn't of a file."""

    def __init__(self, reason: str, path: "str | None" = None) -> None:
        super().__init__(reason, path)
        self.reason, self.path = reason, path

    def __str__(self) -> str:
        return f"{self.path}: {self.reason}" if self.path else self.reason


class GeometryError(VdbError, ValueError):
    """Two grids have images of different shapes, first voxels or affines, or a grid has active voxels outside its image."""


class DigestError(VdbError, ValueError):
    """A scene file isn't the one of which a digest was written, or the digest has another form."""


class VdbWarning(UserWarning):
    """A call succeeds, and its result lacks something of a grid. The text says what."""


class FileError(VdbError, OSError):
    """A file can't be read or written. `filename` names it, and `errno` and `strerror` say why."""

    def __str__(self) -> str:
        return f"{self.filename}: {self.strerror}"


class MissingFileError(FileError, FileNotFoundError):
    """There is no such file or folder."""


class ForbiddenFileError(FileError, PermissionError):
    """The file or its folder may not be read or written."""


def file_error(error: OSError, path: str) -> FileError:
    """Returns the FileError for an error of the system on a file."""
    kinds = (MissingFileError, FileNotFoundError), (ForbiddenFileError, PermissionError), (FileError, OSError)
    made = next(ours for ours, theirs in kinds if isinstance(error, theirs))
    return made(error.errno, error.strerror or str(error), path)


class FormatError(VdbError, ValueError):
    """The bytes are no scene file. Each fault of docs/FORMAT.md has a subclass.

    `fault` is the word of the fault, as `vdb: load: WORD` prints it. `offset` is the byte, counted from 0, at which the faulty field
    begins. For `background` and `constant-node` it is the first byte of the faulty body. From the library it is None.
    `path` is the file, or None for bytes. `reason` says what the field holds.
    """

    fault = ""

    def __init__(self, offset: "int | None", reason: str, path: "str | None" = None) -> None:
        super().__init__(offset, reason, path)
        self.offset, self.reason, self.path = offset, reason, path

    def __str__(self) -> str:
        place = "" if self.offset is None else f"byte {self.offset}: "
        return f"{self.path or '<bytes>'}: {place}{self.fault}: {self.reason}"


class MagicFault(FormatError):
    """The first four bytes aren't `VDBS`. The text says what they are, and what reads the file if it is an image by them or its ending."""

    fault = "magic"

    def __str__(self) -> str:
        from .formats import FORMATS, signature_of

        told, endings = signature_of(self.path) if self.path else ("", ())
        is_image = (self.path or "").lower().endswith((*FORMATS,)) or any(ending in FORMATS for ending in endings)
        return f"{super().__str__()}{told}" + ". For an image use vdb.formats.load, or vdb-scene convert IMAGE x.vdbs" * is_image


class VersionFault(FormatError):
    """The version is neither 1 nor 2."""

    fault = "version"


class TruncatedFault(FormatError):
    """The file ends inside a field or before it."""

    fault = "truncated"


class NameFault(FormatError):
    """A name has another form or order, or the file announces more than 64 grids."""

    fault = "name"


class KindFault(FormatError):
    """The number of a grid's type is above 2."""

    fault = "kind"


class ValueFault(FormatError):
    """The byte of a boolean is above 1."""

    fault = "value"


class LimitFault(FormatError):
    """A root limit is 0 or above 65,536."""

    fault = "limit"


class MetaFault(FormatError):
    """A metadata pair has another form or order, or a grid announces more than 16 pairs."""

    fault = "meta"


class KeyFault(FormatError):
    """The key of a root block is out of range or out of order."""

    fault = "key"


class RootLimitFault(FormatError):
    """A grid announces more root blocks than its limit."""

    fault = "root-limit"


class TagFault(FormatError):
    """A body begins with a byte that is no tag."""

    fault = "tag"


class IndexFault(FormatError):
    """A number of entries, or the number of an entry, is out of range or out of order."""

    fault = "index"


class BackgroundFault(FormatError):
    """A body holds the inactive background, which a file leaves out."""

    fault = "background"


class ConstantNodeFault(FormatError):
    """A block is given by its entries, though all its voxels are equal."""

    fault = "constant-node"


class TrailingFault(FormatError):
    """The file has a byte after the last field."""

    fault = "trailing"


class TooLongFault(FormatError):
    """A field would end past byte 268,435,456."""

    fault = "too-long"


#: The class of each fault, by its word, in the order of the codes of vdb.h.
FAULTS: "dict[str, type[FormatError]]" = {cls.fault: cls for cls in FormatError.__subclasses__()}

#: The texts of the codes, which are those of vdb_message in vdb.h.
TEXTS = {
    1: "the handle is empty",
    2: "out of memory",
    3: "the grid would need more root blocks than its root limit",
    4: "an argument is out of range",
    5: "a sum is outside the type of the grid's values",
    6: "the two grids, or the grid and an array, have values of different types",
    7: "booleans have no sum",
    8: "the scene has no such grid",
    9: "a name is a letter a to z, then up to 15 of a to z, 0 to 9 and _",
    10: "the scene has a grid of this name",
    11: "a scene has at most 64 grids",
    12: "a grid has at most 16 metadata pairs",
    13: "the grid has no such metadata pair",
    14: "a metadata text is 1 to 64 printable ASCII characters without spaces",
    15: "the buffer is too small",
    16: "both handles of the call are the same",
    20: "magic: the file doesn't begin with VDBS",
    21: "version: the version is neither 1 nor 2",
    22: "truncated: the file ends before a field or inside it",
    23: "name: a name has another form or order, or the file has more than 64 grids",
    24: "kind: the number of a grid's type is above 2",
    25: "value: the byte of a boolean is above 1",
    26: "limit: a root limit is 0 or above 65,536",
    27: "meta: a metadata pair has another form or order, or a grid has more than 16",
    28: "key: the key of a root block is out of range or out of order",
    29: "root-limit: a grid has more root blocks than its root limit",
    30: "tag: a body begins with a byte that is no tag",
    31: "index: the count or the number of an entry is out of range or out of order",
    32: "background: the file lists an inactive cell of the background",
    33: "constant-node: all entries of a node have the same cell",
    34: "trailing: a byte follows the last field",
    35: "too-long: a file has at most 268,435,456 bytes",
}

#: The class of each code that isn't a fault of a file; a VdbError for any other.
CLASSES: "dict[int, type[VdbError]]" = {
    1: EmptyError, 2: OutOfMemoryError, 3: RootLimitError, 4: RangeError, 5: SumRangeError, 6: KindsError, 7: KindsError,
    8: MissingError, 9: TextError, 10: LimitError, 11: LimitError, 12: LimitError, 13: MissingError, 14: TextError, 15: RangeError,
    16: RangeError,
}  # fmt: skip


def error_of(code: int) -> VdbError:
    """Returns the exception for a code other than 0."""
    text = TEXTS.get(code, f"unknown code {code}")
    word, _, reason = text.partition(": ")
    made = FAULTS[word](None, reason) if word in FAULTS else CLASSES.get(code, VdbError)(text)
    made.code = code
    return made
