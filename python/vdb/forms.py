# SPDX-License-Identifier: Apache-2.0
"""The forms of names, types, values, coordinates and metadata, as docs/FORMAT.md defines them, and the conversion of arrays."""
from __future__ import annotations

import re
import struct
from dataclasses import dataclass
from typing import Any, Callable, Iterator, Mapping, MutableMapping, NamedTuple, Sequence, Tuple, Union

import numpy as np

from .errors import DtypeError, LimitError, MissingError, RangeError, TextError

Value = Union[bool, int]
Coordinate = Tuple[int, int, int]
#: The least and the greatest corner of a box, both included.
Bounds = Tuple[Coordinate, Coordinate]
#: What NumPy makes an array of.
Array = Any

#: Called with how much of some work is done, and of all: iterations, voxels or bytes.
Progress = Callable[[int, int], object]

#: The most bytes of a file.
MAX_FILE = 268_435_456
MAX_GRIDS = 64
MAX_PAIRS = 16
MAX_NAME = 16
MAX_TEXT = 64
MAX_LIMIT = 65_536
DEFAULT_LIMIT = 4_096
#: How many entries an upper node, a lower node and a leaf have.
ENTRIES = (32_768, 4_096, 512)
#: How many voxels a leaf extent, a lower extent and an upper extent have along each axis.
SIDES = (8, 128, 4_096)
#: The keys of root blocks go from -KEY_SPAN to KEY_SPAN - 1 along each axis.
KEY_SPAN = 524_288
#: The coordinates of voxels go from -COORDINATE_SPAN to COORDINATE_SPAN - 1.
COORDINATE_SPAN = 2**31

NAME_FORM = re.compile(rb"[a-z][a-z0-9_]{0,15}\Z")
TEXT_FORM = re.compile(rb"[!-~]{1,64}\Z")


class Leaf(NamedTuple):
    """A leaf: its least corner, and the values and the states (bool) of its voxels, arrays of shape (8, 8, 8) with the axes x, y, z.

    Examples
    --------
    >>> leaf = next(vdb.Grid.from_array(np.array([[[5, 6]]]), origin=(8, 0, 0)).leaves())
    >>> leaf.origin, leaf.values[0, 0, :3].tolist(), int(leaf.active.sum())
    ((8, 0, 0), [5, 6, 0], 2)
    """

    origin: Coordinate
    values: np.ndarray
    active: np.ndarray


@dataclass(frozen=True)
class Kind:
    """A type of values: its word, its number in a file, and its forms in memory and in a file."""

    word: str
    number: int
    dtype: np.dtype
    stored: np.dtype

    @property
    def size(self) -> int:
        """How many bytes a value has in a file."""
        return self.stored.itemsize

    @property
    def voxel(self) -> np.dtype:
        """The fields of a listed voxel in a file, packed."""
        return np.dtype([("index", ">u2"), ("tag", "u1"), ("value", self.stored)])

    @property
    def code(self) -> str:
        """The letter of a stored value for `struct`."""
        return {"bool": "B", "i32": "i", "i64": "q"}[self.word]

    def pack(self, value: "bool | int") -> bytes:
        """Returns the bytes of a value in a file."""
        return struct.pack(">" + self.code, value)

    def check(self, value: object, what: str = "value") -> Value:
        """Returns one value as a Python bool or int. Raises DtypeError for another type, and RangeError outside the range."""
        if self.word == "bool":
            if isinstance(value, (bool, np.bool_)):
                return bool(value)
            raise DtypeError(f"the {what} of a bool grid is True or False, not {value!r}")
        if isinstance(value, (bool, np.bool_)) or not isinstance(value, (int, np.integer)):
            raise DtypeError(f"the {what} of an {self.word} grid is an integer, not {value!r}")
        span = np.iinfo(self.dtype)
        if not span.min <= value <= span.max:
            raise RangeError(f"the {what} {value} is outside {self.word}: {span.min} to {span.max}")
        return int(value)

    def array(self, values: Array, what: str = "value") -> np.ndarray:
        """Returns values as an array of the kind's dtype.

        The dtype of the values must convert by NumPy's rule `safe`. Other integers are converted too if all are in range: RangeError names
        the first that isn't. Any other dtype is a DtypeError, which names the first value.
        """
        given = np.asarray(values)
        if np.can_cast(given.dtype, self.dtype, "safe") or given.size == 0:
            return given.astype(self.dtype, copy=False)
        if given.dtype.kind in "fO" and self.word != "bool" and not isinstance(values, np.ndarray):
            self.check_size(np.asarray(values, object), what)
        if given.dtype.kind not in "iu" or self.word == "bool":
            raise DtypeError(f"the {what} {given.flat[0]!r} has the dtype {given.dtype}, which doesn't convert safely to {self.dtype}")
        fitting(given, self.dtype, what)
        return given.astype(self.dtype)

    def check_size(self, values: np.ndarray, what: str) -> None:
        """Raises RangeError if all of these objects are integers, one of which has more than 64 bits: NumPy makes floats of them."""
        if all(isinstance(it, (int, np.integer)) and not isinstance(it, bool) for it in values.flat):
            span = np.iinfo(self.dtype)
            for it in values.flat:
                if not span.min <= it <= span.max:
                    raise RangeError(f"the {what} {it} is outside {self.word}: {span.min} to {span.max}")


def fitting(values: np.ndarray, dtype: np.dtype, what: str) -> None:
    """Raises RangeError with the first of some integers that a dtype of integers doesn't hold."""
    span = np.iinfo(dtype)
    if values.size and not span.min <= int(values.min()) <= int(values.max()) <= span.max:
        outside = values[(values < span.min) | (values > span.max)]
        raise RangeError(f"the {what} {outside.flat[0]} is outside {dtype}: {span.min} to {span.max}")


def narrow(numbers: np.ndarray, values: np.ndarray, dtype: np.dtype) -> None:
    """Copies integers, all of which a dtype holds, to an array of any dtype of numbers. Raises RangeError if that doesn't hold one."""
    if values.dtype.kind in "iu" and not np.can_cast(dtype, values.dtype, "safe"):
        fitting(numbers, values.dtype, "value")
    np.copyto(values, numbers, casting="unsafe")


def narrowed(values: np.ndarray, dtype: np.dtype) -> np.ndarray:
    """Returns integers in another dtype of numbers. Raises RangeError if that doesn't hold one."""
    made = np.empty(values.shape, dtype)
    narrow(values, made, values.dtype)
    return made


KINDS = {
    kind.word: kind
    for kind in (
        Kind("bool", 0, np.dtype(np.bool_), np.dtype(np.uint8)),
        Kind("i32", 1, np.dtype(np.int32), np.dtype(">i4")),
        Kind("i64", 2, np.dtype(np.int64), np.dtype(">i8")),
    )
}
KIND_NUMBERS = list(KINDS.values())


def kind_of(kind: object) -> Kind:
    """Returns the type of values by its word, "bool", "i32" or "i64", or the narrowest that holds a NumPy dtype safely."""
    if isinstance(kind, str) and kind in KINDS:
        return KINDS[kind]
    try:
        dtype = np.dtype(kind)  # type: ignore[call-overload]
    except TypeError:
        dtype = None
    for made in KIND_NUMBERS:
        if dtype is not None and kind is not None and np.can_cast(dtype, made.dtype, "safe"):
            return made
    is_array = isinstance(kind, (np.ndarray, list))
    given = f"{type(kind).__name__}: Grid.from_array makes a grid of an array" if is_array else repr(kind)
    raise RangeError(f"the kind of a grid is 'bool', 'i32' or 'i64', or a dtype that one of them holds, not {given}")


def kind_of_array(values: np.ndarray) -> Kind:
    """Returns the type of grid for an array, by its dtype. Raises DtypeError if no grid holds it."""
    try:
        return kind_of(values.dtype)
    except RangeError:
        such = f", such as {values.flat[0]!r}" if values.size else ""
    raise DtypeError(f"values has the dtype {values.dtype}{such}, which no grid holds: convert it, as by .astype(numpy.int64)")


def check_name(name: object, what: str = "name") -> str:
    """Returns the name. Raises DtypeError if it is no string, and TextError if it has another form."""
    if not isinstance(name, str):
        raise DtypeError(f"a {what} is a string, not {name!r}")
    if not NAME_FORM.match(name.encode("utf-8", "surrogateescape")):
        raise TextError(f"the {what} {name!r} isn't a letter a to z and up to 15 of a to z, 0 to 9 and _")
    return name


def check_limit(limit: object) -> int:
    """Returns the root limit. Raises DtypeError if it is no integer, and RangeError outside 1 to 65,536."""
    if isinstance(limit, bool) or not isinstance(limit, (int, np.integer)):
        raise DtypeError(f"a root limit is an integer, not {limit!r}")
    if not 1 <= limit <= MAX_LIMIT:
        raise RangeError(f"the root limit {limit} isn't from 1 to 65,536")
    return int(limit)


def check_coordinate(at: object, what: str = "coordinate") -> Coordinate:
    """Returns a coordinate as three Python integers. Raises DtypeError or RangeError if it is none."""
    try:
        parts: "tuple[Any, ...]" = tuple(at)  # type: ignore[arg-type]
    except TypeError:
        parts = ()
    if len(parts) != 3 or not all(isinstance(part, (int, np.integer)) and not isinstance(part, bool) for part in parts):
        raise DtypeError(f"a {what} is three integers x, y, z, not {at!r}")
    if not all(-COORDINATE_SPAN <= part < COORDINATE_SPAN for part in parts):
        raise RangeError(f"the {what} {at} has a part outside 32 bits")
    return int(parts[0]), int(parts[1]), int(parts[2])


def check_bounds(bounds: "Sequence[Sequence[int]]") -> Bounds:
    """Returns bounds as Python integers. Raises DtypeError or RangeError if they are no box."""
    try:
        first, last = bounds
    except (TypeError, ValueError):
        raise DtypeError(f"bounds are two coordinates, not {bounds!r}") from None
    low, high = check_coordinate(first, "minimum"), check_coordinate(last, "maximum")
    if any(a > b for a, b in zip(low, high)):
        raise RangeError(f"the minimum {low} is greater than the maximum {high}")
    return low, high


def check_state(active: object) -> bool:
    """Returns one state. Raises DtypeError for anything but a bool."""
    if not isinstance(active, (bool, np.bool_)):
        raise DtypeError(f"active is True or False, not {active!r}")
    return bool(active)


def check_bools(active: Array) -> np.ndarray:
    """Returns states as an array of bools. Raises DtypeError for another dtype."""
    states = np.asarray(active)
    if states.dtype != np.bool_:
        raise DtypeError(f"active has the dtype {states.dtype}, not bool: convert it by .astype(bool)")
    return states


def check_states(active: Array, shape: "tuple[int, ...]") -> np.ndarray:
    """Returns one state, or an array of this shape, as an array. Raises DtypeError or RangeError for another dtype or shape."""
    states = check_bools(active)
    if states.shape not in (shape, ()):
        raise RangeError(f"active has the shape {states.shape}, and values {shape}")
    return np.broadcast_to(states, shape)


def check_box(origin: Sequence[int], shape: "tuple[int, ...]") -> Coordinate:
    """Returns the least corner of a box of this shape. Raises RangeError if it has not three axes or reaches past 32 bits."""
    if len(shape) != 3:
        raise RangeError(f"values has {len(shape)} axes, not 3 (x, y, z)")
    low = check_coordinate(origin, "origin")
    for axis, at, side in zip("xyz", low, shape):
        if at + side > COORDINATE_SPAN:
            raise RangeError(f"{axis} would reach {at + side - 1}, past 2,147,483,647")
    return low


class Metadata(MutableMapping[str, str]):
    """The metadata pairs of a grid, at most 16, in the order of their keys.

    A key has the form of a name: a letter a to z, then up to 15 of a to z, 0 to 9 and _. A text has 1 to 64 printable
    ASCII characters and no space. Setting a pair raises DtypeError or TextError if it has another form, and LimitError
    for a seventeenth pair; the pairs stay as they were then.

    Examples
    --------
    >>> grid = vdb.Grid("i32", metadata={"unit": "mm"})
    >>> grid.metadata["patient"] = "p7"
    >>> grid.metadata
    Metadata({'patient': 'p7', 'unit': 'mm'})
    """

    def __init__(self, pairs: Mapping[str, str] | None = None) -> None:
        self._pairs: dict[str, str] = {}
        self.update(pairs or {})

    def __getitem__(self, key: str) -> str:
        if key not in self._pairs:
            raise MissingError(f"the grid has no metadata pair {key!r}")
        return self._pairs[key]

    def __setitem__(self, key: str, text: str) -> None:
        check_name(key, "metadata key")
        if not isinstance(text, str):
            raise DtypeError(f"the text of {key} is a string, not {text!r}")
        if not TEXT_FORM.match(text.encode("utf-8", "surrogateescape")):
            raise TextError(f"the text of {key} isn't 1 to 64 printable ASCII characters without a space: {text!r}")
        if key not in self._pairs and len(self._pairs) == MAX_PAIRS:
            raise LimitError(f"a grid has at most {MAX_PAIRS} metadata pairs, and {key} would be one more")
        self._pairs[key] = text

    def __delitem__(self, key: str) -> None:
        self[key]
        del self._pairs[key]

    def __iter__(self) -> Iterator[str]:
        return iter(sorted(self._pairs))

    def __len__(self) -> int:
        return len(self._pairs)

    def __repr__(self) -> str:
        return f"Metadata({dict(self)!r})"
