# SPDX-License-Identifier: Apache-2.0
"""What a file says of an image, and the metadata pairs that keep it with a grid through every call.

    Pair                          Text                                                                          Left out
    affine_x, affine_y, affine_z  a row each of the affine that maps COORDINATES to the world: -0.5,0,0,10.25   for the identity
    image_array                   the dtype of the file and the sides in voxels: uint8,256,256,128
    image_low                     the coordinate of the first voxel: 0,0,-20                                    at 0,0,0
    image_units                   the unit of the world: mm, or one for each axis: mm,mm,um                     if not known
    image_space                   NRRD's name of the world's axes: left-posterior-superior                      if not known, or RAS
    image_nifti                   codes of NIfTI's sform, qform and unit of time, and its version: 4,1,8,2      for 2,0,0 of version 1
    image_intent                  code and parameters of NIfTI's intent: 1002, or 3,10.5                        without an intent
    image_name                    the intent's name; bytes other than letters, digits and _.- as %20            without one
    image_turn                    the qform's quaternion b, c, d and its sign: 0,0,1,-1                         if the affine gives it
    image_shift                   the qform's offset x, y, z: 90,-126,-72                                       if the affine gives it
    image_sizes                   the voxel sizes of the header: 1,1,2.5                                        if the affine gives them
    image_axes                    the number of axes of the array in a NIfTI or .npy file: 2, or 4 to 7         for 3
    label_names_1 to _6           names of labels, and colours: 2:left+kidney:ff8800;5:liver, cut at each 64    without names

With the identity, RAS and the codes 2,0,0 are kept: only they say that it is an affine of a body.
A number has all its digits, unless a row has no room for them. A grid with rows and without `image_array` has a place in the world, but
no image. One with `image_array` and without rows is an image whose affine is the identity. Only `Volume.affine` and
`Image.index_affine` map INDICES of an array.
"""
from __future__ import annotations

from dataclasses import dataclass, field
from itertools import product
from typing import Dict, List, Mapping, Optional, Sequence, Tuple

import numpy as np

from .errors import GeometryError, VolumeError
from .forms import Bounds, Coordinate, Metadata, check_coordinate

#: The texts of notes that say no more than the rows of an affine.
USUAL = {"image_nifti": "2,0,0", "image_space": "right-anterior-superior"}
#: The keys of the three rows of an affine.
ROWS = ("affine_x", "affine_y", "affine_z")
ARRAY, LOW = "image_array", "image_low"
#: The keys of what only some formats say, whose texts `Image.notes` has.
NOTES = ("image_units", "image_space", "image_nifti", "image_intent", "image_name", "image_turn", "image_shift", "image_sizes", "image_axes")
KEYS = (*ROWS, ARRAY, LOW, *NOTES)
#: The keys of the names of labels, which vdb.label_names reads and writes.
LABELS = tuple(f"label_names_{number}" for number in range(1, 7))
#: The dtypes that files of images have.
DTYPES = ("bool", *(f"{sign}int{bits}" for sign in ("", "u") for bits in (8, 16, 32, 64)), "float16", "float32", "float64")
#: The most characters of a row.
ROW = 63
#: Two affines are the same if no corner differs by more than this part of a voxel, and of its greatest number.
VOXELS, NUMBERS = 1e-3, 2**-22

Pairs = Mapping[str, str]


@dataclass(frozen=True, eq=False)
class Image:
    """What a file says of an image: the coordinate `low` of its first voxel, its `shape` (three sides in voxels), the `dtype` of its
    values in the file, the `affine` (3 x 4, float64) that maps coordinates to the world, and `notes`, texts by the keys of NOTES.

    Examples
    --------
    >>> image = Image((0, 0, -20), (256, 256, 128), np.dtype(np.uint8), np.diag([0.5, 0.5, 2]) @ identity(), {"image_units": "mm"})
    >>> metadata = Metadata({"patient": "17"})
    >>> image.keep(metadata)
    >>> list(metadata)
    ['affine_x', 'affine_y', 'affine_z', 'image_array', 'image_low', 'image_units', 'patient']
    >>> metadata["image_array"], metadata["affine_z"]
    ('uint8,256,256,128', '0,0,2,0')
    >>> Image.of(metadata).index_affine[:, 3].tolist(), Image.of(metadata).bounds
    ([0.0, 0.0, -40.0], ((0, 0, -20), (255, 255, 107)))
    """

    low: Coordinate
    shape: Tuple[int, int, int]
    dtype: np.dtype
    affine: np.ndarray
    notes: Pairs = field(default_factory=dict)

    @classmethod
    def of(cls, metadata: Pairs) -> "Optional[Image]":
        """Returns the image that metadata pairs keep, or None if they keep none. Raises VolumeError if they have another form."""
        if ARRAY not in metadata:
            return None
        dtype, *sides = metadata[ARRAY].split(",")
        try:
            if dtype not in DTYPES:
                raise ValueError
            x, y, z = check_coordinate([int(side) for side in sides], ARRAY)
            low = check_coordinate([int(part) for part in metadata.get(LOW, "0,0,0").split(",")], LOW)
        except (TypeError, ValueError):
            x = y = z = -1
        if min(x, y, z) < 0:
            found = metadata[ARRAY], metadata.get(LOW)
            raise VolumeError(f"the pairs {ARRAY} and {LOW} aren't a dtype and three sides, and three coordinates: {found}")
        return cls(low, (x, y, z), np.dtype(dtype), affine_of(metadata), {key: metadata[key] for key in NOTES if key in metadata})

    @property
    def bounds(self) -> "Bounds | None":
        """The least and the greatest coordinates of the image, or None if a side is 0."""
        (x, y, z), (width, height, depth) = self.low, self.shape
        return (self.low, (x + width - 1, y + height - 1, z + depth - 1)) if min(self.shape) else None

    @property
    def index_affine(self) -> np.ndarray:
        """The affine (3 x 4) that maps the indices of the image's array to the world."""
        return moved(self.affine, self.low)

    def pairs(self) -> Dict[str, str]:
        """Returns the pairs that keep the image. Raises VolumeError if the affine has no inverse."""
        low = {LOW: ",".join(map(str, self.low))} if any(self.low) else {}
        rows = rows_of(self.affine)
        notes = {key: text for key, text in self.notes.items() if not rows or text != USUAL.get(key)}
        return {**rows, ARRAY: ",".join([self.dtype.name, *map(str, self.shape)]), **low, **notes}

    def keep(self, metadata: Metadata) -> None:
        """Puts the pairs in place of those of another image. Raises VolumeError if the affine has no inverse, and LimitError if there is no
        room for them; the metadata stay as they were then."""
        put(metadata, self.pairs())


def put(metadata: Metadata, pairs: Pairs, keys: Sequence[str] = KEYS) -> None:
    """Puts pairs, those of an image, in place of others with some keys. Raises LimitError, before anything changes, if there is no room."""
    made = Metadata({key: text for key, text in metadata.items() if key not in keys})
    made.update(pairs)
    metadata.clear()
    metadata.update(made)


def kept(metadata: Pairs, dtype: "np.dtype | None" = None) -> Dict[str, str]:
    """Returns the pairs of an image among metadata, with another dtype if one is given."""
    made = {key: metadata[key] for key in KEYS if key in metadata}
    if dtype is not None and ARRAY in made:
        made[ARRAY] = dtype.name + made[ARRAY][made[ARRAY].find(",") :]
    return made


def masked(metadata: Pairs, kind: str) -> Dict[str, str]:
    """Returns the metadata of the mask of a grid of some type: its image has the dtype bool, and labels of numbers have no names there."""
    if kind == "bool":
        return dict(metadata)
    return {**{key: text for key, text in metadata.items() if key not in LABELS}, **kept(metadata, np.dtype(np.bool_))}


def agreed(first: Metadata, second: Pairs, dtype: np.dtype) -> Metadata:
    """Returns the metadata for what two grids are combined to: those of the first one, whose values have this dtype. If it has no image,
    that of the second one is taken. Raises GeometryError if both have images, or places in the world, that differ."""
    ours, theirs = kept(first), kept(second)
    if ours and theirs and kept(ours, dtype) != kept(theirs, dtype):
        check_same(ours, theirs)
    if ARRAY in ours or not any(key in theirs and key not in ours for key in (ARRAY, ROWS[0])):
        return first
    found = Image.of(theirs)
    fits = found is None or np.can_cast(found.dtype, dtype, "safe") and (found.dtype == np.bool_) == (dtype == np.bool_)
    made = Metadata(first)
    put(made, {**(theirs if fits else kept(theirs, dtype)), **ours})
    return made


def check_same(first: Pairs, second: Pairs, instead: str = "ignore_geometry=True combines them all the same") -> None:
    """Raises GeometryError, which names what differs and what to do instead, if two grids with images, or with affines, have different ones.
    An image without the pairs of an affine has the identity."""
    one, other = Image.of(first), Image.of(second)
    told = []
    if one and other:
        told += [f"the shape {one.shape} and {other.shape}"] * (one.shape != other.shape)
        told += [f"the first voxel {one.low} and {other.low}"] * (one.low != other.low)
        units = [image.notes.get("image_units") for image in (one, other)]
        told += ["the units {} and {}".format(*units)] * (None not in units and units[0] != units[1])
    places = [affine_of(pairs) for pairs in (first, second) if {*ROWS, ARRAY} & {*pairs}]
    box = next((image.bounds for image in (one, other) if image and image.bounds), ((0, 0, 0), (255, 255, 255)))
    if len(places) == 2 and not close(places[0], places[1], box):
        told.append("the affine {} and {}".format(*(affine.tolist() for affine in places)))
    if told:
        raise GeometryError(f"two grids of different images, {', '.join(told)}: {instead}")


def close(first: np.ndarray, second: np.ndarray, box: Bounds) -> bool:
    """Returns whether two affines map the corners of a box to the same places, but for what floats of 32 bits in a header lose."""
    corners = np.array([(*corner, 1) for corner in product(*zip(*box))], np.float64)
    one, other = corners @ first.T, corners @ second.T
    voxel = np.linalg.norm(first[:, :3], axis=0).min()
    return bool(np.abs(one - other).max() <= VOXELS * voxel + NUMBERS * np.abs(one).max())


def identity() -> np.ndarray:
    """Returns the affine (3 x 4) that maps each place to itself."""
    return np.eye(3, 4)


def moved(affine: np.ndarray, offset: Sequence[float]) -> np.ndarray:
    """Returns the affine that maps a place as `affine` maps the place plus an offset."""
    made = affine.copy()
    made[:, 3] += affine[:, :3] @ np.array(offset, np.float64)
    return made


def affine_of(metadata: Pairs) -> np.ndarray:
    """Returns the affine (3 x 4) of coordinates that metadata pairs keep, the identity if they keep none. Raises VolumeError if they are no
    affine."""
    found = [metadata.get(key) for key in ROWS]
    if found == [None] * 3:
        return identity()
    try:
        made = np.array([numbers_of(text or "") for text in found], np.float64)
    except ValueError:
        made = np.zeros(0)
    if made.shape != (3, 4) or not np.isfinite(made).all():
        raise VolumeError(f"the pairs {', '.join(ROWS)} aren't four numbers each, with commas between them: {found}")
    return made


def rows_of(affine: np.ndarray) -> Dict[str, str]:
    """Returns the pairs of an affine (3 x 4), none for the identity. A number has all its digits, or at least eight.

    Raises VolumeError if a number isn't finite, or the affine maps the axes into a plane.
    """
    if not np.isfinite(affine).all() or np.linalg.matrix_rank(affine[:, :3]) < 3:
        raise VolumeError(f"the affine has no inverse: {affine.tolist()}")
    rows = [text_of(row) for row in affine.tolist()]
    return {} if rows == [text_of(row) for row in identity().tolist()] else dict(zip(ROWS, rows))


def text_of(numbers: Sequence[float]) -> str:
    """Returns the text of up to four numbers: the shortest, of fewer digits if that is longer than ROW."""
    texts = [",".join(map(number_of, numbers))]
    texts += [",".join(f"{it:.{digits}g}" for it in numbers) for digits in range(16, 7, -1)]
    return next(text for text in texts if len(text) <= ROW)


def numbers_of(text: str) -> List[float]:
    """Returns the numbers of a text. Raises ValueError for others."""
    return [float(word) for word in text.split(",")]


def number_of(value: float) -> str:
    """Returns the shortest text of a number, as one of 32 bits if it is such a number."""
    value += 0.0  # no sign of zero
    with np.errstate(over="ignore"):
        short = np.float32(value)
    return (str(short) if float(short) == value else repr(value)).removesuffix(".0")
