# SPDX-License-Identifier: Apache-2.0
"""NRRD files of the encodings raw and gzip: `.nrrd`, and `.nhdr` with the values in another file, which is only read.

The format is defined at https://teem.sourceforge.net/nrrd/format.html. An affine of the spaces LPS and LAS is turned to RAS, the space of
NIfTI; other spaces are taken as they are. A note of the image keeps the space, in which it is written again.
"""
from __future__ import annotations

import errno
import gzip
import math
import os
import re
import warnings
from typing import BinaryIO, Dict, Optional, Tuple
from urllib.parse import quote, unquote

import numpy as np

from ..errors import VdbWarning, VolumeError
from ..forms import TEXT_FORM
from ..images import ARRAY, LOW, ROWS, USUAL, identity, number_of
from .volume import Volume, allow, check_room, flat, integers, planes, stored

#: The most bytes of a header.
HEADER = 2**16
#: The dtypes by the words of the format.
TYPES = {
    word: code
    for code, words in {
        "i1": "signed char|int8|int8_t",
        "u1": "uchar|unsigned char|uint8|uint8_t",
        "i2": "short|short int|signed short|signed short int|int16|int16_t",
        "u2": "ushort|unsigned short|unsigned short int|uint16|uint16_t",
        "i4": "int|signed int|int32|int32_t",
        "u4": "uint|unsigned int|uint32|uint32_t",
        "i8": "longlong|long long|long long int|signed long long|signed long long int|int64|int64_t",
        "u8": "ulonglong|unsigned long long|unsigned long long int|uint64|uint64_t",
        "f4": "float",
        "f8": "double",
    }.items()
    for word in words.split("|")
}
WORDS = {
    "i1": "int8", "u1": "uint8", "i2": "int16", "u2": "uint16", "i4": "int32", "u4": "uint32", "i8": "int64", "u8": "uint64", "f4": "float",
    "f8": "double",
}  # fmt: skip
#: The signs of the first two rows of an affine, by which a space becomes RAS.
RAS = USUAL["image_space"]
SPACES = {
    RAS: (1, 1), "ras": (1, 1), "left-anterior-superior": (-1, 1), "las": (-1, 1), "left-posterior-superior": (-1, -1),
    "lps": (-1, -1),
}  # fmt: skip
ORIGIN = "vdb_origin"
#: The metadata pairs that files keep.
KEEPS = {*ROWS, ARRAY, LOW, "image_units", "image_space"}
#: The fields of a place.
PLACE = ("space", "space directions", "space origin", "axis mins")

Fields = Dict[str, str]


def read(path: str, max_bytes: int, floats: bool = False) -> Volume:
    """Returns the array of a file."""
    with open(path, "rb") as file:
        fields = header(file)
        begins, data = file.tell(), data_file(path, fields)
    sides, dtype = shape_of(fields), dtype_of(fields)
    allow(sides, dtype, max_bytes)
    raw = values_of(data or path, 0 if data else begins, fields, math.prod(sides) * dtype.itemsize)
    affine = affine_of(fields)
    known = () if affine is None else PLACE if "spacedirections" in fields else PLACE[:1]
    lost = [name for name in PLACE if name.replace(" ", "") in fields and name not in known]
    if lost:
        warnings.warn(f"{path}: a place of this form isn't read, so it is lost: {', '.join(lost)}", VdbWarning, stacklevel=5)
    notes = notes_of(fields if known else {**fields, "space": ""})
    return Volume(integers(raw.view(dtype).reshape(sides, order="F"), floats=floats), affine, origin_of(fields), notes, dtype)


def header(file: BinaryIO) -> Fields:
    """Reads the fields of a header, and the pairs of keys and values."""
    fields: Fields = {}
    magic = file.readline(16)
    if not re.fullmatch(rb"NRRD000[1-5]\r?\n", magic):
        raise VolumeError("no NRRD file")
    left = HEADER
    while True:
        line = file.readline(left)
        left -= len(line)
        if not line.endswith(b"\n") and left <= 0:
            raise VolumeError(f"the header has more than {HEADER:,} bytes")
        text = line.strip().decode("latin-1")
        if not text:
            return fields
        name, colon, value = text.partition(":")
        if not text.startswith("#") and colon:
            fields[name if value.startswith("=") else name.lower().replace(" ", "")] = value.lstrip("=").strip()


def field(fields: Fields, name: str) -> str:
    """Returns a field. Raises VolumeError if it is missing."""
    if name not in fields:
        raise VolumeError(f"the header has no field {name}")
    return fields[name]


def number(text: str, what: str) -> int:
    """Returns an integer of a header."""
    if not re.fullmatch(r"-?[0-9]{1,18}", text):
        raise VolumeError(f"the field {what} has {text[:40]!r}, which is no integer of up to 18 digits")
    return int(text)


def shape_of(fields: Fields) -> Tuple[int, int, int]:
    """Returns the shape of the array. Raises VolumeError for axes that aren't of space, such as colours."""
    sides = [number(word, "sizes") for word in field(fields, "sizes").split()]
    if number(field(fields, "dimension"), "dimension") != len(sides):
        raise VolumeError(f"{len(sides)} sizes, and the dimension {fields['dimension']}")
    kinds = fields.get("kinds", "").split()
    if set(map(str.lower, kinds)) - {"domain", "space", "none", "???"}:
        raise VolumeError(f"axes of the kinds {' '.join(kinds)}, where a grid takes the axes x, y, z of space")
    return flat(sides, "an array")


def dtype_of(fields: Fields) -> np.dtype:
    """Returns the dtype of the values."""
    code = TYPES.get(" ".join(field(fields, "type").lower().split()))
    if code is None:
        raise VolumeError(f"values of the type {fields['type']}, where a grid takes numbers")
    if code[1] == "1":
        return np.dtype(code)
    order = field(fields, "endian").lower()
    if order not in ("little", "big"):
        raise VolumeError(f"the endian {order}, neither little nor big")
    return np.dtype(("<" if order == "little" else ">") + code)


def data_file(path: str, fields: Fields) -> Optional[str]:
    """Returns the path of the file that holds the values, or None if they follow the header. It lies in the folder of the header, or below."""
    name = fields.get("datafile")
    if name is None:
        return None
    if os.path.isabs(name) or ".." in name.split("/") or name.startswith("LIST") or "%" in name:
        raise VolumeError(f"the data file {name}, where one file in the folder of the header is read")
    place = os.path.join(os.path.dirname(path), name)
    if not os.path.isfile(place):
        raise FileNotFoundError(errno.ENOENT, f"No such file as its data file {name}")
    return place


def values_of(path: str, begins: int, fields: Fields, needed: int) -> np.ndarray:
    """Returns the bytes of the values, which follow byte `begins` of a file."""
    encoding = field(fields, "encoding").lower()
    deflated = encoding in ("gzip", "gz")
    if not deflated and encoding != "raw":
        raise VolumeError(f"the encoding {encoding}, where raw and gzip are read")
    skip = number(fields.get("byteskip", "0"), "byte skip")
    with open(path, "rb") as file:
        size = os.fstat(file.fileno()).st_size
        file.seek(begins)
        for _ in range(number(fields.get("lineskip", "0"), "line skip")):
            if not file.readline():
                break
        begins = file.tell()
        if skip == -1 and not deflated:
            begins, skip = max(begins, size - needed), 0
        if skip < 0:
            raise VolumeError(f"the byte skip {skip}")
        check_room(size - begins, needed + skip, deflated)
        if deflated:
            return inflated(file, skip, needed)
    if begins + skip + needed != size:
        raise VolumeError(f"the header says {needed:,} bytes of values, and {size - begins - skip:,} follow")
    return np.memmap(path, np.uint8, "r", begins + skip, needed) if needed else np.zeros(0, np.uint8)


def inflated(file: BinaryIO, skip: int, needed: int) -> np.ndarray:
    """Returns the bytes of the values, which are deflated in the rest of a file."""
    made, done = np.empty(needed, np.uint8), 0
    view = memoryview(made)  # type: ignore[arg-type]
    with gzip.GzipFile(fileobj=file) as source:
        while skip:
            skip -= len(source.read(min(skip, 2**20))) or skip
        while done < needed:
            count = source.readinto(view[done : done + 2**24])
            if not count:
                raise VolumeError(f"the header says {needed:,} bytes of values, and {done:,} follow")
            done += count
        if source.read(1):
            raise VolumeError(f"more than the {needed:,} bytes of values that the header says")
    return made


def affine_of(fields: Fields) -> Optional[np.ndarray]:
    """Returns the affine of a header with the axes of RAS, or None if it has none of three axes."""
    made = identity()
    if "spacedirections" in fields:
        columns = [vector(text) for text in re.findall(r"\([^)]*\)|none", fields["spacedirections"])]
        if len(columns) < 3 or any(len(column) != 3 for column in columns[:3]):
            return None
        made[:, :3] = np.array(columns[:3]).T
        made[:, 3] = vector(fields["spaceorigin"]) if "spaceorigin" in fields else 0
    elif "spacings" in fields:
        sizes = [float(word) for word in fields["spacings"].split()]
        made[:, :3] = np.diag([size if np.isfinite(size) and size else 1 for size in [*sizes, 1, 1]][:3])
    else:
        return None
    return made * signs_of(fields.get("space", ""))


def signs_of(space: str) -> np.ndarray:
    """Returns the signs of the rows (3 x 1) by which an affine of a space becomes one of RAS, and back."""
    return np.array([*SPACES.get(space.lower(), (1, 1)), 1])[:, None]


def notes_of(fields: Fields) -> Dict[str, str]:
    """Returns the space and the units of a header, by the keys of vdb.images.NOTES."""
    units = [quote(unit) for unit in re.findall(r'"([^"]*)"', fields.get("spaceunits", fields.get("units", "")))][:3]
    space = fields.get("space", "")
    notes = {"image_space": RAS if space.lower() == "ras" else space, "image_units": ",".join(units[:1] if len({*units}) == 1 else units)}
    return {key: text for key, text in notes.items() if TEXT_FORM.match(text.encode())}


def vector(text: str) -> "list[float]":
    """Returns the numbers of a vector."""
    try:
        return [] if text == "none" else [float(word) for word in text.strip().strip("()").split(",")]
    except ValueError:
        raise VolumeError(f"the vector {text[:80]} isn't of numbers") from None


def origin_of(fields: Fields) -> "Optional[Tuple[int, int, int]]":
    """Returns the coordinate of the first voxel, which this package keeps as a pair."""
    if ORIGIN not in fields:
        return None
    x, y, z = (number(word, ORIGIN) for word in [*fields[ORIGIN].split(), "", ""][:3])
    return x, y, z


def write(file: BinaryIO, path: str, volume: Volume) -> None:
    """Writes a file with the encoding gzip. Raises VolumeError for `.nhdr`, and for an array without a voxel."""
    values = stored(volume.values)
    if path.lower().endswith(".nhdr") or not values.size:
        raise VolumeError("a .nhdr is only read: write a .nrrd" if values.size else "a NRRD file has at least one voxel")
    space, units = volume.notes.get("image_space", RAS), volume.notes.get("image_units", "")
    affine = (identity() if volume.affine is None else volume.affine) * signs_of(space)
    vectors = ["(" + ",".join(map(number_of, column)) + ")" for column in affine.T.tolist()]
    lines = [
        "NRRD0004", f"type: {WORDS[values.dtype.str[1:]]}", "dimension: 3", f"space: {space}",
        f"sizes: {' '.join(map(str, values.shape))}", f"space directions: {' '.join(vectors[:3])}", "kinds: domain domain domain",
        "endian: little", "encoding: gzip", f"space origin: {vectors[3]}",
    ]  # fmt: skip
    if units:
        lines.append("space units: " + " ".join(f'"{unquote(unit)}"' for unit in (units.split(",") * 3)[:3]))
    if volume.origin and any(volume.origin):
        lines.append(f"{ORIGIN}:={' '.join(map(str, volume.origin))}")
    file.write("\n".join([*lines, "", ""]).encode())
    with gzip.GzipFile("", "wb", 6, file, 0) as deflated:
        for part in planes(values.astype(values.dtype.newbyteorder("<"), copy=False)):
            deflated.write(part.tobytes())
