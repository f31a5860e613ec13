# SPDX-License-Identifier: Apache-2.0
"""VTK's XML files of images, as ParaView reads and writes them: `.vti`.

The extent of the image has the coordinates of the voxels. The values are those of the points, one array of one number each, or in a file
that is read those of the cells. A file of one piece is read, whose values are text, base64 or raw bytes, deflated by zlib or as they are.
"""
from __future__ import annotations

import base64
import binascii
import math
import os
import struct
import zlib
from typing import BinaryIO, Dict, Iterator, List, Tuple
from xml.etree import ElementTree

import numpy as np

from ..errors import VolumeError
from ..forms import Coordinate, check_coordinate
from ..images import ARRAY, LOW, ROWS, identity, moved, number_of
from .volume import Volume, allow, check_room, integers, planes, stored

Element = ElementTree.Element
#: The dtypes by the words of the format.
TYPES = {f"{sign}Int{bits}": f"{sign.lower()}int{bits}" for sign in ("", "U") for bits in (8, 16, 32, 64)}
TYPES.update({"Float32": "float32", "Float64": "float64"})
#: The metadata pairs that files keep.
KEEPS = {*ROWS, ARRAY, LOW}
ZLIB = "vtkZLibDataCompressor"
#: How many bytes are deflated together.
BLOCK = 1 << 20
CLOSING = b"</AppendedData>"
HEAD = """\
<?xml version="1.0"?>
<VTKFile type="ImageData" version="1.0" byte_order="LittleEndian" header_type="UInt64" compressor="{compressor}">
  <ImageData WholeExtent="{extent}" Origin="{origin}" Spacing="{spacing}" Direction="{direction}">
    <Piece Extent="{extent}">
      <PointData Scalars="labels">
        <DataArray type="{type}" Name="labels" format="appended" offset="0"/>
      </PointData>
    </Piece>
  </ImageData>
  <AppendedData encoding="base64">
   _"""


def read(path: str, max_bytes: int, floats: bool = False) -> Volume:
    """Returns the image of a file."""
    with open(path, "rb") as file:
        size = os.fstat(file.fileno()).st_size
        if size > max_bytes:
            raise VolumeError(f"the file has {size:,} bytes, more than max_bytes = {max_bytes:,}")
        data = file.read(size)
    begins, ends = appended(data)
    text = data[:begins] + data[ends:]
    if b"<!" in text:
        raise VolumeError("the XML has a declaration, which no image needs")
    root = ElementTree.fromstring(text)
    image = only(root, "ImageData")
    piece = only(image, "Piece")
    part, array = array_of(piece)
    low, sides = box_of(piece, part.tag == "CellData")
    dtype = np.dtype(TYPES.get(array.get("type", ""), "V")).newbyteorder(order_of(root))  # type: ignore[arg-type]
    if dtype.kind == "V" or int(array.get("NumberOfComponents") or 1) != 1:
        raise VolumeError(f"values of the type {array.get('type')}, {array.get('NumberOfComponents') or 1} a voxel, where a grid takes numbers")
    allow(sides, dtype, max_bytes)
    values = values_of(root, array, source_of(root, array, memoryview(data)[begins:ends]), dtype, math.prod(sides))
    affine = affine_of(image)
    if part.tag == "CellData":
        affine = moved(affine, (0.5, 0.5, 0.5))
    return Volume(integers(values.reshape(sides, order="F"), floats=floats), moved(affine, low), low, dtype=dtype)


def order_of(root: Element) -> str:
    """Returns the letter for the order of bytes. Raises VolumeError if the file doesn't say it."""
    order = {"LittleEndian": "<", "BigEndian": ">"}.get(root.get("byte_order", ""))
    if order is None:
        raise VolumeError(f"the byte_order {root.get('byte_order')}, neither LittleEndian nor BigEndian")
    return order


def appended(data: bytes) -> Tuple[int, int]:
    """Returns where the appended values of a file begin and end, which may be no XML. Without them, both are 0."""
    found = data.find(b"<AppendedData")
    if found < 0:
        return 0, 0
    begins, ends = data.find(b"_", data.find(b">", found)) + 1, data.rfind(CLOSING)
    if not 0 < begins <= ends:
        raise VolumeError("the appended values have no beginning or no end")
    return begins, ends


def only(element: Element, tag: str) -> Element:
    """Returns the only child of a tag."""
    found = element.findall(tag)
    if len(found) != 1:
        raise VolumeError(f"{len(found)} elements {tag}, where one is read")
    return found[0]


def array_of(piece: Element) -> Tuple[Element, Element]:
    """Returns the only array of a piece, or the one that is named as its scalars, behind the element which holds it."""
    for tag in ("PointData", "CellData"):
        for part in piece.findall(tag):
            arrays = [it for it in part.findall("DataArray") if part.get("Scalars") in (None, "", it.get("Name"))]
            if len(arrays) == 1:
                return part, arrays[0]
            if arrays:
                raise VolumeError(f"{len(arrays)} arrays, where one is read: {', '.join(str(it.get('Name')) for it in arrays)}")
    raise VolumeError("no array of the points or of the cells")


def numbers(element: Element, name: str, count: int, usual: str) -> List[float]:
    """Returns the numbers of an attribute."""
    words = (element.get(name) or usual).split()
    if len(words) != count:
        raise VolumeError(f"{name} has {len(words)} numbers, not {count}")
    return [float(word) for word in words]


def box_of(piece: Element, of_cells: bool) -> Tuple[Coordinate, Tuple[int, int, int]]:
    """Returns the least coordinate of a piece and its shape in voxels, which are points or cells."""
    ends = [int(it) for it in numbers(piece, "Extent", 6, "")]
    low = check_coordinate(ends[::2], "extent")
    x, y, z = (max(0, last - first + (not of_cells)) for first, last in zip(ends[::2], ends[1::2]))
    return low, (x, y, z)


def affine_of(image: Element) -> np.ndarray:
    """Returns the affine of an image: the direction times the spacing, and the origin."""
    made = identity()
    made[:, :3] = np.array(numbers(image, "Direction", 9, "1 0 0 0 1 0 0 0 1")).reshape(3, 3) * numbers(image, "Spacing", 3, "1 1 1")
    made[:, 3] = numbers(image, "Origin", 3, "0 0 0")
    return made


class Source:
    """The bytes of an array: raw, or parts in base64."""

    def __init__(self, data: memoryview, is_text: bool) -> None:
        self.data, self.is_text, self.at = data, is_text, 0

    def take(self, count: int) -> bytes:
        """Returns the next bytes, which in base64 are a part that is encoded alone. Raises VolumeError if there are fewer."""
        length = -(-count // 3) * 4 if self.is_text else count
        part = bytes(self.data[self.at : self.at + length])
        self.at += length
        try:
            made = base64.b64decode(part, validate=True) if self.is_text else part
        except binascii.Error as error:
            raise VolumeError(f"values in base64: {error}") from error
        if len(made) < count:
            raise VolumeError(f"{count:,} bytes of values are expected, and {len(made):,} follow")
        return made[:count]


def source_of(root: Element, array: Element, data: memoryview) -> Source:
    """Returns the bytes of an array, which are appended to the file or stand in the element."""
    if array.get("format") == "appended":
        offset = int(array.get("offset") or 0)
        if not 0 <= offset <= len(data):
            raise VolumeError(f"the offset {offset}, and {len(data):,} bytes are appended")
        encoding = only(root, "AppendedData").get("encoding")
        if encoding not in ("raw", "base64"):
            raise VolumeError(f"the encoding {encoding}, where raw and base64 are read")
        return Source(data[offset:], encoding == "base64")
    return Source(memoryview("".join((array.text or "").split() if array.get("format") == "binary" else array.text or "").encode()), True)


def values_of(root: Element, array: Element, source: Source, dtype: np.dtype, voxels: int) -> np.ndarray:
    """Returns the values of an array."""
    if array.get("format") == "ascii":
        words = bytes(source.data).split()
        if len(words) != voxels:
            raise VolumeError(f"{len(words):,} values, and the extent has {voxels:,} voxels")
        return np.array([int(word) for word in words], dtype) if dtype.kind in "iu" else np.array(words).astype(dtype)
    word = {"UInt32": "I", "UInt64": "Q"}.get(root.get("header_type") or "UInt32")
    if word is None or root.get("compressor") not in (None, "", ZLIB):
        raise VolumeError(f"the header {root.get('header_type')} and the compressor {root.get('compressor')}, where {ZLIB} is read")
    form = order_of(root) + word
    needed = voxels * dtype.itemsize
    check_room(len(source.data), needed, bool(root.get("compressor")))
    data = inflated(source, form, needed) if root.get("compressor") else plain(source, form, needed)
    return np.frombuffer(data, dtype)


def plain(source: Source, form: str, needed: int) -> bytes:
    """Returns the bytes of values, whose number stands before them."""
    data = source.take(struct.calcsize(form) + needed)
    (told,) = struct.unpack_from(form, data)
    if told != needed:
        raise VolumeError(f"{told:,} bytes of values, and the extent needs {needed:,}")
    return data[struct.calcsize(form) :]


def inflated(source: Source, form: str, needed: int) -> bytearray:
    """Returns the bytes of values in deflated blocks. Before them stand the number of blocks, the bytes of each and of a last one that is
    smaller, or 0, and the bytes of each deflated block."""
    size = struct.calcsize(form)
    (blocks,) = struct.unpack(form, source.take(size))
    source.at = 0
    check_room(len(source.data), blocks * size)
    _, most, last, *lengths = struct.unpack(f"{form[0]}{3 + blocks}{form[1]}", source.take((3 + blocks) * size))
    sizes = [most] * (blocks - bool(last)) + [last] * bool(last)
    if sum(sizes) != needed or len(sizes) != blocks:
        raise VolumeError(f"{sum(sizes):,} bytes of values, and the extent needs {needed:,}")
    check_room(len(source.data), sum(lengths))
    data, made, at = source.take(sum(lengths)), bytearray(), 0
    for length, wanted in zip(lengths, sizes):
        stream = zlib.decompressobj()
        part = stream.decompress(data[at : at + length], wanted + 1)
        if len(part) != wanted or not stream.eof:  # the checksum is at its end
            raise VolumeError(f"a block of {wanted:,} bytes of values has another length")
        made += part
        at += length
    return made


def write(file: BinaryIO, _path: str, volume: Volume) -> None:
    """Writes an image with deflated values in base64."""
    values, low = stored(volume.values), volume.origin or (0, 0, 0)
    affine = moved(identity() if volume.affine is None else volume.affine, [-part for part in low])
    spacing = np.linalg.norm(affine[:, :3], axis=0)
    attributes: Dict[str, str] = {
        "compressor": ZLIB,
        "extent": " ".join(f"{at} {at + side - 1}" for at, side in zip(low, values.shape)),
        "origin": " ".join(map(number_of, affine[:, 3].tolist())),
        "spacing": " ".join(map(number_of, spacing.tolist())),
        "direction": " ".join(map(number_of, (affine[:, :3] / spacing).ravel().tolist())),
        "type": next(word for word, name in TYPES.items() if name == values.dtype.name),
    }
    file.write(HEAD.format(**attributes).encode())
    lengths, blocks = [], []
    for block in blocks_of(values.astype(values.dtype.newbyteorder("<"), copy=False)):
        lengths.append(len(block))
        blocks.append(zlib.compress(block, 6))
    full = lengths[0] if lengths else 0
    last = lengths[-1] if lengths and lengths[-1] != full else 0
    head = struct.pack(f"<{3 + len(blocks)}Q", len(blocks), full, last, *map(len, blocks))
    file.write(base64.b64encode(head) + base64.b64encode(b"".join(blocks)) + b"\n  " + CLOSING + b"\n</VTKFile>\n")


def blocks_of(values: np.ndarray) -> Iterator[bytes]:
    """Yields the bytes of an array, x first, in blocks of one size and a smaller last one."""
    left = b""
    for part in planes(values):
        data = left + part.tobytes()
        whole = len(data) // BLOCK * BLOCK
        yield from (data[first : first + BLOCK] for first in range(0, whole, BLOCK))
        left = data[whole:]
    if left:
        yield left
