# SPDX-License-Identifier: Apache-2.0
"""Files of meshes: PLY, glTF in one file, and OBJ."""
from __future__ import annotations

import json
import struct
from typing import Any, Callable, Dict, Iterator, List, NamedTuple, Tuple

import numpy as np

from ..errors import RangeError
from ..label_names import Names, coloured
from ..scenefile import picture
from ..scenefile.mesh import Mesh
from .common import text_of

#: How many rows are written at once.
ROWS = 1 << 16
#: glTF keeps corners as floats of 32 bits, which hold all integers up to this one.
FLOAT_SPAN = 2**24
#: glTF keeps the length of a file in 32 bits.
MOST_BYTES = 2**32 - 1


class Model(NamedTuple):
    """A mesh with the name of its grid, the values of its labels (n, rising), the affine (3 x 4) of the middles of voxels, and the names
    of labels."""

    name: str
    values: np.ndarray
    mesh: Mesh
    affine: np.ndarray
    names: Names = {}

    @property
    def colours(self) -> np.ndarray:
        """The colours of the labels (n x 3, uint8)."""
        return coloured(picture.colours_of(self.values), self.values, self.names)

    @property
    def triangles(self) -> np.ndarray:
        """The triangles (n x 3, int64), anticlockwise in the world, seen from outside."""
        found = self.mesh.triangles
        return found if np.linalg.det(self.affine[:, :3]) > 0 else found[:, ::-1]

    def places(self, corners: np.ndarray) -> "Iterator[np.ndarray]":
        """Yields corners (m x 3) in the world (float64), in chunks."""
        for first in range(0, len(corners), ROWS):
            yield (corners[first : first + ROWS] - 0.5) @ self.affine[:, :3].T + self.affine[:, 3]

    def texts(self) -> "List[str]":
        """Returns the text of each value, and behind it the name if it has one."""
        names = [self.names[value].name.split() if value in self.names else [] for value in self.values.tolist()]
        return [" ".join([text_of(value), *name]) for value, name in zip(self.values.tolist(), names)]

    def groups(self) -> "List[Tuple[str, int, int]]":
        """Returns the labels: the text of each, and its first triangle and the one after its last."""
        ends = (2 * np.searchsorted(self.mesh.label, np.arange(len(self.values) + 1))).tolist()
        return list(zip(self.texts(), ends, ends[1:]))


def ply(model: Model) -> "Iterator[bytes]":
    """Yields a PLY file, binary and little endian. Each label has corners of its own, which have its colour and its number, since many
    programs read no such property of a face. Raises RangeError for a label outside 32 bits."""
    numbers = model.values.astype(np.int64)
    outside = numbers[numbers.astype(np.int32) != numbers]
    if len(outside):
        raise RangeError(f"PLY has no integers of 64 bits for the label {outside[0]}: write .glb or .obj")
    corners = model.mesh.corners
    keys, triangles = np.unique(np.repeat(model.mesh.label, 2)[:, None].astype(np.int64) * len(corners) + model.triangles, return_inverse=True)
    triangles, (of, corner) = triangles.reshape(-1, 3), np.divmod(keys, len(corners))
    names = "".join(f"comment label {text}\n" for text in map(ascii_of, model.texts()) if " " in text)
    colour_lines = "".join(f"property uchar {part}\n" for part in ("red", "green", "blue"))
    yield (
        f"ply\nformat binary_little_endian 1.0\ncomment grid {model.name}\n{names}element vertex {len(keys)}\n"
        f"property double x\nproperty double y\nproperty double z\n{colour_lines}property int label\n"
        f"element face {len(triangles)}\nproperty list uchar int vertex_indices\nend_header\n"
    ).encode()
    vertex = np.dtype([("place", "<f8", 3), ("colour", "u1", 3), ("label", "<i4")])
    colours, first = model.colours, 0
    for places in model.places(corners[corner]):
        labels = of[first : first + len(places)]
        first += len(places)
        yield packed_rows(vertex, place=places, colour=colours[labels], label=numbers[labels])
    face = np.dtype([("count", "u1"), ("corners", "<i4", 3)])
    for first in range(0, len(triangles), ROWS):
        yield packed_rows(face, count=3, corners=triangles[first : first + ROWS])


def packed_rows(form: np.dtype, **columns: Any) -> bytes:
    """Returns the bytes of rows of this form. The last column has their number."""
    rows = np.empty(len(list(columns.values())[-1]), form)
    for name, column in columns.items():
        rows[name] = column
    return rows.tobytes()


def ascii_of(text: str) -> str:
    """Returns a text as ASCII, which the header of PLY is."""
    return text.encode("ascii", "backslashreplace").decode()


def obj(model: Model) -> "Iterator[bytes]":
    """Yields an OBJ file. Each label is a group."""
    yield f"# grid {model.name}\no {model.name}\n".encode()
    for places in model.places(model.mesh.corners):
        yield ("v %.12g %.12g %.12g\n" * len(places) % tuple(places.ravel().tolist())).encode()
    triangles = model.triangles + 1
    for text, start, past in model.groups():
        yield f"g label_{text.replace(' ', '_')}\n".encode()
        for first in range(start, past, ROWS):
            part = triangles[first : min(first + ROWS, past)]
            yield ("f %d %d %d\n" * len(part) % tuple(part.ravel().tolist())).encode()


def glb(model: Model) -> "Iterator[bytes]":
    """Yields a binary glTF 2.0 file. Each label is a mesh of one primitive with a material; the root node has the affine.

    Raises RangeError if the corners span too much for floats of 32 bits, or the file would have 4 GiB.
    """
    corners = model.mesh.corners
    low = corners.min(axis=0)
    high = corners.max(axis=0) - low
    if high.max() > FLOAT_SPAN:
        raise RangeError(f"the faces span {high.max():,} voxels, and the floats of glTF hold {FLOAT_SPAN:,}: write .ply or .obj")
    text = json.dumps(document(model, low, high), separators=(",", ":")).encode()
    text += b" " * (-len(text) % 4)
    length = 12 * (len(corners) + 2 * len(model.mesh.quads))
    whole = 12 + 8 + len(text) + 8 + length
    if whole > MOST_BYTES:
        raise RangeError(f"a file of {whole:,} bytes is too long for glTF: write .ply or .obj")
    yield struct.pack("<4sIIII", b"glTF", 2, whole, len(text), 0x4E4F534A) + text
    yield struct.pack("<II", length, 0x004E4942)
    for first in range(0, len(corners), ROWS):
        yield (corners[first : first + ROWS] - low).astype("<f4").tobytes()
    triangles = model.mesh.triangles  # the viewer turns them itself if the affine mirrors
    for first in range(0, len(triangles), ROWS):
        yield triangles[first : first + ROWS].astype("<u4").tobytes()


def document(model: Model, low: np.ndarray, high: np.ndarray) -> "Dict[str, Any]":
    """Returns the JSON of a glTF file whose buffer has the corners past `low`, then the triangles label by label."""
    corners, count = 12 * len(model.mesh.corners), len(model.mesh.corners)
    matrix = np.eye(4)
    matrix[:3, :3] = model.affine[:, :3]
    matrix[:3, 3] = model.affine[:, :3] @ (low - 0.5) + model.affine[:, 3]
    groups = list(enumerate(model.groups()))
    return {
        "asset": {"version": "2.0", "generator": "vdb-scene"},
        "scene": 0,
        "scenes": [{"nodes": [0]}],
        "nodes": [
            {"name": model.name, "matrix": matrix.T.ravel().tolist(), "children": [place + 1 for place, _ in groups]},
            *({"name": f"{model.name} {text}", "mesh": place} for place, (text, _, _) in groups),
        ],
        "meshes": [
            {"name": f"{model.name} {text}", "primitives": [{"attributes": {"POSITION": 0}, "indices": place + 1, "material": place}]}
            for place, (text, _, _) in groups
        ],
        "materials": [
            {
                "name": f"label {text}",
                "pbrMetallicRoughness": {"baseColorFactor": [*colour, 1], "metallicFactor": 0, "roughnessFactor": 0.9},
            }
            for (_, (text, _, _)), colour in zip(groups, linear(model.colours).tolist())
        ],
        "accessors": [
            {"bufferView": 0, "componentType": 5126, "count": count, "type": "VEC3", "min": [0, 0, 0], "max": high.tolist()},
            *(
                {"bufferView": 1, "byteOffset": 12 * first, "componentType": 5125, "count": 3 * (past - first), "type": "SCALAR"}
                for _, (_, first, past) in groups
            ),
        ],
        "bufferViews": [
            {"buffer": 0, "byteOffset": 0, "byteLength": corners, "target": 34962},
            {"buffer": 0, "byteOffset": corners, "byteLength": 24 * len(model.mesh.quads), "target": 34963},
        ],
        "buffers": [{"byteLength": corners + 24 * len(model.mesh.quads)}],
    }


def linear(colours: np.ndarray) -> np.ndarray:
    """Returns colours of sRGB (n x 3, uint8) as glTF has them, linear from 0 to 1."""
    part = colours / 255.0
    return np.where(part <= 0.04045, part / 12.92, ((part + 0.055) / 1.055) ** 2.4).round(5)


#: What writes a model, by the ending of the file.
WRITERS: "Dict[str, Callable[[Model], Iterator[bytes]]]" = {".ply": ply, ".glb": glb, ".obj": obj}
