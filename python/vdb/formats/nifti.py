# SPDX-License-Identifier: Apache-2.0
"""NIfTI images of versions 1 and 2, in one file: `.nii` and `.nii.gz`. The package nibabel reads and writes them.

The affine is the sform, else the qform, else the voxel sizes. The slope and the shift of the header are applied to the values. The codes
of both transforms, a qform that differs from the affine, the voxel sizes, the units and the intent are kept as notes of the image.
"""
from __future__ import annotations

import contextlib
import gzip
import math
import os
import re
import warnings
from typing import Any, BinaryIO, Dict, Mapping, Optional
from urllib.parse import quote_from_bytes, unquote_to_bytes

import numpy as np

from ..errors import VdbWarning, VolumeError
from ..forms import Coordinate
from ..images import KEYS, USUAL, identity, numbers_of, text_of
from .volume import Volume, allow, axes_note, check_room, flat, integers, package, quiet, stored, with_axes

#: The greatest side of an image of version 1.
MOST = 2**15 - 1
#: The bits of a header's units that are of space, and the unit of each number there.
SPACE, UNITS = 7, {1: "m", 2: "mm", 3: "um"}
#: The fields of a qform by the notes that keep them.
QFORM = {"image_turn": ("quatern_b", "quatern_c", "quatern_d"), "image_shift": ("qoffset_x", "qoffset_y", "qoffset_z")}
#: The metadata pairs that files keep.
KEEPS = {*KEYS} - {"image_space"}
INTENT = ("intent_code", "intent_p1", "intent_p2", "intent_p3")


def nibabel() -> Any:
    """Returns the package."""
    return package("nibabel", "python3-nibabel")


def read(path: str, max_bytes: int, floats: bool = False) -> Volume:
    """Returns the image of a file."""
    library = nibabel()
    with quiet("nibabel.global"), contextlib.ExitStack() as stack:
        deflated = path.lower().endswith(".gz")
        source = stack.enter_context(gzip.open(path) if deflated else open(path, "rb"))
        form = {348: library.Nifti1Image, 540: library.Nifti2Image}.get(header_size(source.read(4)))
        if form is None:
            raise VolumeError("no NIfTI image")
        source.seek(0)
        image = form.from_stream(source) if deflated else form.from_filename(path)
        sides, dtype = flat(image.shape, "an image"), image.get_data_dtype()
        allow(sides, dtype, max_bytes)
        check_room(os.path.getsize(path) - (0 if deflated else image.dataobj.offset), math.prod(sides) * dtype.itemsize, deflated)
        values, scale = np.zeros(sides, np.uint8), (float(image.dataobj.slope), float(image.dataobj.inter))
        if math.prod(sides):
            values = integers(np.asanyarray(image.dataobj.get_unscaled()).reshape(sides, order="F"), *scale, floats=floats)
        while deflated and source.read(2**20):
            pass  # the checksum is at the end
    affine = affine_of(image.header)
    notes = {**notes_of(image.header, affine), **axes_note(image.shape)}
    return Volume(values, affine, origin_of(image.header), notes, dtype if scale == (1, 0) else None)


def header_size(data: bytes) -> int:
    """Returns the number of bytes of a header, which its first four bytes tell in either order."""
    return min(int.from_bytes(data, order) for order in ("little", "big"))  # type: ignore[arg-type]


def affine_of(header: Any) -> np.ndarray:
    """Returns the affine of a header."""
    if header["sform_code"] > 0 or header["qform_code"] > 0:
        return np.asarray(header.get_best_affine(), np.float64)[:3]
    sizes = [float(size) or 1 for size in header.get_zooms()[:3]]
    return np.diag([*sizes, 1, 1][:3]) @ identity()


def origin_of(header: Any) -> Optional[Coordinate]:
    """Returns the coordinate of the first voxel, which this package writes into the description."""
    number = rb" (-?\d{1,10})"
    found = re.fullmatch(b"vdb origin" + 3 * number, header["descrip"].item())
    return (int(found[1]), int(found[2]), int(found[3])) if found else None


def notes_of(header: Any, affine: np.ndarray) -> Dict[str, str]:
    """Returns what a header says besides the affine, by the keys of vdb.images.NOTES."""
    units, codes = int(header["xyzt_units"]), (int(header["sform_code"]), int(header["qform_code"]))
    version = ",2" if header["sizeof_hdr"] == 540 else ""
    notes = {"image_nifti": f"{codes[0]},{codes[1]},{units & ~SPACE}{version}", "image_units": UNITS.get(units & SPACE, "")}
    intent = [float(header[name]) for name in INTENT]
    while intent and not intent[-1]:
        intent.pop()
    notes["image_intent"], notes["image_name"] = text_of(intent), quote_from_bytes(header["intent_name"].item(), "")
    if np.isfinite(affine).all() and np.linalg.matrix_rank(affine[:, :3]) == 3:
        usual = type(header)()
        place(usual, affine, {})
        for key, text in transform_of(header).items():
            if (codes[1] > 0 or key == "image_sizes") and (codes[0] <= 0 or text != transform_of(usual)[key]):
                notes[key] = text
    return {key: text for key, text in notes.items() if text}


def codes_of(notes: "Mapping[str, str]") -> "list[int]":
    """Returns the codes of the sform, the qform and the unit of time, and behind them the version if it isn't 1. Without a note they are
    the usual ones."""
    return [int(code) for code in notes.get("image_nifti", USUAL["image_nifti"]).split(",")]


def transform_of(header: Any) -> Dict[str, str]:
    """Returns the texts of a header's qform and of its voxel sizes."""
    made = {key: [float(header[name]) for name in names] for key, names in QFORM.items()}
    sign, *made["image_sizes"] = header["pixdim"][:4].tolist()
    made["image_turn"].append(sign)
    return {key: text_of(found) for key, found in made.items()}


def place(header: Any, affine: np.ndarray, notes: "Mapping[str, str]", offset: Coordinate = (0, 0, 0)) -> None:
    """Puts an affine of indices and notes into a new header. The first voxel lies at the index `offset` of the image of these notes."""
    sform, qform, time = codes_of(notes)[:3]
    whole = np.vstack([affine, [0, 0, 0, 1]]).astype(header["srow_x"].dtype).astype(np.float64)  # as the header keeps it
    header.set_qform(whole, qform)
    header.set_sform(whole if sform else None, sform)
    units = notes.get("image_units", "")
    if units and units not in UNITS.values():
        warnings.warn(f"NIfTI has no unit {units}, so none is written", VdbWarning, stacklevel=2)
    header["xyzt_units"] = time + next((number for number, unit in UNITS.items() if unit == units), 0)
    if "image_sizes" in notes:
        header["pixdim"][1:4] = numbers_of(notes["image_sizes"])
    if "image_turn" in notes:
        *turn, header["pixdim"][0] = numbers_of(notes["image_turn"])
        fill(header, QFORM["image_turn"], turn)
    if "image_shift" in notes:
        fill(header, QFORM["image_shift"], numbers_of(notes["image_shift"]) + header.get_qform()[:3, :3] @ offset)
    fill(header, INTENT, numbers_of(notes.get("image_intent", "0")))
    header["intent_name"] = unquote_to_bytes(notes.get("image_name", ""))


def fill(header: Any, names: "tuple[str, ...]", numbers: Any) -> None:
    """Sets the first fields of some names to numbers."""
    for name, number in zip(names, numbers):
        header[name] = number


def write(file: BinaryIO, path: str, volume: Volume) -> None:
    """Writes an image: of version 2 if a side doesn't fit version 1, or the image was of version 2."""
    library, values = nibabel(), np.asfortranarray(with_axes(stored(volume.values), volume.notes))
    form = library.Nifti2Image if max(values.shape) > MOST or codes_of(volume.notes)[3:] else library.Nifti1Image
    affine = identity() if volume.affine is None else volume.affine
    image = form(values, None, dtype=values.dtype)
    place(image.header, affine, volume.notes, volume.offset)
    if volume.origin and any(volume.origin):
        image.header["descrip"] = "vdb origin {} {} {}".format(*volume.origin).encode()
    if path.lower().endswith(".gz"):
        with gzip.GzipFile("", "wb", 6, file, 0) as deflated:
            image.to_stream(deflated)
    else:
        image.to_stream(file)
