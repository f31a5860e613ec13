# SPDX-License-Identifier: Apache-2.0
"""Names and colours of labels: metadata pairs of a grid keep up to 384 characters of them, and a table beside a file any number.

    organs = vdb.load("labels.vdbs")["organs"]
    for row in organs.labels().rows(organs.names or label_names.of("labels.vdbs", "organs")):
        print(row.value, row.name, row.voxels)

`vdb.formats.load` gives a grid the names of its file, and `grid.names = ..` sets them. They go with the grid through calls and scene files.
A table is the one of BIDS: columns `index`, `name` and `color` (as #ff8800), with tabs between them. That of the grid `organs` of
`labels.vdbs` is `labels.organs.tsv`, else `labels.tsv`; that of `labels_dseg.nii.gz` is `labels_dseg.tsv`. Names are also read of the
header of a `.seg.nrrd`, and of a label file of ITK-SNAP.
"""
from __future__ import annotations

import csv
import io
import os
import re
import warnings
from typing import TYPE_CHECKING, Any, Dict, Mapping, NamedTuple, Optional, Tuple
from urllib.parse import quote_plus, unquote_plus

import numpy as np

from . import images, zarr_stores
from .errors import LimitError, MissingFileError, VdbError, VdbWarning, VolumeError
from .files import naming, replacing
from .formats import nrrd
from .forms import MAX_PAIRS, MAX_TEXT, Metadata

if TYPE_CHECKING:
    from .reading import Readable

#: The most bytes of a table.
MOST_BYTES = 2**24
ENDINGS = re.compile(r"(\.seg)?\.(vdbs|vdbs\.gz|nii|nii\.gz|nrrd|nhdr|tiff?|vti|npy)$", re.IGNORECASE)
SNAP = re.compile(r'\s*(-?\d+)' + r"\s+(\d+)" * 3 + r'\s+\S+\s+\S+\s+\S+\s+"(.*)"\s*$')
SEGMENT = re.compile(r"(Segment\d+)_LabelValue$")
#: A label in metadata pairs: its value, its name with spaces as + and other bytes as %20, and its colour.
ENTRY = re.compile(r"(-?\d{1,19}):([^:]*)(?::([0-9a-f]{6}))?")


class Label(NamedTuple):
    """The name of a label and its colour, red, green and blue from 0 to 255, or None if the table has none."""

    name: str
    colour: Optional[Tuple[int, int, int]] = None


#: Labels by their values.
Names = Dict[int, Label]


class NoTable(ValueError):
    """The columns of a table aren't those of names."""


def of(path: "str | os.PathLike[str]", grid: str = "", metadata: "Mapping[str, str]" = {}) -> Names:
    """Returns the names of the labels of an image file, or of a grid of a scene file: those of its header, else of the table beside it, else
    of metadata pairs. Without any it returns none. Raises VolumeError if a row of the table has another form, and FileError if it can't be read."""
    name = os.fspath(path)
    if zarr_stores.is_store(name):
        return of_image_label(zarr_stores.attributes_of(name).get("image-label", {}))
    for place in [name] * name.lower().endswith((".nrrd", ".nhdr")) + [table_of(name, grid), table_of(name)]:
        try:
            names = read(place)
        except MissingFileError:
            continue
        except VolumeError as error:
            if isinstance(error.__cause__, NoTable):
                continue
            raise
        if names or place != name:
            return names
    return of_pairs(metadata)


def table_of(path: "str | os.PathLike[str]", grid: str = "") -> str:
    """Returns the path of the table beside an image file, or for a grid beside a scene file."""
    return ENDINGS.sub("", os.fspath(path)) + (f".{grid}" if grid else "") + ".tsv"


def read(path: "str | os.PathLike[str]") -> Names:
    """Returns the names of a table of BIDS (.tsv), of the header of a NRRD file (.nrrd, .nhdr), or of a label file of ITK-SNAP (any other
    ending). Raises VolumeError if the file has another form, and FileError if it can't be read."""
    name = os.fspath(path)
    with naming(name), open(name, "rb") as file:
        try:
            if name.lower().endswith((".nrrd", ".nhdr")):
                return of_segments(nrrd.header(file))
            text = file.read(MOST_BYTES + 1).decode("utf-8-sig")
            if len(text) > MOST_BYTES:
                raise ValueError(f"a table of names has at most {MOST_BYTES:,} bytes")
            return (of_table if name.lower().endswith(".tsv") else of_snap)(text)
        except (ValueError, csv.Error) as error:
            raise VolumeError(getattr(error, "reason", None) or str(error), name) from error


def of_pairs(metadata: "Mapping[str, str]") -> Names:
    """Returns the names that metadata pairs keep. Raises VolumeError if they have another form."""
    text = "".join(metadata[key] for key in images.LABELS if key in metadata)
    found = [ENTRY.fullmatch(entry) for entry in text.split(";")] if text else []
    if not all(found):
        raise VolumeError(f"the pairs {images.LABELS[0]} and so on aren't of the form 2:left+kidney:ff8800;5:liver, but {text!r}")
    return {int(entry[1]): Label(unquote_plus(entry[2]), colour_of(entry[3], 1)) for entry in found if entry}


def put(metadata: Metadata, names: Names) -> None:
    """Keeps names in metadata pairs, in place of others. Raises LimitError, before anything changes, if there is no room for them.

    Examples
    --------
    >>> metadata = Metadata({"patient": "17"})
    >>> put(metadata, {2: Label("left kidney", (255, 136, 0)), 5: Label("liver")})
    >>> metadata["label_names_1"], of_pairs(metadata)[5]
    ('2:left+kidney:ff8800;5:liver', Label(name='liver', colour=None))
    """
    text = ";".join(
        f"{index}:{quote_plus(name, '()/,')}{':%02x%02x%02x' % colour if colour else ''}" for index, (name, colour) in sorted(names.items())
    )
    room = MAX_TEXT * min(len(images.LABELS), MAX_PAIRS - len({*metadata} - {*images.LABELS}))
    if len(text) > room:
        told = "vdb.label_names.keep(FILE, names, GRID) writes them to a table beside a file"
        raise LimitError(f"the names of {len(names):,} labels have {len(text):,} characters, and metadata pairs room for {room}: {told}")
    images.put(metadata, {key: text[at : at + MAX_TEXT] for key, at in zip(images.LABELS, range(0, len(text), MAX_TEXT))}, images.LABELS)


def give(grid: "Readable", path: "str | os.PathLike[str]", names: "Optional[Names]" = None) -> None:
    """Gives a grid names, or those of the file that it was read of. Warns if it has no room for them, or the file's have a fault."""
    try:
        found = of(path) if names is None else names
        if found:
            grid.names = found
    except VdbError as error:
        warnings.warn(f"{os.fspath(path)} is read without the names of labels: {error}", VdbWarning, stacklevel=3)


def of_table(text: str) -> Names:
    """Returns the names of a table of BIDS."""
    rows = csv.DictReader(io.StringIO(text), delimiter="\t", quoting=csv.QUOTE_NONE)
    if not {"index", "name"} <= {*(rows.fieldnames or ())}:
        raise NoTable("the table has no columns index and name, with tabs between them")
    names: Names = {}
    for row in rows:
        number = number_of(row["index"], rows.line_num)
        if number in names:
            raise ValueError(f"line {rows.line_num}: the index {number} has a name already")
        names[number] = Label(row["name"] or "", colour_of(row.get("color"), rows.line_num))
    return names


def number_of(text: "str | None", line: int) -> int:
    """Returns the index of a row. Raises ValueError for another text."""
    if not re.fullmatch(r"-?\d{1,19}", text or ""):
        raise ValueError(f"line {line}: the index {text!r} is no integer")
    return int(text or "")


def colour_of(text: "str | None", line: int) -> "Optional[Tuple[int, int, int]]":
    """Returns the colour of a row, or None if it has none. Raises ValueError for another text."""
    if not text or text == "n/a":
        return None
    found = re.fullmatch(r"#?([0-9a-fA-F]{6})", text)
    if not found:
        raise ValueError(f"line {line}: the color {text!r} isn't of the form #ff8800")
    red, green, blue = bytes.fromhex(found[1])
    return red, green, blue


def of_snap(text: str) -> Names:
    """Returns the names of a label file of ITK-SNAP: index, red, green, blue, opacity, two flags and the name in quotes."""
    names: Names = {}
    for number, line in enumerate(text.splitlines(), 1):
        if line.strip() and not line.lstrip().startswith("#"):
            found = SNAP.match(line)
            if not found or max(map(int, found.group(2, 3, 4))) > 255:
                raise ValueError(f"line {number}: no label of ITK-SNAP, and no table of BIDS, whose name ends in .tsv: {line.strip()[:80]!r}")
            names[int(found[1])] = Label(found[5], (int(found[2]), int(found[3]), int(found[4])))
    return names


def of_segments(fields: "Mapping[str, str]") -> Names:
    """Returns the names of the segments in a header of NRRD, as 3D Slicer writes it."""
    names: Names = {}
    for key, value in fields.items():
        segment = SEGMENT.match(key)
        if segment:
            parts = [round(255 * float(part)) for part in fields.get(f"{segment[1]}_Color", "").split()]
            colour = (parts[0], parts[1], parts[2]) if len(parts) == 3 and 0 <= min(parts) <= max(parts) <= 255 else None
            names[nrrd.number(value, key)] = Label(fields.get(f"{segment[1]}_Name", ""), colour)
    return names


def of_image_label(label: "Mapping[str, Any]") -> Names:
    """Returns the names and colours that the attribute image-label of OME-Zarr has. Raises VolumeError if it has another form."""
    try:
        colours = {int(it["label-value"]): it["rgba"] for it in label.get("colors", ()) if "rgba" in it}
        texts = {int(it["label-value"]): str(it.get("name", "")) for it in label.get("properties", ())}
        parts = {value: (int(red), int(green), int(blue)) for value, (red, green, blue, *_) in colours.items()}
    except (AttributeError, KeyError, TypeError, ValueError) as error:
        raise VolumeError(f"the attribute image-label has another form: {type(error).__name__}: {error}") from error
    return {value: Label(texts.get(value, ""), parts.get(value)) for value in sorted({*texts, *parts})}


def image_label(names: Names) -> "Dict[str, Any]":
    """Returns names and colours as the attribute image-label of OME-Zarr."""
    colours = [{"label-value": value, "rgba": [*label.colour, 255]} for value, label in names.items() if label.colour]
    return {
        **({"colors": colours} if colours else {}),
        **({"properties": [{"label-value": value, "name": label.name} for value, label in names.items()]} if names else {}),
    }


def write(path: "str | os.PathLike[str]", names: Names) -> None:
    """Writes a table of BIDS. An existing file is replaced. Raises FileError if it can't be written.

    Examples
    --------
    >>> write("labels.organs.tsv", {2: Label("left kidney", (255, 136, 0)), 5: Label("liver")})
    >>> print(open("labels.organs.tsv").read().expandtabs(13))
    index        name         color
    2            left kidney  #ff8800
    5            liver        n/a
    <BLANKLINE>
    >>> of("labels.vdbs", "organs")[5]
    Label(name='liver', colour=None)
    """
    with replacing(path) as file:
        file.write(b"index\tname\tcolor\n")
        for index, (name, colour) in sorted(names.items()):
            file.write(f"{index}\t{' '.join(name.split())}\t{'#%02x%02x%02x' % colour if colour else 'n/a'}\n".encode())


def keep(path: "str | os.PathLike[str]", names: Names, grid: str = "", replaces: bool = True) -> None:
    """Writes names to the table beside a file, or to a store of zarr. A table of the same names stays with its other columns. If the table
    isn't one of names, or has others and `replaces` is False, it stays too, which is a VdbWarning."""
    if zarr_stores.is_store(path):
        return zarr_stores.keep_label(os.fspath(path), image_label(names))
    table = table_of(path, grid)
    try:
        found = read(table)
        if found == names:
            return None
        if not replaces:
            raise VolumeError(f"the table has other names, which label_names.write({table!r}, grid.names) replaces", table)
    except MissingFileError:
        pass
    except VolumeError as error:
        return warnings.warn(f"{error}: the names of labels aren't written", VdbWarning, stacklevel=2)
    write(table, names)


def coloured(colours: np.ndarray, values: np.ndarray, names: Names) -> np.ndarray:
    """Returns the colours of values (n x 3, uint8), in place of which the names' own ones stand."""
    made = colours.copy()
    for place, value in enumerate(values.tolist()):
        colour = names[value].colour if value in names else None
        if colour:
            made[place] = colour
    return made
