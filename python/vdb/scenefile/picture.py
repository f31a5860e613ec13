# SPDX-License-Identifier: Apache-2.0
"""Pictures of slices and of several planes of voxels, and the colours of labels. The package Pillow makes the pictures."""
from __future__ import annotations

import io
import math
import re
from typing import Any, List, NamedTuple, Optional, Sequence, TextIO, Tuple

import numpy as np

from ..errors import RangeError
from ..formats.volume import package
from ..label_names import Names, coloured

SIDE = 14  # of a cell's square in a picture of answers, in pixels, with a line of one pixel between squares
GAP = 24  # around slices and between them, in pixels
PAPER = (255, 255, 255)
INACTIVE = (228, 228, 224)
PALE, DARK = (140, 180, 224), (20, 60, 120)
#: The height of letters and the side of a label's square, and how many pixels a line of text has to the next one.
LETTER, LINE = 14, 24
INK = (60, 60, 58)
#: The legend shows this many labels, those of the most voxels.
LEGEND = 60
#: The most bytes of the pixels of a picture, three per pixel, and of the answers of a script that are drawn.
MAX_PIXELS, MAX_ANSWERS = 2**28, 2**26

Rows = List[List[Optional[int]]]


def check_size(width: int, height: int) -> None:
    """Raises RangeError if a picture of this size has too many bytes."""
    needed = 3 * width * height
    if needed > MAX_PIXELS:
        raise RangeError(f"a picture of {width:,} x {height:,} pixels needs {needed:,} bytes, more than {MAX_PIXELS:,}")


def pillow(module: str = "Image") -> Any:
    """Returns a module of Pillow. Raises ImportError, which says where it is found, without that package."""
    return package(f"PIL.{module}", "python3-pil")


def png(image: Any) -> bytes:
    """Returns the bytes of a picture as a PNG."""
    file = io.BytesIO()
    image.save(file, "PNG")
    return file.getvalue()


def slices_of(answers: TextIO) -> "list[Rows]":
    """Returns the slices among the answers of a script. In a row an inactive cell is None; booleans are 0 and 1.

    Raises RangeError if the answers are too long.
    """
    text = answers.read(MAX_ANSWERS + 1)
    if len(text) > MAX_ANSWERS:
        raise RangeError(f"the answers have more than {MAX_ANSWERS:,} bytes")
    found: "list[Rows]" = []
    rows: Rows = []
    for line in io.StringIO(text):
        words = line.split()
        if words[:1] == ["row"] and len(words) > 2:
            rows.append([None if word.startswith("(") else number_of(word) for word in words[2:]])
        elif rows:
            found.append(rows)
            rows = []
    return found


def number_of(word: str) -> int:
    """Returns the number of a value. Raises RangeError if the word is none."""
    if word in ("false", "true"):
        return int(word == "true")
    if not re.fullmatch(r"-?[0-9]{1,19}", word):
        raise RangeError(f"a row of a slice has the cell {word[:40]!r}, which is no value")
    return int(word)


def shade(value: int, least: int, greatest: int) -> "tuple[int, ...]":
    """Returns the colour of an active cell, darker for greater values."""
    part = (value - least) / (greatest - least) if greatest > least else 0.5
    return tuple(round(pale + part * (dark - pale)) for pale, dark in zip(PALE, DARK))


def picture_of(slices: "list[Rows]") -> Any:
    """Returns the picture of slices side by side, a square for a cell, with x to the right and y down."""
    values = [cell for rows in slices for row in rows for cell in row if cell is not None]
    least, greatest = min(values, default=0), max(values, default=0)
    widths = [max(map(len, rows)) for rows in slices]
    size = GAP + sum(width * SIDE + GAP for width in widths), 2 * GAP + max(len(rows) for rows in slices) * SIDE
    check_size(*size)
    made, left = pillow().new("RGB", size, PAPER), GAP
    for rows, width in zip(slices, widths):
        cells = np.full((len(rows), width, 3), PAPER, np.uint8)
        for y, row in enumerate(rows):
            cells[y, : len(row)] = [INACTIVE if cell is None else shade(cell, least, greatest) for cell in row]
        squares = cells.repeat(SIDE, axis=0).repeat(SIDE, axis=1)
        squares[SIDE - 1 :: SIDE] = squares[:, SIDE - 1 :: SIDE] = PAPER
        made.paste(pillow().fromarray(squares), (left, GAP))
        left += width * SIDE + GAP
    return made


def colours_of(values: np.ndarray) -> np.ndarray:
    """Returns a colour (N x 3, uint8) for each value: its own hue, the same in every picture.

    The hues of successive values are a golden angle apart, and every other value is darker, so neighbours differ clearly.
    """
    labels = values.astype(np.int64)
    turns = labels.astype(np.uint64) * np.uint64(0x9E3779B97F4A7C15)  # 2**64 / golden ratio: a turn is 2**64
    hue = (turns >> np.uint64(40)).astype(np.float64) / 2**24 * 6
    value = np.where(labels % 2 == 0, 0.62, 0.85)
    parts = [np.clip(np.abs((hue + shift) % 6 - 3) - 1, 0, 1) for shift in (0, 4, 2)]
    return np.stack([(255 * value * (0.25 + 0.75 * part)).astype(np.uint8) for part in parts], axis=-1)


class Plane(NamedTuple):
    """A plane of voxels: its title, its values and states, and the gray beneath them, if any (rows x columns; uint8)."""

    title: str
    values: np.ndarray
    active: np.ndarray
    gray: Optional[np.ndarray] = None


def labels_of(plane: Plane, background: "bool | int", size: "Tuple[int, int]", names: Names = {}) -> Any:
    """Returns the picture of a plane, `size` pixels wide and high: a colour for each label, that of its name if it has one.

    Inactive voxels are pale, and light grey if they have the background's value. Over a gray image, colours let two fifths of it
    through, and inactive voxels all.
    """
    values, place = np.unique(plane.values, return_inverse=True)
    colours = coloured(colours_of(values), values, names)[place].reshape(*plane.values.shape, 3).astype(np.uint16)
    if plane.gray is None:
        pixels = np.where(plane.active[..., None], colours, (colours + 3 * 255) // 4)
        pixels[~plane.active & (plane.values == background)] = INACTIVE
    else:
        gray = plane.gray[..., None].astype(np.uint16)
        pixels = np.where(plane.active[..., None], (3 * colours + 2 * gray) // 5, gray)
    return pillow().fromarray(pixels.astype(np.uint8)).resize(size, pillow().Resampling.NEAREST)


def font() -> Any:
    """Returns the font of the system that reads best, or the one that is part of Pillow."""
    library = pillow("ImageFont")
    try:
        return library.truetype("DejaVuSans.ttf", LETTER)
    except (OSError, ImportError):
        return library.load_default()


def legend_of(planes: "Sequence[Plane]", names: Names = {}) -> "Tuple[np.ndarray, List[str]]":
    """Returns the labels of planes (n) and their texts, of which one more says how many labels are left out."""
    values, counts = np.unique(np.concatenate([plane.values[plane.active] for plane in planes]), return_counts=True)
    kept = values[np.sort(np.argsort(-counts, kind="stable")[:LEGEND])]
    texts = [" ".join([str(value).lower(), *(names[value].name.split() if value in names else [])]) for value in kept.tolist()]
    return kept, texts + [f"+{len(values) - LEGEND} more"] * (len(values) > LEGEND)


def montage(planes: "Sequence[Plane]", background: "bool | int", size: "Tuple[int, int]", names: Names = {}) -> Any:
    """Returns the picture of planes of one shape, in rows of about the same width as height, with the legend of their labels.

    A plane is `size` pixels wide and high. Raises RangeError for a picture that is too large, before it is made.
    """
    columns, rows = size
    letters, (labels, texts) = font(), legend_of(planes, names)
    cell = max(columns, *(math.ceil(letters.getlength(plane.title)) for plane in planes))
    across = min(len(planes), max(1, round(math.sqrt(len(planes) * (rows + LINE + GAP) / (cell + GAP)))))
    step = max((math.ceil(letters.getlength(text)) for text in texts), default=0) + LINE + GAP
    width = GAP + max(across * (cell + GAP), step)
    beside = (width - GAP) // step
    top = GAP + -(-len(planes) // across) * (LINE + rows + GAP)
    height = top + (-(-len(texts) // beside) * LINE + GAP if texts else 0)
    check_size(width, height)
    made = pillow().new("RGB", (width, height), PAPER)
    draw, colours = pillow("ImageDraw").Draw(made), coloured(colours_of(labels), labels, names).tolist()
    for place, plane in enumerate(planes):
        x, y = GAP + place % across * (cell + GAP), GAP + place // across * (LINE + rows + GAP)
        draw.text((x, y), plane.title, INK, letters)
        made.paste(labels_of(plane, background, size, names), (x, y + LINE))
    for place, text in enumerate(texts):
        x, y = GAP + place % beside * step, top + place // beside * LINE
        if place < len(labels):
            made.paste(tuple(colours[place]), (x, y, x + LETTER, y + LETTER))
        draw.text((x + LINE, y), text, INK, letters)
    return made
