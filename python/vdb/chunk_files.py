# SPDX-License-Identifier: Apache-2.0
"""Volumes in chunks as version 1.1 wrote them, folders of scene files with an index. They are only read."""
from __future__ import annotations

import json
import os
from typing import Any, Dict, NamedTuple

import numpy as np

from .errors import RangeError
from .files import naming
from .forms import KINDS, Metadata, check_bounds, check_coordinate
from .scene import load
from .zarr_stores import WRITTEN, Box, ChunksFault, Form, around, no_sums, sides, slices

NAME, INDEX, VERSION = "chunk", "chunks.json", 1


class Folder(NamedTuple):
    """A folder of scene files, which is read as a volume is: its path, its form, and 1 for each chunk that has a file."""

    path: str
    form: Form
    sums: np.ndarray

    def read(self, box: Box) -> "tuple[np.ndarray, np.ndarray]":
        """Returns the values and the states of a box."""
        form = self.form
        values, active = np.full(sides(box), form.background, KINDS[form.kind].dtype), np.zeros(sides(box), np.bool_)
        for low, high in form.present(self.sums):
            both: Box = np.array([np.maximum(box[0], low), np.minimum(box[1], high)])
            if (both[0] <= both[1]).all():
                path = os.path.join(self.path, "{}_{}_{}.vdbs".format(*(low // form.side)))
                here = slices(both, box[0])
                values[here], active[here] = load(path)[NAME].to_array(both)
        return values, active


def read_folder(path: str) -> "tuple[Folder, Dict[str, Any]]":
    """Returns a folder and what its index says. Raises FileError, or ChunksFault if the index has another form."""
    with naming(os.path.join(path, INDEX)), open(os.path.join(path, INDEX), "rb") as file:
        try:
            found = json.loads(file.read())
            if found["version"] != VERSION or not WRITTEN.match(found["folder"]):
                raise RangeError(f"the version is {found['version']!r} and not {VERSION}, or {found['folder']!r} no name of a folder")
            rows = {check_coordinate(at): (int(count), box and check_bounds(box)) for at, count, box in found["chunks"]}
            kind, side, box = found["kind"], found["side"], around([at, at] for at in rows)
            form = Form(kind, found["background"], False, KINDS[kind].stored.name, (0, 0, 0), (0, 0, 0), min(side, 512)).check()
            about = {"count": sum(it[0] for it in rows.values()), "metadata": Metadata(found.get("metadata"))}
        except (ValueError, TypeError, KeyError) as error:
            raise ChunksFault(None, f"the index has another form: {error}") from error
    bounds = around(it[1] for it in rows.values())
    about["bounds"] = None if bounds is None else check_bounds(bounds)
    if box is not None:
        (x, y, z), (width, height, depth) = (box[0] * side).tolist(), (np.array(sides(box)) * side).tolist()
        form = form._replace(side=side, low=(x, y, z), shape=(width, height, depth))
    sums = no_sums(form)
    for at in rows:
        sums[(0, *np.subtract(at, box[0])[::-1])] = 1
    return Folder(os.path.join(path, found["folder"]), form, sums), {"vdb": about}
