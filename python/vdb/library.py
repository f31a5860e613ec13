# SPDX-License-Identifier: Apache-2.0
"""The shared library: where it is, its structs, the types of its calls, and its handles. include/vdb.h describes them.

The library is loaded by the first call. Each call raises the exception of its code, and other threads go on while it runs.
"""
from __future__ import annotations

import ctypes
import ctypes.util
import os
import threading
from ctypes import POINTER, Structure, byref, c_char_p, c_int16, c_int32, c_int64, c_size_t, c_uint8, c_uint16, c_uint32, c_uint64, c_void_p
from pathlib import Path
from typing import Any, Iterator, Type, Union

from .errors import error_of


class GridHandle(Structure):
    _fields_ = [("at", c_void_p), ("visits", c_uint64)]


class ViewHandle(Structure):
    _fields_ = [("at", c_void_p), ("visits", c_uint64)]


class SceneHandle(Structure):
    _fields_ = [("at", c_void_p), ("visits", c_uint64)]


class Coord(Structure):
    _fields_ = [("x", c_int32), ("y", c_int32), ("z", c_int32)]


class Box(Structure):
    _fields_ = [("min", Coord), ("max", Coord)]


class Part(Structure):
    _fields_ = [("box", Box), ("value", c_int64), ("state", c_int32)]


class Strides(Structure):
    _fields_ = [("x", c_size_t), ("y", c_size_t), ("z", c_size_t)]


class Count(Structure):
    _fields_ = [("low", c_uint64), ("high", c_uint64)]


class CensusCounts(Structure):
    _fields_ = [("roots", c_uint64), ("upper", c_uint64), ("lower", c_uint64), ("leaf", c_uint64)]


GRID, VIEW, SCENE = POINTER(GridHandle), POINTER(ViewHandle), POINTER(SceneHandle)
BOX, COORD = POINTER(Box), POINTER(Coord)
I16, U16, I32, I64, U32, U64, SIZE = (POINTER(it) for it in (c_int16, c_uint16, c_int32, c_int64, c_uint32, c_uint64, c_size_t))
BYTES, BUFFER = c_char_p, POINTER(c_uint8)
PLACE = (c_int32, c_int32, c_int32)
NAMED = (SCENE, BYTES, c_size_t)
DENSE = (BOX, POINTER(Strides), I64, c_size_t, BUFFER, c_size_t)
DENSE_BOOL = (BOX, POINTER(Strides), BUFFER, c_size_t, BUFFER, c_size_t)
DENSE_I32 = (BOX, POINTER(Strides), I32, c_size_t, BUFFER, c_size_t)
ELEMENTS = (c_int64, c_uint32, BOX, POINTER(Strides))
LEAVES = (COORD, c_size_t, I64, c_size_t, U64, c_size_t, SIZE)
PARTS = (POINTER(Part), c_size_t, SIZE)

#: The types of the arguments of each call.
ARGUMENTS = {
    "vdb_grid_new": (GRID, c_int32, c_int64, c_uint32),
    "vdb_grid_free": (GRID,),
    "vdb_grid_copy": (GRID, GRID),
    "vdb_grid_kind": (GRID, I32),
    "vdb_grid_background": (GRID, I64),
    "vdb_grid_limit": (GRID, U32),
    "vdb_grid_get": (GRID, *PLACE, I64, I32),
    "vdb_grid_probe": (GRID, c_int32, *PLACE, I64, I32),
    "vdb_grid_set": (GRID, c_int32, *PLACE, c_int64, c_int32),
    "vdb_grid_set_value": (GRID, c_int32, *PLACE, c_int64),
    "vdb_grid_set_active": (GRID, c_int32, *PLACE, c_int32),
    "vdb_grid_fill": (GRID, BOX, c_int64, c_int32),
    "vdb_grid_clip": (GRID, BOX),
    "vdb_grid_prune": (GRID,),
    "vdb_grid_voxelise": (GRID, BOX),
    "vdb_grid_dilate": (GRID, c_uint32),
    "vdb_grid_erode": (GRID, c_uint32),
    "vdb_grid_unite": (GRID, GRID),
    "vdb_grid_subtract": (GRID, GRID),
    "vdb_grid_intersect": (GRID, GRID),
    "vdb_grid_maximum": (GRID, GRID),
    "vdb_grid_minimum": (GRID, GRID),
    "vdb_grid_sum": (GRID, GRID),
    "vdb_grid_replace": (GRID, GRID),
    "vdb_grid_count": (GRID, POINTER(Count)),
    "vdb_grid_count_in": (GRID, BOX, POINTER(Count)),
    "vdb_grid_bounds": (GRID, BOX, I32),
    "vdb_grid_census": (GRID, POINTER(CensusCounts)),
    "vdb_grid_equal": (GRID, GRID, I32),
    "vdb_grid_first_active": (GRID, BOX, COORD, I64, I32),
    "vdb_grid_next_active": (GRID, BOX, COORD, I64, I32),
    "vdb_grid_leaf_count": (GRID, U64),
    "vdb_grid_first_leaves": (GRID, *LEAVES),
    "vdb_grid_next_leaves": (GRID, *PLACE, *LEAVES),
    "vdb_grid_first_parts": (GRID, *PARTS),
    "vdb_grid_next_parts": (GRID, *PLACE, *PARTS),
    "vdb_grid_get_many": (GRID, c_int32, COORD, c_size_t, I64, c_size_t, BUFFER, c_size_t),
    "vdb_grid_write_many": (GRID, c_int32, COORD, c_size_t, I64, c_size_t, BUFFER, c_size_t, SIZE),
    "vdb_grid_read_box": (GRID, *DENSE),
    "vdb_grid_read_box_bool": (GRID, *DENSE_BOOL),
    "vdb_grid_read_box_i32": (GRID, *DENSE_I32),
    "vdb_grid_write_box": (GRID, c_int32, *DENSE, SIZE),
    "vdb_grid_from_box_bool": (GRID, *ELEMENTS, BUFFER, c_size_t),
    "vdb_grid_from_box_u8": (GRID, *ELEMENTS, BUFFER, c_size_t),
    "vdb_grid_from_box_i16": (GRID, *ELEMENTS, I16, c_size_t),
    "vdb_grid_from_box_u16": (GRID, *ELEMENTS, U16, c_size_t),
    "vdb_grid_from_box_i32": (GRID, *ELEMENTS, I32, c_size_t),
    "vdb_grid_from_box_i64": (GRID, *ELEMENTS, I64, c_size_t),
    "vdb_view_new": (GRID, VIEW),
    "vdb_view_share": (VIEW, VIEW),
    "vdb_view_copy": (VIEW, GRID),
    "vdb_view_take": (VIEW, GRID),
    "vdb_view_free": (VIEW,),
    "vdb_view_get": (VIEW, *PLACE, I64, I32),
    "vdb_view_get_many": (VIEW, COORD, c_size_t, I64, c_size_t, BUFFER, c_size_t),
    "vdb_view_read_box": (VIEW, *DENSE),
    "vdb_view_read_box_bool": (VIEW, *DENSE_BOOL),
    "vdb_view_read_box_i32": (VIEW, *DENSE_I32),
    "vdb_view_kind": (VIEW, I32),
    "vdb_view_background": (VIEW, I64),
    "vdb_view_limit": (VIEW, U32),
    "vdb_view_count": (VIEW, POINTER(Count)),
    "vdb_view_count_in": (VIEW, BOX, POINTER(Count)),
    "vdb_view_bounds": (VIEW, BOX, I32),
    "vdb_view_census": (VIEW, POINTER(CensusCounts)),
    "vdb_view_first_active": (VIEW, BOX, COORD, I64, I32),
    "vdb_view_next_active": (VIEW, BOX, COORD, I64, I32),
    "vdb_view_leaf_count": (VIEW, U64),
    "vdb_view_first_leaves": (VIEW, *LEAVES),
    "vdb_view_next_leaves": (VIEW, *PLACE, *LEAVES),
    "vdb_view_first_parts": (VIEW, *PARTS),
    "vdb_view_next_parts": (VIEW, *PLACE, *PARTS),
    "vdb_scene_new": (SCENE,),
    "vdb_scene_free": (SCENE,),
    "vdb_scene_load": (SCENE, BUFFER, c_size_t),
    "vdb_scene_length": (SCENE, U64),
    "vdb_scene_save": (SCENE, BUFFER, c_size_t, U64),
    "vdb_scene_count": (SCENE, U64),
    "vdb_scene_name": (SCENE, c_size_t, BYTES, c_size_t, U64),
    "vdb_scene_put": (*NAMED, GRID),
    "vdb_scene_take": (*NAMED, GRID),
    "vdb_scene_swap": (*NAMED, GRID),
    "vdb_scene_copy": (*NAMED, GRID),
    "vdb_scene_meta_count": (*NAMED, U64),
    "vdb_scene_meta_key": (*NAMED, c_size_t, BYTES, c_size_t, U64),
    "vdb_scene_meta_text": (*NAMED, c_size_t, BYTES, c_size_t, U64),
    "vdb_scene_meta_set": (*NAMED, BYTES, c_size_t, BYTES, c_size_t),
    "vdb_scene_meta_remove": (*NAMED, BYTES, c_size_t),
}


def places() -> Iterator[str]:
    """Yields where the library may be: VDB_LIBRARY alone, or the package's folder, the repository's out/, and the system's folders."""
    if "VDB_LIBRARY" in os.environ:
        yield os.environ["VDB_LIBRARY"]
        return
    package = Path(__file__).resolve().parent
    yield str(package / "libvdb.so")
    yield str(package.parents[1] / "out" / "lib" / "libvdb.so")
    found = ctypes.util.find_library("vdb")
    if found:
        yield found


def load() -> ctypes.CDLL:
    """Loads the library and declares its calls. Raises ImportError with each place that failed, and the reason."""
    failed = []
    for place in places():
        try:
            library = ctypes.CDLL(place)
            for name, arguments in ARGUMENTS.items():
                function = getattr(library, name)
                function.argtypes = arguments
                function.restype = None if name.endswith("_free") else c_int32
                if function.restype:
                    function.errcheck = checked
            return library
        except (OSError, AttributeError) as error:
            failed.append(str(error))
    hint = "build it by tools/build-libvdb, or name it in VDB_LIBRARY; vdb.scenefile needs no library"
    raise ImportError(f"the library libvdb.so can't be used ({'; '.join(failed)}): {hint}")


def checked(code: int, _function: object, _arguments: object) -> int:
    """Returns 0. Raises the exception of any other code."""
    if code:
        raise error_of(code)
    return code


class Library:
    """The calls of the library, each loaded when it is first asked for."""

    def __getattr__(self, name: str) -> Any:
        if name not in ARGUMENTS:
            raise AttributeError(name)
        library = load()
        self.__dict__.update({call: getattr(library, call) for call in ARGUMENTS})
        return self.__dict__[name]


LIBRARY = Library()
PREFIXES = {GridHandle: "vdb_grid_", ViewHandle: "vdb_view_", SceneHandle: "vdb_scene_"}


class Held:
    """A handle of the library with the lock of its calls. It is freed with this object, so whoever calls it keeps this object."""

    def __init__(self, form: "Type[Union[GridHandle, ViewHandle, SceneHandle]]" = GridHandle) -> None:
        self.handle = form()
        self.prefix = PREFIXES[form]
        self.lock = threading.RLock()

    def __del__(self) -> None:
        if self.handle.at:
            getattr(LIBRARY, self.prefix + "free")(byref(self.handle))

    def call(self, name: str, *arguments: object) -> None:
        """Makes the call of this name, such as `fill`, on the handle, with no other call on it at the same time."""
        call = getattr(LIBRARY, self.prefix + name)
        with self.lock:
            call(byref(self.handle), *arguments)

    def call_with(self, name: str, other: "Held", *arguments: object) -> None:
        """Makes a call on the handle, with another handle as the last argument. Locks are taken in one order, so two such calls never wait
        for each other."""
        call = getattr(LIBRARY, self.prefix + name)
        first, second = sorted((self, other), key=id)
        with first.lock, second.lock:
            call(byref(self.handle), *arguments, byref(other.handle))

    def equals(self, other: "Held") -> bool:
        """Returns whether another handle has a grid of the same type, background and cells."""
        equal, (first, second) = c_int32(), sorted((self, other), key=id)
        with first.lock, second.lock:
            LIBRARY.vdb_grid_equal(byref(self.handle), byref(other.handle), byref(equal))
        return bool(equal.value)
