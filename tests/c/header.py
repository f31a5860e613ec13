# SPDX-License-Identifier: Apache-2.0
"""What include/vdb.h declares: structs, constants and calls, for ctypes."""
from __future__ import annotations

import ctypes
import re
from pathlib import Path

HEADER = Path(__file__).resolve().parents[2] / "include" / "vdb.h"

SIMPLE = {
    "int16_t": ctypes.c_int16,
    "int32_t": ctypes.c_int32,
    "int64_t": ctypes.c_int64,
    "uint8_t": ctypes.c_uint8,
    "uint16_t": ctypes.c_uint16,
    "uint32_t": ctypes.c_uint32,
    "uint64_t": ctypes.c_uint64,
    "size_t": ctypes.c_size_t,
    "char": ctypes.c_char,
}
STRUCT = re.compile(r"typedef struct (\w+) \{(.*?)\} \1;", re.S)
FIELD = re.compile(r"(\w+) ([*\w, ]+);")
CONSTANT = re.compile(r"\b(VDB_\w+) = (-?\d+)\b")
CALL = re.compile(r"^(VDB_CODE|VDB_NONNULL void|int32_t) (vdb_\w+)\(([^)]*)\);", re.M)
ARGUMENT = re.compile(r"(?:const )?(\w+) (\**)\w+\Z")


def without_comments(text: str) -> str:
    return re.sub(r"/\*.*?\*/", " ", text, flags=re.S)


class Header:
    """The declarations of the header. `types` and `calls` are by name: a class, and the types of the arguments. `voids` return nothing."""

    def __init__(self, path: Path = HEADER) -> None:
        text = without_comments(path.read_text(encoding="utf-8"))
        self.types = dict(SIMPLE)
        for name, fields in STRUCT.findall(text):
            self.types[name] = type(name, (ctypes.Structure,), {"_fields_": list(self.fields(fields))})
        self.constants = {name: int(value) for name, value in CONSTANT.findall(text)}
        found = CALL.findall(text)
        self.calls = {name: [self.argument(it) for it in arguments.split(",") if it != "void"] for _, name, arguments in found}
        self.voids = {name for kind, name, _ in found if kind.endswith("void")}

    def fields(self, text):
        for kind, names in FIELD.findall(text):
            for name in names.split(","):
                yield name.strip(" *"), ctypes.c_void_p if "*" in name else self.types[kind]

    def argument(self, text):
        kind, stars = ARGUMENT.match(" ".join(text.split())).groups()
        made = self.types[kind]
        if stars and kind == "char":
            made, stars = ctypes.c_char_p, stars[1:]
        return ctypes.POINTER(made) if stars else made

    def load(self, path):
        """Loads a library and declares its calls. Raises OSError or AttributeError if it, or a call, is missing."""
        library = ctypes.CDLL(str(path))
        for name, arguments in self.calls.items():
            function = getattr(library, name)
            function.argtypes = arguments
            function.restype = None if name in self.voids else ctypes.c_int32
        return library
