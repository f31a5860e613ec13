# SPDX-License-Identifier: Apache-2.0
"""Plays lines of scripts by calls: by libvdb, the one that VDB_LIBRARY names or out/lib/libvdb.so, and by the Python package.

A driver's `answer(words, wanted)` makes the calls of a command and returns the answer, or None for a command that no call can say, such as
one with a wrong name. The libraries have one error for a number out of range, `range`, and `same` compares answers with that in mind.
Where several calls do the same, a driver picks one by chance."""
import os
import re
from ctypes import byref, c_char_p, c_int32, c_int64, c_size_t, c_uint64, c_uint8
from itertools import islice

from language import CALLS, HIGH, LOW, NUMBER, SPANS, TOP, TWO, error_of, in_range  # before modules of tests/c and python, whose folders it adds
import numpy as np
import vdb
from header import Header

RANGES = {"value-range", "no-accessor", "box"}
BY_LINE = {"syntax", "line-too-long", "no-grid", "name-taken", "same-grid", "grid-limit", "too-large"}  # errors that only a line can have
CODES = {2: "memory", 3: "root-limit", 4: "range", 5: "sum-range", 6: "kind", 7: "no-sum"}
WORDS = [
    (vdb.RootLimitError, "root-limit"), (vdb.SumRangeError, "sum-range"), (vdb.RangeError, "range"), (vdb.LimitError, "meta-limit"),
    (vdb.OutOfMemoryError, "memory"),
]  # fmt: skip


def same(found, wanted):
    """Returns whether a driver's answer is the one wanted of the script."""
    return found == (["error range"] if error_of(wanted) in RANGES else wanted)


def value_of(text):
    return {"true": 1, "false": 0}[text] if text in ("true", "false") else int(text)


def shown(kind, value):
    return ("true" if value else "false") if kind == "bool" else str(int(value))


class Driver:
    """What both drivers share: which commands they play, the numbers of a command, and the texts of answers."""

    def __init__(self, chance):
        self.chance, self.kinds = chance, {}

    def answer(self, words, wanted):
        """Returns the answer to a command, or None if no call can say it."""
        error, word = error_of(wanted), words[0]
        if error in BY_LINE or (error and word == "grid") or (error == "kind" and word not in TWO) or not self.can_say(words):
            return None
        if word == "list" and not 1 <= int(words[8]) <= 4096:
            return None
        if word in TWO:
            return self.two(*words)
        if word in ("set", "unset", "only", "state"):
            return self.write(*words)
        return getattr(self, f"do_{word}")(*words[1:])

    def can_say(self, words):
        """Returns whether the arguments of the calls can hold the numbers of a command."""
        return True

    def do_grid(self, name, kind, background, limit="4096"):
        self.kinds[name] = kind
        return self.made(name, kind, value_of(background), int(limit))

    def do_drop(self, name):
        del self.kinds[name]
        return self.dropped(name)

    def do_copy(self, name, other):
        self.kinds[other] = self.kinds[name]
        return self.copied(name, other)

    def told(self, name, cell):
        value, on = cell
        return [f"value {shown(self.kinds[name], value)} {'on' if on else 'off'}"]

    def listed(self, name, found, limit):
        """The lines of a list of some voxels, of which one more than the limit may be given."""
        lines = [f"{x} {y} {z} {shown(self.kinds[name], value)}" for (x, y, z), value in found[:limit]]
        return [*lines, f"{'more' if len(found) > limit else 'end'} {len(lines)}"]

    def rows(self, name, low, values, states):
        """The lines of a slice, of arrays with the axes x and y."""
        def row(x, y):
            text = shown(self.kinds[name], values[x, y])
            return text if states[x, y] else f"({text})"

        lines = [" ".join([f"row {low + y}", *(row(x, y) for x in range(values.shape[0]))]) for y in range(values.shape[1])]
        return [*lines, f"end {len(lines)}"]


class C(Driver):
    """The calls of libvdb, by ctypes."""

    header = Header()
    library = header.load(os.environ.get("VDB_LIBRARY") or TOP / "out" / "lib" / "libvdb.so")

    def __init__(self, chance):
        super().__init__(chance)
        self.types, self.grids, self.pairs = C.header.types, {}, {}

    def can_say(self, words):
        if words[0] in ("grid", "meta", "unmeta", "metas"):
            return True
        wide = {"set": 6, "unset": 6, "only": 6, "fill": 8}.get(words[0])
        numbers = {place: int(it) for place, it in enumerate(words) if place > 1 and re.fullmatch(NUMBER, it)}
        return all(LOW <= it <= HIGH or (place == wide and in_range(*SPANS["i64"], it)) for place, it in numbers.items())

    def call(self, name, *arguments):
        """Makes a call, and returns None or the word of its error."""
        code = getattr(C.library, f"vdb_{name}")(*arguments)
        return CODES.get(code, f"code {code}") if code else None

    def done(self, name, *arguments):
        error = self.call(name, *arguments)
        return [f"error {error}"] if error else ["ok"]

    def box(self, numbers):
        coord, numbers = self.types["vdb_coord"], [int(it) for it in numbers]
        return self.types["vdb_box"](coord(*numbers[:3]), coord(*numbers[3:]))

    def accessor(self, text):
        return -1 if text == "-" else -2 if int(text) == -1 else int(text)  # for C, -1 is no accessor

    def made(self, name, kind, background, limit):
        self.grids[name], self.pairs[name] = self.types["vdb_grid"](), {}
        return self.done("grid_new", self.grids[name], list(SPANS).index(kind), background, limit)

    def dropped(self, name):
        self.call("grid_free", self.grids.pop(name))
        del self.pairs[name]
        return ["ok"]

    def copied(self, name, other):
        self.grids[other], self.pairs[other] = self.types["vdb_grid"](), dict(self.pairs[name])
        return self.done("grid_copy", self.grids[name], self.grids[other])

    def do_get(self, name, accessor, *place):
        value, on = c_int64(), c_int32()
        place = [int(it) for it in place]
        if accessor == "-" and self.chance.random() < 0.5:
            error = self.call("grid_get", self.grids[name], *place, byref(value), byref(on))
        else:
            error = self.call("grid_probe", self.grids[name], self.accessor(accessor), *place, byref(value), byref(on))
        return [f"error {error}"] if error else self.told(name, (value.value, on.value))

    def write(self, word, name, accessor, *rest):
        grid, at, place = self.grids[name], self.accessor(accessor), [int(it) for it in rest[:3]]
        if word == "only":
            return self.done("grid_set_value", grid, at, *place, value_of(rest[3]))
        if word == "state":
            return self.done("grid_set_active", grid, at, *place, rest[3] == "on")
        value, on, written = value_of(rest[3]), word == "set", c_size_t()
        call = self.chance.choice(["grid_set", "grid_set", "grid_write_many", "grid_write_box"])
        if call == "grid_set":
            return self.done(call, grid, at, *place, value, on)
        arrays = [(c_int64 * 1)(value), 1, (c_uint8 * 1)(on), 1, byref(written)]
        if call == "grid_write_many":
            return self.done(call, grid, at, (self.types["vdb_coord"] * 1)(tuple(place)), 1, *arrays)
        return self.done(call, grid, at, byref(self.box([*place, *place])), byref(self.types["vdb_strides"](1, 1, 1)), *arrays)

    def do_fill(self, name, *rest):
        return self.done("grid_fill", self.grids[name], byref(self.box(rest[:6])), value_of(rest[6]), rest[7] == "on")

    def do_clip(self, name, *box):
        return self.done("grid_clip", self.grids[name], byref(self.box(box)))

    def do_prune(self, name):
        return self.done("grid_prune", self.grids[name])

    def do_voxelise(self, name, *box):
        return self.done("grid_voxelise", self.grids[name], byref(self.box(box)))

    def do_count(self, name, *box):
        count = self.types["vdb_count"]()
        if box == ("all",):
            error = self.call("grid_count", self.grids[name], byref(count))
        else:
            error = self.call("grid_count_in", self.grids[name], byref(self.box(box)), byref(count))
        return [f"error {error}"] if error else [f"count {count.high << 64 | count.low}"]

    def do_bounds(self, name):
        box, found = self.types["vdb_box"](), c_int32()
        self.call("grid_bounds", self.grids[name], byref(box), byref(found))
        ends = [getattr(end, axis) for end in (box.min, box.max) for axis in "xyz"]
        return [" ".join(["bounds", *map(str, ends)]) if found.value else "bounds none"]

    def do_list(self, name, *rest):
        box, limit, voxels = self.box(rest[:6]), int(rest[6]), []
        at, value, found = self.types["vdb_coord"](), c_int64(), c_int32()
        error = self.call("grid_first_active", self.grids[name], byref(box), byref(at), byref(value), byref(found))
        while not error and found.value and len(voxels) <= limit:
            voxels.append(((at.x, at.y, at.z), value.value))
            error = self.call("grid_next_active", self.grids[name], byref(box), byref(at), byref(value), byref(found))
        return [f"error {error}"] if error else self.listed(name, voxels, limit)

    def do_slice(self, name, z, x0, y0, x1, y1):
        x0, y0, x1, y1 = map(int, (x0, y0, x1, y1))
        shape = (max(1, x1 - x0 + 1), max(1, y1 - y0 + 1))
        if shape[0] > 64 or shape[1] > 64:
            return None
        count = shape[0] * shape[1]
        values, states = (c_int64 * count)(), (c_uint8 * count)()
        strides = self.types["vdb_strides"](shape[1], 1, 1)
        arrays = [byref(strides), values, count, states, count]
        error = self.call("grid_read_box", self.grids[name], byref(self.box([x0, y0, z, x1, y1, z])), *arrays)
        if error:
            return [f"error {error}"]
        return self.rows(name, y0, np.array(values, object).reshape(shape), np.array(states).reshape(shape))

    def do_census(self, name):
        census = self.types["vdb_census"]()
        self.call("grid_census", self.grids[name], byref(census))
        return [f"census {census.roots} {census.upper} {census.lower} {census.leaf}"]

    def two(self, word, name, other):
        return self.done(f"grid_{CALLS[word]}", self.grids[name], self.grids[other])

    def do_dilate(self, name, iterations):
        return self.done("grid_dilate", self.grids[name], int(iterations)) 

    def do_erode(self, name, iterations):
        return self.done("grid_erode", self.grids[name], int(iterations)) 

    def do_meta(self, name, key, text):
        """Keeps the pair, since pairs belong to scenes: `saved` sets them."""
        if key in self.pairs[name] or len(self.pairs[name]) < 16:
            self.pairs[name][key] = text

    def do_unmeta(self, name, key):
        self.pairs[name].pop(key, None)

    def do_metas(self, name):
        """Has no answer, for the same reason."""

    def saved(self):
        """Returns the bytes of the scene file, with a copy of each grid put into a scene."""
        scene, length = self.types["vdb_scene"](), c_uint64()
        errors = [self.call("scene_new", scene)]
        for name, grid in self.grids.items():
            moved, word = self.types["vdb_grid"](), name.encode()
            errors += [self.call("grid_copy", grid, moved), self.call("scene_put", scene, word, len(word), moved)]
            for key, text in self.pairs[name].items():
                errors.append(self.call("scene_meta_set", scene, word, len(word), key.encode(), len(key), text.encode(), len(text)))
        errors.append(self.call("scene_length", scene, byref(length)))
        data = (c_uint8 * max(1, length.value))()
        errors.append(self.call("scene_save", scene, data, len(data), byref(length)))
        self.call("scene_free", scene)
        return bytes(data) if not any(errors) else errors

    def end(self):
        for grid in self.grids.values():
            self.call("grid_free", grid)

    def loaded(self, data):
        """Returns what loading a file's bytes and saving the scene gives: the fault's word, or bytes."""
        scene, length = self.types["vdb_scene"](), c_uint64()
        buffer = (c_uint8 * max(1, len(data))).from_buffer_copy(data or b"\0")
        code = C.library.vdb_scene_load(scene, buffer, len(data))
        if code:
            text = c_char_p()
            C.library.vdb_message_at(code, byref(text))
            return text.value.decode().partition(":")[0]
        self.call("scene_length", scene, byref(length))
        made = (c_uint8 * length.value)()
        error = self.call("scene_save", scene, made, len(made), byref(length))
        self.call("scene_free", scene)
        return error or bytes(made)


class Package(Driver):
    """The package `vdb`."""

    def __init__(self, chance):
        super().__init__(chance)
        self.scene = vdb.Scene()

    def done(self, call, *arguments):
        """Returns the answer to a command that a call carries out."""
        result = self.result(call, *arguments)
        return result if isinstance(result, list) else ["ok"]

    def result(self, call, *arguments):
        """Returns what a call returns, or the answer that its error is, as a list."""
        try:
            return call(*arguments)
        except vdb.KindsError as error:
            return ["error no-sum" if "no sum" in str(error) else "error kind"]
        except vdb.VdbError as error:
            return [next((f"error {word}" for form, word in WORDS if isinstance(error, form)), f"error {error!r}")]

    def box(self, numbers):
        numbers = [int(it) for it in numbers]
        return tuple(numbers[:3]), tuple(numbers[3:])

    def value(self, name, text):
        return value_of(text) if self.kinds[name] != "bool" else value_of(text) == 1

    def made(self, name, kind, background, limit):
        def make():
            self.scene[name] = vdb.Grid(kind, bool(background) if kind == "bool" else background, limit)

        return self.done(make)

    def dropped(self, name):
        del self.scene[name]
        return ["ok"]

    def copied(self, name, other):
        def copy():
            self.scene[other] = self.scene[name].copy()

        return self.done(copy)

    def do_get(self, name, accessor, *place):
        if accessor not in tuple("-01234567"):
            return None
        grid, at = self.scene[name], tuple(map(int, place))
        ways = [lambda: (grid[at], grid.active[at]), lambda: tuple(it[0] for it in grid.get_many([at]))]
        found = self.result(self.chance.choice(ways))
        return found if isinstance(found, list) else self.told(name, found)

    def write(self, word, name, accessor, *rest):
        if accessor not in tuple("-01234567"):
            return None
        grid, at = self.scene[name], tuple(map(int, rest[:3]))
        if word == "state":
            return self.done(grid.set_active, at, rest[3] == "on")
        value = self.value(name, rest[3])
        if word == "only":
            return self.done(grid.set_value, at, value)
        way = self.chance.randrange(4)
        if way == 0 and word == "set":
            return self.done(grid.__setitem__, at, value)
        if way == 1:
            return self.done(grid.write_many, [at], [value], word == "set")
        if way == 2:
            return self.done(grid.write_box, at, [[[value]]], word == "set")
        return self.done(grid.fill, (at, at), value, word == "set")

    def do_fill(self, name, *rest):
        grid, bounds, value, on = self.scene[name], self.box(rest[:6]), self.value(name, rest[6]), rest[7] == "on"
        sides = [high - low + 1 for low, high in zip(*bounds)]
        way = self.chance.randrange(4)
        if min(sides) > 0 and way == 0 and on:
            return self.done(grid.__setitem__, tuple(slice(low, high + 1) for low, high in zip(*bounds)), value)
        return self.done(grid.fill, bounds, value, on)

    def do_clip(self, name, *box):
        return self.done(self.scene[name].clip, self.box(box))

    def do_prune(self, name):
        return self.done(self.scene[name].prune)

    def do_voxelise(self, name, *box):
        return self.done(self.scene[name].voxelise, self.box(box))

    def do_count(self, name, *box):
        grid = self.scene[name]
        count = grid.count if box == ("all",) else self.result(grid.count_in, self.box(box))
        return count if isinstance(count, list) else [f"count {count}"]

    def do_bounds(self, name):
        bounds = self.scene[name].bounds
        return [" ".join(["bounds", *(str(part) for corner in bounds for part in corner)]) if bounds else "bounds none"]

    def do_list(self, name, *rest):
        limit = int(rest[6])
        found = self.result(lambda: tuple(islice(self.scene[name].voxels(self.box(rest[:6])), limit + 1)))
        return found if isinstance(found, list) else self.listed(name, found, limit)

    def do_slice(self, name, z, x0, y0, x1, y1):
        bounds = self.box([x0, y0, z, x1, y1, z])
        if any(high - low >= 64 for low, high in zip(*bounds)):
            return None
        found = self.result(self.scene[name].to_array, bounds)
        return found if isinstance(found, list) else self.rows(name, int(y0), found[0][:, :, 0], found[1][:, :, 0])

    def do_census(self, name):
        return [" ".join(["census", *map(str, self.scene[name].census())])]

    def two(self, word, name, other):
        grid, second = self.scene[name], self.scene[other]
        operator = {"union": "__ior__", "difference": "__isub__", "intersect": "__iand__"}.get(word)
        if operator and self.chance.random() < 0.5:
            return self.done(getattr(grid, operator), second)
        return self.done(getattr(grid, CALLS[word]), second)

    def do_dilate(self, name, iterations):
        return self.done(self.scene[name].dilate, int(iterations))

    def do_erode(self, name, iterations):
        return self.done(self.scene[name].erode, int(iterations))

    def do_meta(self, name, key, text):
        return self.done(self.scene[name].metadata.__setitem__, key, text)

    def do_unmeta(self, name, key):
        self.scene[name].metadata.pop(key, None)
        return ["ok"]

    def do_metas(self, name):
        pairs = self.scene[name].metadata
        return [*(f"{key} {text}" for key, text in pairs.items()), f"end {len(pairs)}"]

    def saved(self):
        return self.scene.to_bytes()

    def end(self):
        pass


def loaded_by_package(data, module):
    """Returns what loading a file's bytes and saving the scene gives: the fault's word, or bytes. `module` is vdb or vdb.scenefile."""
    try:
        return module.loads(data).to_bytes()
    except vdb.FormatError as fault:
        return fault.fault
