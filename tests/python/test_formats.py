# SPDX-License-Identifier: Apache-2.0
"""Files of other formats, as other programs make them or as their definitions say, and the files that the package writes."""
import base64
import gzip
import json
import re
import struct
import tempfile
import tracemalloc
import unittest
import warnings
import zlib
from pathlib import Path
from unittest import mock
from xml.etree import ElementTree

from .support import chance, library_missing, np, scenefile, vdb

from vdb import formats, images
from vdb.formats import volume

try:
    import nibabel
except ImportError:
    nibabel = None
try:
    import tifffile
except ImportError:
    tifffile = None

INTEGERS = [np.dtype(f"{sign}int{bits}") for bits in (8, 16, 32, 64) for sign in ("", "u")]
AFFINE = np.array([[-0.5, 0, 0, 10.25], [0, 0.25, 0.125, -3], [0, -0.75, 2.5, 7]])
PAIRS = {"affine_x": "-0.5,0,0,10.25", "affine_y": "0,0.25,0.125,-3", "affine_z": "0,-0.75,2.5,7"}
LOW = (-9, 3, 4090)

needs_nibabel = unittest.skipUnless(nibabel, "nibabel is missing: Debian has it as python3-nibabel")
needs_tifffile = unittest.skipUnless(tifffile, "tifffile is missing: Debian has it as python3-tifffile")


def numbers(dtype, shape=(5, 4, 3)):
    """An array of a dtype with its extremes, and those of int64 for uint64."""
    dtype = np.dtype(dtype)
    made = np.arange(np.prod(shape)).reshape(shape).astype(dtype) % 7
    if dtype.kind in "iu":
        span = np.iinfo(dtype)
        made[0, 0, 0], made[1, 2, 1], made[4, 3, 2] = 0, max(span.min, -(2**63)), min(span.max, 2**63 - 1)
    return made.astype(dtype)


class Formats(unittest.TestCase):
    def setUp(self):
        holder = tempfile.TemporaryDirectory()
        self.addCleanup(holder.cleanup)
        self.folder = Path(holder.name)

    def written(self, name, data):
        """Writes the bytes of a file. Returns its path."""
        (self.folder / name).write_bytes(data)
        return self.folder / name

    def holds(self, path, values, affine=None, origin=None):
        """The file is read as these values, and as this place."""
        found = formats.read(path)
        np.testing.assert_array_equal(found.values, values)
        self.assertEqual(found.values.dtype.kind, "b" if values.dtype == np.bool_ else found.values.dtype.kind)
        self.assertEqual(found.origin, origin)
        if affine is None:
            self.assertIsNone(found.affine)
        else:
            np.testing.assert_array_equal(found.affine, affine)
        grid = formats.load(path, scenefile.Grid, origin=LOW)
        np.testing.assert_array_equal(grid.to_array((LOW, [at + side - 1 for at, side in zip(LOW, values.shape)]))[0], values)

    def refused(self, path, told, error=vdb.VolumeError):
        """Reading the file is an error which names it, and takes little memory."""
        tracemalloc.start()
        try:
            with self.assertRaisesRegex(error, told) as caught:
                formats.read(path)
            self.assertLess(tracemalloc.get_traced_memory()[1], 2**23)
        finally:
            tracemalloc.stop()
        if error is vdb.VolumeError:
            self.assertEqual(str(caught.exception), f"{path}: {caught.exception.reason}")

    def saved(self, name, dtype, pairs=PAIRS):
        """Saves a grid of a dtype with negative coordinates. Returns the path and the array."""
        values = numbers(dtype)
        grid = scenefile.Grid.from_array(values, np.ones(values.shape, bool), LOW)
        grid.metadata.update(pairs)
        formats.save(self.folder / name, grid, values_only=True)
        back = formats.load(self.folder / name, scenefile.Grid, kind=grid.kind, active=np.ones(values.shape, bool))
        kept = {**pairs, "image_array": f"{volume.stored(values).dtype.name},5,4,3", "image_low": "-9,3,4090"}
        self.assertEqual((back == grid, dict(back.metadata)), (True, kept))
        return self.folder / name, values

    def place(self):
        """The affine of an array whose first voxel lies at LOW."""
        return np.column_stack([AFFINE[:, :3], AFFINE[:, 3] + AFFINE[:, :3] @ LOW])


@needs_nibabel
class Nifti(Formats):
    def made(self, name, values, affine=AFFINE, form=None, change=None):
        """Makes an image by nibabel. Returns its path."""
        image = (form or nibabel.Nifti1Image)(values, np.vstack([affine, [0, 0, 0, 1]]), dtype=values.dtype)
        if change:
            change(image)
        nibabel.save(image, self.folder / name)
        return self.folder / name

    def test_images_that_nibabel_makes(self):
        for dtype in INTEGERS:
            for name, form in (("a.nii", None), ("a.nii.gz", nibabel.Nifti2Image)):
                with self.subTest(dtype=dtype, name=name):
                    self.holds(self.made(name, numbers(dtype), form=form), numbers(dtype), AFFINE)

    def test_big_endian(self):
        header = nibabel.Nifti1Header(endianness=">")
        header.set_data_dtype(np.int16)
        image = nibabel.Nifti1Image(numbers(np.int16), np.vstack([AFFINE, [0, 0, 0, 1]]), header)
        nibabel.save(image, self.folder / "a.nii")
        self.assertEqual((self.folder / "a.nii").read_bytes()[:4], b"\0\0\x01\x5c")
        self.holds(self.folder / "a.nii", numbers(np.int16), AFFINE)

    def test_the_qform_and_the_sizes(self):
        turned = np.array([[0, -2.0, 0, 5], [2, 0, 0, -6], [0, 0, 3, 7]])

        def by_qform(image):
            image.set_sform(None, 0)
            image.set_qform(np.vstack([turned, [0, 0, 0, 1]]), 1)

        values = numbers(np.int16)
        found = formats.read(self.made("a.nii", values, change=by_qform))
        np.testing.assert_allclose(found.affine, turned, atol=1e-6)
        data = bytearray((self.folder / "a.nii").read_bytes())
        data[80:92], data[252:256] = struct.pack("<3f", 2, 0.5, 3), bytes(4)  # pixdim, qform_code and sform_code
        self.holds(self.written("b.nii", data), values, np.diag([2, 0.5, 3]) @ np.eye(3, 4))

    def scaled(self, slope, shift, dtype=np.int16):
        path = self.made("a.nii", numbers(dtype))
        data = bytearray(path.read_bytes())
        data[112:120] = struct.pack("<ff", slope, shift)  # scl_slope and scl_inter
        return self.written("a.nii", data)

    def test_the_slope_and_the_shift(self):
        values = numbers(np.int16).astype(np.int64)
        self.holds(self.scaled(2, -3), values * 2 - 3, AFFINE)
        self.holds(self.scaled(0, 7), values, AFFINE)
        self.refused(self.scaled(0.5, 0), r"the value 0\.5 at the index \(0, 0, 1\) isn't an integer")
        self.refused(self.scaled(2, 0, np.int64), r"the value .*e\+19 at the index \(1, 2, 1\) isn't an integer")

    def test_images_that_the_package_writes(self):
        for dtype in (np.bool_, np.int32, np.int64):
            for name in ("a.nii", "a.nii.gz"):
                with self.subTest(dtype=dtype, name=name):
                    path, values = self.saved(name, dtype)
                    image = nibabel.load(path)
                    np.testing.assert_array_equal(np.asanyarray(image.dataobj), values)
                    self.assertEqual(image.get_data_dtype(), np.uint8 if dtype == np.bool_ else dtype)
                    np.testing.assert_array_equal(image.affine[:3], self.place().astype(np.float32))
        grid = scenefile.Grid.from_array(np.ones((2**15, 1, 1), np.int32))
        formats.save(self.folder / "b.nii", grid)
        self.assertIsInstance(nibabel.load(self.folder / "b.nii"), nibabel.Nifti2Image)

    def header(self, dice):
        """A header of version 1 with an sform, a qform, both or neither, units and an intent, and random numbers in them."""
        made = nibabel.Nifti1Header()
        affines = [np.eye(4) for _ in range(2)]
        for affine in affines:
            affine[:3, :3] = np.linalg.qr(dice.normal(size=(3, 3)))[0] @ np.diag(dice.choice([0.3, 0.5, 2.5, 1 / 3], 3))
            affine[:3, 3] = dice.normal(size=3) * 10 ** dice.integers(0, 4)
        which = dice.integers(0, 4)
        if which & 1:
            made.set_qform(affines[1], int(dice.integers(1, 5)))
        if which & 2:
            made.set_sform(affines[0], int(dice.integers(1, 5)))
        if not which or dice.random() < 0.3:
            made["pixdim"][1:4] = dice.choice([0.3, 2, 3], 3)
        made["xyzt_units"] = dice.choice([0, 2, 10, 3, 1, 18])
        if dice.random() < 0.5:
            made["intent_code"], made["intent_p1"], made["intent_p3"] = dice.choice([1002, 3, 24]), dice.choice([0, 1.5, 1 / 3]), dice.choice([0, 2])
            made["intent_name"] = dice.choice([b"", b"two words, or 3", b"caf\xe9"])
        return made

    def test_headers_come_back(self):
        """The transforms, units and intents are the same bytes after a scene file, also of an image that lies elsewhere."""
        dice = np.random.default_rng(5)
        names = [name for name in nibabel.Nifti1Header.template_dtype.names if name.startswith(("intent", "sform", "srow", "xyzt", "pixdim"))]
        for case in range(60):
            header = self.header(dice)
            nibabel.save(nibabel.Nifti1Image(numbers(np.uint8), None, header), self.folder / "a.nii")
            origin = None if case % 3 else dice.integers(-100, 100, 3).tolist()
            grid = formats.load(self.folder / "a.nii", scenefile.Grid, origin=origin)
            formats.save(self.folder / "b.nii", scenefile.loads(scenefile.Scene({"a": grid}).to_bytes())["a"])
            one, other = (nibabel.load(self.folder / name).header for name in ("a.nii", "b.nii"))
            qform = [name for name in one.keys() if name.startswith(("q", "pixdim"))] if one["qform_code"] else ["qform_code"]
            for name in [*names, *qform]:
                first = 1 if name == "pixdim" and not one["qform_code"] else 0  # pixdim[0] is of the qform
                with self.subTest(case=case, name=name):
                    self.assertEqual(np.atleast_1d(one[name])[first:].tolist(), np.atleast_1d(other[name])[first:].tolist())

    def test_version_2(self):
        place = np.vstack([AFFINE / 3, [0, 0, 0, 1]])
        nibabel.save(nibabel.Nifti2Image(numbers(np.int16), place), self.folder / "a.nii")
        formats.save(self.folder / "b.nii", formats.load(self.folder / "a.nii", scenefile.Grid))
        found = nibabel.load(self.folder / "b.nii")
        self.assertIsInstance(found, nibabel.Nifti2Image)
        np.testing.assert_allclose(found.affine, place, rtol=1e-12)

    def test_refused_images(self):
        self.refused(self.made("a.nii", np.zeros((3, 3, 3, 2), np.int16)), r"an image of the shape \(3, 3, 3, 2\)")
        self.holds(self.made("b.nii", numbers(np.int16)[..., None]), numbers(np.int16), AFFINE)
        colours = np.zeros((3, 3, 3), [("R", "u1"), ("G", "u1"), ("B", "u1")])
        self.refused(self.made("c.nii", colours), "aren't single numbers")
        self.refused(self.made("d.nii", numbers(np.int16) * np.float32(0.5)), r"the value 0\.5 at the index \(0, 0, 1\)")
        good = self.made("e.nii", numbers(np.int32)).read_bytes()
        self.refused(self.written("e.nii", good[:-1]), "the header says 240 bytes of values, more than")
        self.refused(self.written("f.nii", good[:200]), "f.nii: ")
        self.refused(self.written("g.nii", b"\0" * 400), "g.nii: ")
        self.refused(self.written("h.nii.gz", gzip.compress(good)[:-30]), "h.nii.gz: ")

    def test_lying_headers(self):
        good = bytearray(self.made("a.nii", numbers(np.uint8)).read_bytes())
        good[40:56] = struct.pack("<8h", 3, 1000, 1000, 1000, 1, 1, 1, 1)
        self.refused(self.written("a.nii", good), "the header says 1,000,000,000 bytes of values")
        self.refused(self.written("a.nii.gz", gzip.compress(good)), "the header says 1,000,000,000 bytes of values")
        good[40:56] = struct.pack("<8h", 3, 32767, 32767, 32767, 1, 1, 1, 1)
        self.refused(self.written("a.nii", good), "more than max_bytes", vdb.ArrayTooLargeError)
        good[40:56] = struct.pack("<8h", 3, -5, -4, 3, 1, 1, 1, 1)
        self.refused(self.written("a.nii", good), "shape")


@needs_tifffile
class Tiff(Formats):
    def made(self, values, **more):
        """Makes a stack by tifffile. Returns its path."""
        tifffile.imwrite(self.folder / "a.tif", values, **more)
        return self.folder / "a.tif"

    def test_stacks_that_tifffile_makes(self):
        for dtype in INTEGERS:
            for more in ({}, {"byteorder": ">"}, {"compression": "zlib"}, {"bigtiff": True, "metadata": None}):
                with self.subTest(dtype=dtype, more=more):
                    values = numbers(dtype)
                    self.holds(self.made(values.T, photometric="minisblack", **more), values)
        values = numbers(np.bool_) > 0
        self.holds(self.made(values.T, photometric="minisblack"), values)
        self.holds(self.made(values[:, :, 0].T), values[:, :, :1])
        self.holds(self.made(numbers(np.int16).T, imagej=True, metadata={"axes": "ZYX"}), numbers(np.int16))

    def test_stacks_that_the_package_writes(self):
        for dtype in (np.bool_, np.int32, np.int64):
            path, values = self.saved("a.tiff", dtype)
            with tifffile.TiffFile(path) as file:
                self.assertEqual((file.series[0].axes, len(file.pages)), ("ZYX", 3))
                np.testing.assert_array_equal(file.asarray(), values.T)
                np.testing.assert_array_equal(file.shaped_metadata[0]["affine"], self.place())
        with self.assertRaisesRegex(vdb.VolumeError, "at least one voxel"):
            formats.save(path, scenefile.Grid("i32"))
        np.testing.assert_array_equal(tifffile.imread(path), values.T)

    def test_sizes_of_voxels(self):
        """ImageJ writes voxels a unit and their distance along z, OME the sizes. A stack of this package keeps the units with the affine."""
        values, ours, ome = numbers(np.uint8), {"photometric": "minisblack"}, {}
        for axis in "XYZ":
            ome.update({f"PhysicalSize{axis}": 0.5, f"PhysicalSize{axis}Unit": f"{axis.lower()}m"})
        for more, sizes, units in (
            ({"imagej": True, "resolution": (2, 4), "metadata": {"axes": "ZYX", "spacing": 3, "unit": "micron"}}, (0.5, 0.25, 3), "um"),
            ({"imagej": True, "metadata": {"axes": "ZYX", "spacing": 3, "unit": "mm"}}, (1, 1, 3), "mm"),
            ({"imagej": True, "metadata": {"axes": "ZYX", "unit": "pixel"}}, None, ""), ({**ours, "ome": True, "metadata": {"axes": "ZYX"}}, None, ""),
            ({**ours, "ome": True, "metadata": {"axes": "ZYX", "PhysicalSizeX": 0.5, "PhysicalSizeZ": 2}}, (0.5, 1, 2), "um"),
            ({**ours, "ome": True, "metadata": {"axes": "ZYX", **ome}}, (0.5, 0.5, 0.5), "xm,ym,zm"),
        ):  # fmt: skip
            with self.subTest(more):
                path = self.made(values.T, **more)
                self.holds(path, values, None if sizes is None else np.diag(sizes) @ np.eye(3, 4))
                grid = formats.load(path, scenefile.Grid)
                formats.save(self.folder / "b.tif", grid)
                back = formats.load(self.folder / "b.tif", scenefile.Grid)
                self.assertEqual((grid.metadata.get("image_units", ""), dict(back.metadata)), (units, dict(grid.metadata)))

    def test_refused_stacks(self):
        self.refused(self.made(np.zeros((4, 5, 3), np.uint8), photometric="rgb"), "the axes YXS of the shape")
        self.refused(self.made(np.zeros((2, 3, 4, 5), np.uint8), imagej=True, metadata={"axes": "ZCYX"}), "the axes ZCYX of the shape")
        self.refused(self.made(np.zeros((2, 3, 4, 5), np.uint8), photometric="minisblack"), r"a stack of the shape \(5, 4, 3, 2\)")
        self.refused(self.made(numbers(np.int16).T * np.float32(0.5), photometric="minisblack"), r"the value 0\.5 at the index \(0, 0, 1\)")
        path = self.made(numbers(np.int32).T, photometric="minisblack")
        with tifffile.TiffFile(path) as file:
            values = file.pages[0].dataoffsets[0]
        data = path.read_bytes()
        for length in (0, 7, 40, values + 200):
            self.refused(self.written("b.tif", data[:length]), "b.tif: ")
        self.refused(self.written("c.tif", b"II*\0" + b"\xff" * 60), "c.tif: ")

    def test_lying_headers(self):
        data = self.made(np.zeros((4, 5), np.uint8), metadata=None).read_bytes()
        for tag, side in ((256, 5), (257, 4)):  # the width and the height, of 32 bits each
            field = struct.pack("<HHII", tag, 4, 1, side)
            self.assertEqual(data.count(field), 1)
            data = data.replace(field, field[:8] + struct.pack("<I", 40_000))
        self.refused(self.written("a.tif", data), "the header says 1,600,000,000 bytes of values")
        data = self.made(np.zeros((4, 5), np.uint8), metadata=None, compression="zlib").read_bytes()
        at = data.index(struct.pack("<HHI", 279, 4, 1)) + 8  # the bytes of the strip
        self.refused(self.written("a.tif", data[:at] + b"\xff" * 4 + data[at + 4 :]), "the header says 4,294,967,295 bytes of values")


class Nrrd(Formats):
    HEAD = "NRRD0005\n# a comment\ntype: {type}\ndimension: 3\nsizes: 5 4 3\nendian: {endian}\nencoding: {encoding}\n"

    def made(self, name, values, encoding="raw", endian="little", more="", type=None):
        """Makes a file by the definition of the format: the header, an empty line, and the values with x first. Returns its path."""
        head = self.HEAD.format(type=type or values.dtype.name, endian=endian, encoding=encoding) + more
        data = values.astype(values.dtype.newbyteorder("<" if endian == "little" else ">")).tobytes(order="F")
        return self.written(name, head.encode() + b"\n" + (gzip.compress(data) if encoding == "gzip" else data))

    def test_files_by_the_definition(self):
        for dtype in INTEGERS:
            for encoding in ("raw", "gzip"):
                for endian in ("little", "big"):
                    with self.subTest(dtype=dtype, encoding=encoding, endian=endian):
                        self.holds(self.made("a.nrrd", numbers(dtype), encoding, endian), numbers(dtype))
        self.holds(self.made("a.nrrd", numbers(np.int16), type="signed short int"), numbers(np.int16))
        self.holds(self.made("a.nrrd", numbers(np.uint8), type="unsigned char"), numbers(np.uint8))
        floats = numbers(np.int8).astype(np.float32)
        self.holds(self.made("a.nrrd", floats, type="float"), floats)

    def test_the_place(self):
        values = numbers(np.int16)
        place = "space directions: (-0.5,0,0) (0,0.25,-0.75) (0, 0.125, 2.5)\nspace origin: (10.25,-3,7)\nkinds: domain domain domain\n"
        self.holds(self.made("a.nrrd", values, more="space: right-anterior-superior\n" + place), values, AFFINE)
        self.holds(self.made("a.nrrd", values, more="space: left-posterior-superior\n" + place), values, AFFINE * [[-1], [-1], [1]])
        self.holds(self.made("a.nrrd", values, more="space: LAS\n" + place), values, AFFINE * [[-1], [1], [1]])
        self.holds(self.made("a.nrrd", values, more="space dimension: 3\n" + place), values, AFFINE)
        self.holds(self.made("a.nrrd", values, more="spacings: 2 NaN 0.5\n"), values, np.diag([2, 1, 0.5]) @ np.eye(3, 4))
        for more, affine, units, warned in (
            ('spacings: 2 3 4\nunits: "mm" "mm" "mm"\n', np.diag([2, 3, 4]) @ np.eye(3, 4), "mm", False),
            ("spacings: 2 3 4\naxis mins: 5 6 7\n", np.diag([2, 3, 4]) @ np.eye(3, 4), "", True),
            ("space dimension: 2\nspace directions: (1,0) (0,1) (0,0)\n", None, "", True),
        ):  # fmt: skip
            path = self.made("u.nrrd", values, more=more)
            with warnings.catch_warnings(record=True) as caught:
                warnings.simplefilter("always")
                self.holds(path, values, affine)
                self.assertEqual(formats.read(path).notes.get("image_units", ""), units)
            told = {str(it.message).rpartition(", so it is ")[2][:4] for it in caught if it.category is vdb.VdbWarning}
            self.assertEqual(told, {"lost"} if warned else set())
        head = self.HEAD.format(type="uint8", endian="little", encoding="raw").replace("dimension: 3\nsizes: 5 4 3", "dimension: 4\nsizes: 5 4 3 1")
        path = self.written("four.nrrd", (head + "space: RAS\nspace directions: (2,0,0) (0,3,0) (0,0,4) none\nspace origin: (5,6,7)\n\n").encode() + bytes(60))
        self.holds(path, np.zeros((5, 4, 3), np.uint8), np.array([[2, 0, 0, 5], [0, 3, 0, 6], [0, 0, 4, 7]]))

    def test_detached_values(self):
        values, head = numbers(np.int16), self.HEAD.format(type="short", endian="big", encoding="raw")
        data = values.astype(">i2").tobytes(order="F")
        (self.folder / "below").mkdir()
        self.written("below/a.raw", b"one\ntwo\n123" + data)
        self.holds(self.written("a.nhdr", f"{head}data file: below/a.raw\nline skip: 2\nbyte skip: 3\n".encode()), values)
        self.holds(self.written("b.nhdr", f"{head}datafile: below/a.raw\nbyte skip: -1\n\n".encode()), values)
        self.written("c.gz", b"one\n" + gzip.compress(b"123" + data))
        gzipped = head.replace("raw", "gzip")
        self.holds(self.written("c.nhdr", f"{gzipped}data file: c.gz\nline skip: 1\nbyte skip: 3\n".encode()), values)
        for name in ("/etc/passwd", "../a.raw", "LIST", "a%03d.raw 1 3 1"):
            self.refused(self.written("d.nhdr", f"{head}data file: {name}\n".encode()), "one file in the folder of the header")
        self.refused(self.written("e.nhdr", f"{head}data file: none.raw\n".encode()), "No such file", vdb.MissingFileError)

    def test_files_that_the_package_writes(self):
        for dtype, word in ((np.bool_, "uint8"), (np.int32, "int32"), (np.int64, "int64")):
            path, values = self.saved("a.nrrd", dtype)
            head, _, data = path.read_bytes().partition(b"\n\n")
            lines = dict(line.split(": ") for line in head.decode().splitlines() if ": " in line)
            self.assertEqual([lines[it] for it in ("type", "dimension", "sizes", "encoding", "endian")], [word, "3", "5 4 3", "gzip", "little"])
            vectors = [json.loads(it.replace("(", "[").replace(")", "]")) for it in f"{lines['space directions']} {lines['space origin']}".split()]
            np.testing.assert_array_equal(np.array(vectors).T, self.place())
            read = np.frombuffer(gzip.decompress(data), np.dtype(word).newbyteorder("<")).reshape(values.shape, order="F")
            np.testing.assert_array_equal(read, values)
        self.assertEqual(path.read_bytes(), self.saved("a.nrrd", np.int64)[0].read_bytes())
        with self.assertRaisesRegex(vdb.VolumeError, "only read"):
            formats.save(self.folder / "a.nhdr", scenefile.Grid.from_array(values))

    def test_refused_files(self):
        values = numbers(np.int16)
        good = self.made("a.nrrd", values).read_bytes()
        for old, new, told in (
            (b"NRRD0005", b"NRRX0005", "no NRRD file"), (b"encoding: raw", b"encoding: ascii", "the encoding ascii"),
            (b"sizes: 5 4 3", b"sizes: 5 4 3 1", "4 sizes, and the dimension 3"), (b"int16", b"block", "the type block"),
            (b"little", b"middle", "neither little nor big"), (b"endian: little\n", b"", "no field endian"), (b"sizes: 5 4 3\n", b"", "no field sizes"),
            (b"sizes: 5 4 3", b"sizes: 5 4 x", "no integer"), (b"sizes: 5 4 3", b"sizes: 5 -4 3", "the shape"),
            (b"dimension: 3\nsizes: 5 4 3", b"dimension: 4\nsizes: 3 5 4 1000", "the shape"),
            (b"dimension: 3", b"dimension: 3\nkinds: RGB-color domain domain", "the kinds RGB-color"),
            (b"sizes: 5 4 3", b"sizes: 5 4 30000", "1,200,000 bytes of values, more than the 120"),
            (b"sizes: 5 4 3", b"sizes: 5 4 2", "80 bytes of values, and 120 follow"),
            (b"encoding: raw", b"encoding: raw\nbyte skip: -2", "the byte skip -2"), (b"encoding: raw", b"encoding: raw\nline skip: 9", "more than"),
        ):  # fmt: skip
            with self.subTest(new):
                self.assertIn(old, good)
                self.refused(self.written("b.nrrd", good.replace(old, new)), told)
        self.refused(self.written("b.nrrd", good.replace(b"sizes: 5 4 3", b"sizes: 999999999999 999999999 9")), "max_bytes", vdb.ArrayTooLargeError)
        self.refused(self.written("c.nrrd", b"NRRD0005\n" + b"#" * 2**20), "the header has more than 65,536 bytes")
        self.refused(self.written("c.nrrd", good.replace(b"dimension", b"space directions: (1,0,0) (0,1,0) (0,0,x)\ndimension")), "isn't of numbers")

    def test_lying_gzip(self):
        head = self.HEAD.format(type="uint8", endian="little", encoding="gzip").encode()
        for data, told in (
            (gzip.compress(bytes(59)), "60 bytes of values, and 59 follow"), (gzip.compress(bytes(61)), "more than the 60 bytes"),
            (gzip.compress(bytes(60))[:-9], "a.nrrd: "), (b"no gzip", "a.nrrd: "), (gzip.compress(bytes(2**24)), "more than the 60 bytes"),
        ):  # fmt: skip
            self.refused(self.written("a.nrrd", head + b"\n" + data), told)
        self.refused(self.written("a.nrrd", head.replace(b"5 4 3", b"5 4 9999999") + b"\n" + gzip.compress(bytes(60))), "199,999,980 bytes of values, more")


class Vti(Formats):
    """Files by https://docs.vtk.org/en/latest/design_documents/VTKFileFormats.html."""

    def made(self, values, data, appended=b"", type=None, place=True, tag="PointData", order="LittleEndian", more="", header="", **array):
        words = " ".join(f'{key}="{value}"' for key, value in {"type": type or values.dtype.name.replace("u", "U").replace("i", "I"), **array}.items())
        high = [at + side - (tag == "PointData") for at, side in zip(LOW, values.shape)]
        extent = " ".join(f"{low} {last}" for low, last in zip(LOW, high))
        where = 'Origin="10 -3 7" Spacing="0.5 2 4" Direction="0 -1 0 1 0 0 0 0 1"' if place else ""
        text = (
            f'<?xml version="1.0"?>\n<VTKFile type="ImageData" version="1.0" byte_order="{order}" {header}>\n<ImageData WholeExtent="{extent}" {where}>\n'
            f'<Piece Extent="{extent}"><{tag} Scalars="a"><DataArray Name="a" {words}>{data}</DataArray>{more}</{tag}></Piece></ImageData>\n'
        )
        return self.written("a.vti", text.encode() + appended + b"</VTKFile>\n")

    TURNED = np.array([[0, -2, 0, 10], [0.5, 0, 0, -3], [0, 0, 4, 7.0]])

    def at_low(self, affine, offset=(0, 0, 0)):
        return np.column_stack([affine[:, :3], affine[:, 3] + affine[:, :3] @ np.add(LOW, offset)])

    def test_text(self):
        for dtype in INTEGERS:
            text = " ".join(map(str, numbers(dtype).ravel(order="F").tolist()))
            self.holds(self.made(numbers(dtype), text, format="ascii"), numbers(dtype), self.at_low(self.TURNED), LOW)
        values = numbers(np.int8)
        text = " ".join(map(str, values.ravel(order="F").tolist()))
        self.holds(self.made(values, text, format="ascii", tag="CellData"), values, self.at_low(self.TURNED, (0.5, 0.5, 0.5)), LOW)
        self.holds(self.made(values, text, format="ascii", place=False), values, self.at_low(np.eye(3, 4)), LOW)
        self.holds(self.made(values, text.replace(" ", ".0 "), format="ascii", type="Float64"), values, self.at_low(self.TURNED), LOW)

    def test_plain_values(self):
        for dtype in INTEGERS:
            for order, sign in (("LittleEndian", "<"), ("BigEndian", ">")):
                for header, word in (("", "I"), ('header_type="UInt64"', "Q")):
                    values = numbers(dtype)
                    data = values.astype(dtype.newbyteorder(sign)).tobytes(order="F")
                    data = struct.pack(sign + word, len(data)) + data
                    text = "\n" + base64.b64encode(data).decode() + "\n"
                    self.holds(self.made(values, text, format="binary", order=order, header=header), values, self.at_low(self.TURNED), LOW)
                    for encoding, other in (("raw", b"</AppendedData>\0"), ("base64", b"AAAA")):
                        part = base64.b64encode(data) if encoding == "base64" else data
                        appended = f'<AppendedData encoding="{encoding}">\n  _'.encode() + other + part + b"</AppendedData>"
                        path = self.made(values, "", appended, format="appended", offset=len(other), order=order, header=header)
                        self.holds(path, values, self.at_low(self.TURNED), LOW)

    def deflated(self, data, block, sizes=None):
        parts = [zlib.compress(data[at : at + block]) for at in range(0, len(data), block)]
        head = struct.pack(f"<{3 + len(parts)}I", *(sizes or (len(parts), block, len(data) % block)), *map(len, parts))
        return base64.b64encode(head).decode() + base64.b64encode(b"".join(parts)).decode()

    def test_deflated_values(self):
        values = numbers(np.int64)
        data = values.astype("<i8").tobytes(order="F")
        for block in (64, 480, 2**15, 120):
            path = self.made(values, self.deflated(data, block), format="binary", header='compressor="vtkZLibDataCompressor"')
            self.holds(path, values, self.at_low(self.TURNED), LOW)

    def test_files_that_the_package_writes(self):
        for dtype, word in ((np.bool_, "UInt8"), (np.int32, "Int32"), (np.int64, "Int64")):
            path, values = self.saved("a.vti", dtype)
            root = ElementTree.parse(path).getroot()
            image, piece, array = root.find("ImageData"), root.find("ImageData/Piece"), root.find("ImageData/Piece/PointData/DataArray")
            self.assertEqual((root.get("type"), root.get("byte_order"), root.get("header_type")), ("ImageData", "LittleEndian", "UInt64"))
            self.assertEqual({piece.get("Extent"), image.get("WholeExtent")}, {"-9 -5 3 6 4090 4092"})
            self.assertEqual((array.get("type"), array.get("format"), array.get("offset")), (word, "appended", "0"))
            turns = np.array(image.get("Direction").split(), float).reshape(3, 3)
            np.testing.assert_allclose(turns * np.array(image.get("Spacing").split(), float), AFFINE[:, :3], rtol=1e-15)
            self.assertEqual([float(it) for it in image.get("Origin").split()], AFFINE[:, 3].tolist())
            text = root.find("AppendedData").text.strip()
            self.assertEqual(text[0], "_")
            blocks, block, last, length = struct.unpack("<4Q", base64.b64decode(text[1:45]))
            data = zlib.decompress(base64.b64decode(text[45:]))
            self.assertEqual((blocks, block, last, length), (1, len(data), 0, len(base64.b64decode(text[45:]))))
            np.testing.assert_array_equal(np.frombuffer(data, dtype).reshape(values.shape, order="F"), values)

    def test_many_blocks(self):
        values = np.arange(200 * 100 * 90, dtype=np.int32).reshape(200, 100, 90) // 1000
        formats.save(self.folder / "a.vti", scenefile.Grid.from_array(values, np.ones(values.shape, bool)), values_only=True)
        np.testing.assert_array_equal(formats.read(self.folder / "a.vti").values, values)

    def test_refused_files(self):
        values = numbers(np.int32)
        text, data = " ".join(map(str, values.ravel(order="F").tolist())), values.astype("<i4").tobytes(order="F")
        good = self.made(values, text, format="ascii").read_bytes()
        for old, new, told in (
            (b'NumberOfComponents="1"', b"", ""), (b"</Piece>", b"</Piece><Piece></Piece>", "2 elements Piece"), (b"Int32", b"String", "the type String"),
            (b'format="ascii"', b'format="ascii" NumberOfComponents="3"', "3 a voxel"), (b"-9 -5 3 6 4090 4092", b"-9 -5 3 6 4090 4093", "80 voxels"),
            (b"-9 -5 3 6 4090 4092", b"0 9999999 0 9999999 0 9999999", "max_bytes"), (b"-9 -5 3 6 4090 4092", b"0 9 0 9", "4 numbers, not 6"),
            (b"<VTKFile", b'<!DOCTYPE a [<!ENTITY b "c">]>\n<VTKFile', "a declaration"), (b"</VTKFile>", b"", "ParseError"),
            (b'"0.5 2 4"', b'"0.5 2 x"', "ValueError"), (b"0 -1 0 1 0 0 0 0 1", b"0 -1 0", "Direction has 3 numbers"),
            (b'<DataArray Name="a"', b'<DataArray Name="b" /><DataArray Name="a"', ""), (b'Name="a"', b'Name="b"', "no array"),
        ):  # fmt: skip
            with self.subTest(new):
                if told:
                    self.assertIn(old, good)
                    error = vdb.ArrayTooLargeError if told == "max_bytes" else vdb.VolumeError
                    self.refused(self.written("b.vti", good.replace(old, new)), told, error)
                else:
                    self.holds(self.written("b.vti", good.replace(old, new)), values, self.at_low(self.TURNED), LOW)
        many = 'header_type="UInt32" compressor="vtkZLibDataCompressor"'
        for text, header, told in (
            (base64.b64encode(struct.pack("<I", 240) + data[:-1]).decode(), "", "244 bytes of values are expected, and 243 follow"),
            (base64.b64encode(struct.pack("<I", 239) + data).decode(), "", "239 bytes of values, and the extent needs 240"),
            ("=" * 400, "", "values in base64"), (self.deflated(data, 64), 'compressor="vtkLZ4DataCompressor"', "vtkZLibDataCompressor is read"),
            (self.deflated(data, 64, (4, 64, 47)), many, "239 bytes of values"), (self.deflated(data, 64, (2**31, 64, 48)), many, "more than"),
            (self.deflated(data, 64, (4, 48, 96)), many, "a block of 48 bytes of values has another length"),
        ):  # fmt: skip
            with self.subTest(told):
                self.refused(self.made(values, text, format="binary", header=header), told)


class Npy(Formats):
    def made(self, header, data=b"", version=(1, 0)):
        """Makes a file of a header, which numpy.lib.format defines. Returns its path."""
        text = header.encode() + b"\n"
        return self.written("a.npy", b"\x93NUMPY" + bytes(version) + struct.pack("<H" if version == (1, 0) else "<I", len(text)) + text + data)

    def test_arrays_that_numpy_saves(self):
        for dtype in [*INTEGERS, np.dtype(bool)]:
            for order in "CF":
                for sign in "<>":
                    values = numbers(dtype).astype(dtype.newbyteorder(sign), order=order)
                    np.save(self.folder / "a.npy", values)
                    self.holds(self.folder / "a.npy", values)
        np.save(self.folder / "a.npy", np.zeros((3, 0, 2), np.int32))
        self.assertEqual(formats.read(self.folder / "a.npy").values.shape, (3, 0, 2))

    def test_lying_headers(self):
        head = "{{'descr': {0!r}, 'fortran_order': False, 'shape': {1}, }}"
        for shape, told in (
            ("(2**63,)", "no .npy file"), (f"({2**63}, 1, 1)", "bytes of values, more than"), (f"({2**40}, {2**40}, {2**40})", "bytes of values, more than"),
            ("(-1, -1, 4)", "the shape"), ("(4, 4, 4, 4)", "the shape"), ("(100, 100, 100)", "4,000,000 bytes of values, more than the 64"),
            ("(True, 4, 4)", ""), ("'x'", "no .npy file"), ("(4,)", "the shape"),
        ):  # fmt: skip
            with self.subTest(shape):
                path = self.made(head.format("<i4", shape), bytes(64))
                if told:
                    self.refused(path, told)
                else:
                    self.assertEqual(formats.read(path).values.shape, (1, 4, 4))
        for word in ("|O", "<c8", "<M8[s]", "|S3", "|V4"):
            self.refused(self.made(head.format(word, "(1, 1, 1)"), bytes(64)), "aren't single numbers")
        self.refused(self.made("[" * 5000, bytes(64)), "a.npy: ")
        self.refused(self.made("{}", bytes(64), (2, 0)), "no .npy file")
        self.refused(self.written("a.npy", b""), "no .npy file")
        self.refused(self.made("{}", b"", (3, 0)), "version 3.0")

    def test_the_most_bytes(self):
        np.save(self.folder / "a.npy", np.zeros((4, 4, 4), np.int32))
        self.assertEqual(formats.read(self.folder / "a.npy", 256).values.size, 64)
        with self.assertRaises(vdb.ArrayTooLargeError):
            formats.read(self.folder / "a.npy", 255)


class Mutated(Formats):
    """Files with changed bytes are read, or are errors of the package that take little memory."""

    def changed(self, draw, data):
        made = bytearray(data)
        at = draw.randrange(min(len(made), 700))
        if draw.random() < 0.7:
            made[at : at + draw.choice([1, 1, 4])] = bytes(draw.choice([0, 1, 127, 128, 255, draw.randrange(256)]) for _ in range(draw.choice([1, 1, 4])))
        elif draw.random() < 0.5:
            del made[at : at + draw.randrange(1, 9)]
        else:
            del made[at:]
        return bytes(made)

    def test_changed_bytes(self):
        grid = scenefile.Grid.from_array(numbers(np.int32), np.ones((5, 4, 3), bool), LOW)
        missing = {".nii": not nibabel, ".nii.gz": not nibabel, ".tif": not tifffile}
        for ending in (".npy", ".nii", ".nii.gz", ".nrrd", ".tif", ".vti"):
            if missing.get(ending):
                continue
            formats.save(self.folder / f"a{ending}", grid, values_only=True)
            data, draw, read = (self.folder / f"a{ending}").read_bytes(), chance(ending), 0
            tracemalloc.start()
            for _ in range(80):
                try:
                    read += formats.read(self.written(f"b{ending}", self.changed(draw, data)), 2**24) is not None
                except vdb.VdbError:
                    pass
            peak = tracemalloc.get_traced_memory()[1]
            tracemalloc.stop()
            self.assertLess(peak, 2**23, ending)
            self.assertTrue(0 < read < 80 or ending in (".nii.gz", ".vti"), f"{ending}: {read} of 80 are read")


class Damaged(Formats):
    """A file whose values have a checksum is read as it was written, or not at all."""

    def test_changed_bits_and_missing_bytes(self):
        values = np.random.default_rng(3).integers(0, 13, (4, 4, 3)).astype(np.uint16)
        grid = scenefile.Grid.from_array(values, np.ones(values.shape, bool))
        for ending in (".nrrd", ".vti", *([".nii.gz"] if nibabel else [])):
            path, draw, found = self.folder / f"a{ending}", chance(ending), []
            formats.save(path, grid, dtype=np.uint16, values_only=True)
            data = path.read_bytes()
            bits = draw.sample(range(8 * len(data)), 300) + [*range(8 * len(data) - 64, 8 * len(data))]
            changed = [data[: bit // 8] + bytes([data[bit // 8] ^ 1 << bit % 8]) + data[bit // 8 + 1 :] for bit in bits]
            changed += [data[:length] for length in [*range(0, len(data), 16), *range(len(data) - 20, len(data))]]
            for one in changed:
                try:
                    found.append(formats.read(self.written(f"b{ending}", one)).values)
                except vdb.VdbError:
                    pass
            self.assertTrue(all(np.array_equal(it, values) for it in found), ending)
            self.assertLess(len(found), len(changed) // 2, ending)

    @needs_nibabel
    def test_the_end_of_a_gzip_file(self):
        path = self.folder / "a.nii.gz"
        nibabel.save(nibabel.Nifti1Image(np.arange(60, dtype=np.uint8).reshape(5, 4, 3), np.eye(4)), path)
        data = path.read_bytes()
        for count in range(1, 10):
            self.refused(self.written("b.nii.gz", data[:-count]), "b.nii.gz: ")
        self.refused(self.written("b.nii.gz", data[:-8] + bytes([data[-8] ^ 1]) + data[-7:]), "CRC check failed")


class Common(Formats):
    def test_errors_of_the_system(self):
        """A file that isn't there, or may not be read, and a full disk are errors of one class in each format."""
        grid = scenefile.Grid.from_array(np.random.default_rng(1).integers(0, 99, (40, 40, 40)).astype(np.int32))
        for ending in formats.FORMATS:
            if not nibabel and ".nii" in ending or not tifffile and ".tif" in ending:
                continue
            with self.subTest(ending):
                with self.assertRaisesRegex(vdb.MissingFileError, f"none{ending}: No such file"):
                    formats.read(self.folder / f"none{ending}")
                (self.folder / f"folder{ending}").mkdir()
                if ending == ".zarr":
                    continue  # a folder
                with self.assertRaisesRegex(vdb.FileError, "Is a directory"):
                    formats.read(self.folder / f"folder{ending}")
                if ending != ".nhdr":
                    (self.folder / f"full{ending}").symlink_to("/dev/full")
                    with self.assertRaisesRegex(vdb.FileError, f"full{ending}: No space left on device"):
                        formats.save(self.folder / f"full{ending}", grid)


    def test_floats(self):
        for dtype in (np.float16, np.float32, np.float64, np.longdouble):
            for values, wanted in (([0, -3, 5], np.int32), ([0, 2**15, -7], np.int32)):
                found = volume.integers(np.array(values, dtype).reshape(3, 1, 1))
                self.assertEqual((found.dtype, found.ravel().tolist()), (wanted, values))
        for values in ([1, 2.0**31, -(2.0**31)], [0, -(2.0**63), 2.0**62]):
            found = volume.integers(np.array(values).reshape(1, 3, 1))
            self.assertEqual((found.dtype, found.ravel().tolist()), (np.int64, values))
        for value, text in ((0.5, "0.5"), (np.nan, "nan"), (np.inf, "inf"), (2.0**63, r"9\.223372036854776e\+18")):
            made = np.zeros((volume.CHUNK // 8 + 3, 2, 4))
            made[-2, 1, 2] = made[-1, 0, 0] = value
            with self.assertRaisesRegex(vdb.VolumeError, rf"the value {text} at the index \({len(made) - 2}, 1, 2\) isn't an integer"):
                volume.integers(made)

    def test_unsigned_values_of_64_bits(self):
        made = np.full((2, 3, 4), 2**63 - 1, np.uint64)
        np.testing.assert_array_equal(volume.integers(made), made.astype(np.int64))
        made[1, 2, 3] = 2**63
        with self.assertRaisesRegex(vdb.VolumeError, r"the value 9223372036854775808 at the index \(1, 2, 3\)"):
            volume.integers(made)

    @unittest.skipIf(library_missing(), library_missing())
    def test_images_come_back(self):
        """The whole image in its dtype, also of a mask with no active voxel, through each format and a scene file."""
        values = np.zeros((5, 4, 3), np.uint16)
        values[1, 2, 1] = 700
        for dtype in (np.uint16, np.int64, np.float32, np.float64):
            for ending in (".npy", ".nrrd", ".vti", *[".nii", ".nii.gz"] * bool(nibabel), *[".tif"] * bool(tifffile)):
                path = self.folder / f"a{ending}"
                formats.write(path, formats.Volume(values.astype(dtype), AFFINE, LOW))
                grid = vdb.loads(vdb.Scene({"a": formats.load(path, vdb.Grid)}).to_bytes())["a"]
                for wanted, made in ((values.astype(dtype), grid), (np.zeros((5, 4, 3), bool), grid.select(5))):
                    with self.subTest(ending, dtype=dtype, wanted=wanted.dtype):
                        formats.save(path, made)
                        found = formats.read(path)
                        np.testing.assert_array_equal(found.values, wanted)
                        self.assertEqual(found.dtype, wanted.dtype if ending == ".npy" else volume.stored(wanted).dtype)
                        if ending != ".npy":
                            np.testing.assert_allclose(found.affine, AFFINE, atol=1e-3)

    @unittest.skipIf(library_missing(), library_missing())
    def test_grids_of_the_engine(self):
        values = numbers(np.int32)
        grid = vdb.Grid.from_array(values, origin=LOW, metadata=PAIRS)
        formats.save(self.folder / "a.nrrd", grid, bounds=(LOW, [at + side - 1 for at, side in zip(LOW, values.shape)]))
        found = formats.load(self.folder / "a.nrrd", vdb.Grid)
        kept = {**PAIRS, "image_array": "int32,5,4,3", "image_low": "-9,3,4090"}
        self.assertEqual((type(found), found, dict(found.metadata)), (vdb.Grid, grid, kept))

    def test_types(self):
        np.save(self.folder / "a.npy", np.array([[[0, 1, 1]]], np.uint8))
        self.assertEqual([formats.load(self.folder / "a.npy", scenefile.Grid, kind=kind).kind for kind in (None, "bool", "i64")], ["i32", "bool", "i64"])
        np.save(self.folder / "a.npy", np.array([[[0, 1, 2]]], np.uint8))
        with self.assertRaisesRegex(vdb.RangeError, "the value 2 is neither 0 nor 1"):
            formats.load(self.folder / "a.npy", scenefile.Grid, kind="bool")

    def test_the_pairs_of_an_affine(self):
        long = np.array([[1 / 3, -1e-5 / 3, 1e-100 / 7, -np.pi * 1e-200], [0, 0.3, 0.1, 2**60 / 3], [np.float32(0.1), 5, 0.7, -0.0]])
        for affine in (AFFINE, long, -long):
            pairs = images.rows_of(affine)
            self.assertLessEqual(max(map(len, pairs.values())), 63)
            np.testing.assert_allclose(images.affine_of(pairs), affine, rtol=2e-8)
        np.testing.assert_array_equal(images.affine_of(PAIRS), AFFINE)
        self.assertEqual(images.rows_of(np.eye(3, 4)), {})
        for affine in (np.zeros((3, 4)), np.full((3, 4), np.nan)):
            with self.assertRaisesRegex(vdb.VolumeError, "no inverse"):
                images.rows_of(affine)
        for text in ("1,2,3", "1,2,3,x", "1,2,3,inf"):
            with self.assertRaisesRegex(vdb.VolumeError, "aren't four numbers each"):
                images.affine_of({**PAIRS, "affine_y": text})
        with self.assertRaisesRegex(vdb.VolumeError, "aren't four numbers each"):
            images.affine_of({"affine_y": "1,2,3,4"})

    def test_dtypes(self):
        grid = scenefile.Grid.from_array(np.array([[[2**24 + 1, -1]]]), origin=(4, 5, 6))
        for dtype, value, at in (
            ("float32", 2**24 + 1, (4, 5, 6)), ("uint8", 2**24 + 1, (4, 5, 6)), ("uint64", -1, (4, 5, 7)), ("bool", 2**24 + 1, (4, 5, 6)),
        ):  # fmt: skip
            with self.assertRaisesRegex(vdb.RangeError, re.escape(f"the value {value} at {at} is outside {dtype}")):
                formats.save(self.folder / "a.npy", grid, dtype=dtype)
        for dtype in ("nothing", "complex64", "S3"):
            with self.assertRaises(vdb.DtypeError):
                formats.save(self.folder / "a.npy", grid, dtype=dtype)
        formats.save(self.folder / "a.npy", grid, dtype=np.float64)
        np.testing.assert_array_equal(np.load(self.folder / "a.npy"), [[[2.0**24 + 1, -1]]])

    def test_missing_packages(self):
        for name, package in (("a.nii", "python3-nibabel"), ("a.tif", "python3-tifffile")):
            self.written(name, b"")
            with mock.patch("importlib.import_module", side_effect=ImportError), self.assertRaisesRegex(ImportError, package):
                formats.read(self.folder / name)

    def test_states_of_another_file(self):
        """States lie in the voxels of the values, by the rules of two grids that are combined."""
        values, place = numbers(np.uint8), self.place()
        on, moved = values > 3, np.eye(3, 4) - np.eye(3, 4, 1)
        path = self.folder / "a.nrrd"
        formats.write(path, formats.Volume(values, place, LOW))
        for changed, told in (
            ({}, ""), ({"affine": place + 1e-5}, ""), ({"affine": place + [[0, 0, 0, 0.5], [0] * 4, [0] * 4]}, "the affine"),
            ({"affine": place * 2}, "the affine"), ({"values": on[:, :, :2]}, r"the shape \(5, 4, 3\) and \(5, 4, 2\)"),
            ({"origin": (-9, 3, 4091)}, r"the first voxel \(-9, 3, 4090\) and \(-9, 3, 4091\), the affine"),
            ({"affine": place @ np.vstack([moved, [0, 0, 0, 1]])}, "the affine"),
        ):  # fmt: skip
            formats.write(self.folder / "on.nrrd", formats.Volume(on, place, LOW)._replace(**changed))
            with self.subTest(changed):
                if told:
                    with self.assertRaisesRegex(vdb.GeometryError, f"two grids of different images, {told}.*: states of a .npy file, or an array, are"):
                        formats.load(path, scenefile.Grid, active=self.folder / "on.nrrd")
                else:
                    grid = formats.load(path, scenefile.Grid, active=str(self.folder / "on.nrrd"), origin=(0, 0, 0))
                    np.testing.assert_array_equal(grid.active[:5, :4, :3], on)
        np.save(self.folder / "on.npy", on)
        np.save(self.folder / "a.npy", values)
        for values_file, states in ((path, "on.npy"), (self.folder / "a.npy", "on.nrrd"), (self.folder / "a.npy", "on.npy")):
            grid = formats.load(values_file, scenefile.Grid, active=self.folder / states, origin=(0, 0, 0))
            np.testing.assert_array_equal(grid.active[:5, :4, :3], on)
        with self.assertRaisesRegex(vdb.RangeError, "a.npy: the value .* is neither 0 nor 1"):
            formats.load(path, scenefile.Grid, active=self.folder / "a.npy")

    def test_the_first_bytes(self):
        """A file whose first bytes tell another format than its ending is an error that has both, and so is one of another ending."""
        np.save(self.folder / "a.npy", np.zeros((2, 2, 2), np.uint8))
        data = (self.folder / "a.npy").read_bytes()
        for name, begins, told in (
            ("a.nii", gzip.compress(data), "the ending is .nii, and the first bytes are those of gzip, whose ending is .nii.gz or .vdbs.gz"),
            ("b.nii.gz", bytes(344) + b"n+1\0", "those of NIfTI, whose ending is .nii$"), ("c.nrrd", b"\x1c\2\0\0n+2\0", "NIfTI, whose ending is .nii$"),
            ("d.tif", b"\x89PNG\r\n\x1a\n", "the ending is .tif, .* of PNG, which isn't read"), ("e.npy", b"PK\3\4", "of zip, as .npz files are, which"),
            ("f.nii", bytes(128) + b"DICM", "of DICOM"), ("g.vti", b"II*\0", "of TIFF, whose ending is .tif or .tiff"), ("h.npy", b"MM\0+", "of TIFF"),
            ("i.tif", b'<?xml version="1.0"?>\n<VTKFile ', "of VTK, whose ending is .vti"), ("j.npy", b" BDV", "of OpenVDB, which isn't read"),
            ("k.nii", b"NRRD0004\n", "of NRRD, whose"), ("l.tif", b"\xff\xd8\xff", "of JPEG"), ("m.nii", b"\x89HDF", "of HDF5"), ("n.npy", b"VDBS", "a scene file"),
        ):  # fmt: skip
            self.refused(self.written(name, begins), told)
        for name in ("a", "a.dat"):
            told = "the ending is none of .*, and the first bytes are those of NumPy, whose ending is .npy$"
            self.refused(self.written(name, data), told, vdb.RangeError)
            with self.assertRaisesRegex(vdb.MagicFault, "those of NumPy, whose ending is .npy. For an image use vdb.formats.load"):
                scenefile.load(self.folder / name)
        scenefile.Scene().save(self.folder / "a.vdbs.gz")
        with self.assertRaisesRegex(vdb.MagicFault, "those of gzip, whose ending is .nii.gz or .vdbs.gz"):
            scenefile.load((self.folder / "a.vdbs.gz").rename(self.folder / "z.vdbs"))

    def test_endings(self):
        for name in ("a", "a.txt", "a.vdb", "a.nii.bz2"):
            with self.assertRaisesRegex(vdb.RangeError, r"the ending is none of \.npy, \.nii, "):
                formats.read(name)
        with self.assertRaises(vdb.MissingFileError):
            formats.read(self.folder / "none.NRRD")


if __name__ == "__main__":
    unittest.main()
