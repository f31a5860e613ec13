# SPDX-License-Identifier: Apache-2.0
"""The first hour of a user with an image of labels: it comes back as it was, and what is made of it lies where the image lies."""
import base64
import gzip
import struct
import unittest
import warnings
import zlib
from xml.etree import ElementTree

from .support import CommandCase, library_missing, np, scenefile, vdb

from vdb import formats

if library_missing():
    raise unittest.SkipTest(library_missing())
try:
    import nibabel
    from scipy import ndimage
except ImportError as error:
    raise unittest.SkipTest(f"{error}: Debian has nibabel and scipy as python3-nibabel and python3-scipy") from error

SHAPE = (23, 31, 17)


def oblique():
    """An affine (3 x 4) of voxels of 0.5 x 2.5 x 0.75, whose axes are permuted, flipped and turned by 20 degrees."""
    c, s = np.cos(np.pi / 9), np.sin(np.pi / 9)
    permuted = np.array([[0, 0, -1], [1, 0, 0], [0, 1, 0]], np.float64)
    turned = np.array([[c, -s, 0], [s, c, 0], [0, 0, 1]]) @ permuted @ np.diag([0.5, 2.5, 0.75])
    return np.column_stack([turned, [90.125, -126.3, -72.7]]).astype(np.float32).astype(np.float64)


def labels():
    """Labels 0 to 12 of uint8, balls that touch one another and the border."""
    dice, made = np.random.default_rng(7), np.zeros(SHAPE, np.uint8)
    at = np.indices(SHAPE)
    for label in range(1, 13):
        middle = dice.integers(0, SHAPE)
        made[((at - middle[:, None, None, None]) ** 2).sum(axis=0) < 30] = label
    return made


class FirstHour:
    """What is the same for each format. `ending` is that of the file, `write` makes one of an image and `header` reads what it says."""

    ending, unit = "", "mm"

    def setUp(self):
        super().setUp()
        self.values, self.path = labels(), f"labels{self.ending}"
        self.write(self.path, self.values)

    def array(self, path):
        """The values of a file as it has them, with their dtype."""
        raise NotImplementedError

    def same(self, path, values, dtype=np.uint8):
        """The file has these values in a dtype, and the header of the first one."""
        found = self.array(path)
        self.assertEqual((found.dtype, found.shape), (np.dtype(dtype), SHAPE))
        np.testing.assert_array_equal(found, values)
        self.assertEqual(self.header(path), self.header(self.path))

    def lies(self, grid, values):
        """Nibabel finds the grid, saved as an image of NIfTI, where the first file says."""
        formats.save("there.nii.gz", grid)
        image = nibabel.load("there.nii.gz")
        np.testing.assert_array_equal(np.asanyarray(image.dataobj), values)
        np.testing.assert_allclose(image.affine[:3], oblique(), rtol=0, atol=1e-5)
        self.assertEqual(image.header.get_xyzt_units()[0], self.unit)

    def test_an_image_comes_back(self):
        for form in (vdb.Grid, scenefile.Grid):
            formats.save(f"out{self.ending}", formats.load(self.path, form))
            self.same(f"out{self.ending}", self.values)
        self.run_it("convert", self.path, "a.vdbs")
        self.run_it("convert", "a.vdbs", f"back{self.ending}")
        self.same(f"back{self.ending}", self.values)
        self.lies(vdb.load("a.vdbs")["labels"], self.values)

    def test_a_mask_its_margin_and_a_grown_label(self):
        grid, cross = formats.load(self.path, vdb.Grid), ndimage.generate_binary_structure(3, 1)
        organ, mask = self.values == 5, grid.select(5)
        self.assertEqual((mask.count, mask.bounds), (np.count_nonzero(organ), tuple(
            tuple(int(end(axis)) for axis in np.nonzero(organ)) for end in (np.min, np.max))))  # fmt: skip
        formats.save(f"mask{self.ending}", mask)
        self.same(f"mask{self.ending}", organ)
        self.lies(mask, organ)

        mask.dilate(2)
        dilated = ndimage.binary_dilation(organ, cross, iterations=2)
        margin = mask - grid
        grid.dilate_label(5, 3)
        grown = ndimage.binary_dilation(organ, cross, iterations=3, mask=organ | (self.values == 0))
        with warnings.catch_warnings():
            warnings.simplefilter("ignore", vdb.VdbWarning)  # of what grows out of the image
            formats.save(f"dilated{self.ending}", mask)
            formats.save(f"margin{self.ending}", margin)
            formats.save(f"grown{self.ending}", grid)
        self.same(f"dilated{self.ending}", dilated)
        self.same(f"margin{self.ending}", dilated & (self.values == 0))
        self.same(f"grown{self.ending}", np.where(grown, 5, self.values))

    def test_an_eroded_mask_through_a_scene_file(self):
        mask = formats.load(self.path, vdb.Grid).select([5, 6])
        mask.erode(1)
        vdb.Scene({"core": mask}).save("core.vdbs")
        self.run_it("convert", "core.vdbs", f"core{self.ending}")
        # scipy takes what lies outside the array for inactive too
        self.same(f"core{self.ending}", ndimage.binary_erosion(np.isin(self.values, [5, 6])))

    def test_an_empty_mask(self):
        for mask in (formats.load(self.path, vdb.Grid).select(99), formats.load(self.path, vdb.Grid) & vdb.Grid("bool")):
            with self.subTest(mask):
                mask = mask.select(99) if mask.kind == "i32" else mask
                formats.save(f"none{self.ending}", mask)
                self.same(f"none{self.ending}", np.zeros(SHAPE))

    def test_what_the_image_does_not_hold(self):
        grid = formats.load(self.path, vdb.Grid)
        grid[3, 4, 5] = 256
        with self.assertRaisesRegex(vdb.RangeError, r"the value 256 at \(3, 4, 5\) is outside uint8"):
            formats.save(f"out{self.ending}", grid)
        formats.save(f"out{self.ending}", grid, dtype=np.int16)
        found = self.array(f"out{self.ending}")
        self.assertEqual((found.dtype, found.shape, found[3, 4, 5]), (np.int16, SHAPE, 256))
        grid[3, 4, 5] = 1
        grid[-2:0, 0, 0] = 7
        with self.assertWarnsRegex(vdb.VdbWarning, r"2 active voxels lie outside the image, which is \(\(0, 0, 0\), \(22, 30, 16\)\), and aren't"):
            formats.save(f"out{self.ending}", grid)
        self.assertEqual((self.array(f"out{self.ending}").shape, self.header(f"out{self.ending}")), (SHAPE, self.header(self.path)))
        vdb.Scene({"a": grid}).save("a.vdbs")
        status, _, errors = self.called("convert", "a.vdbs", f"again{self.ending}")
        self.assertEqual((status, errors.count("vdb-scene: warning: 2 active voxels lie outside the image")), (0, 1), errors)
        self.fails("convert", "a.vdbs", f"strict{self.ending}", "--strict", told="a.vdbs: 2 active voxels lie outside the image")
        with self.assertRaises(vdb.GeometryError):
            formats.save(f"out{self.ending}", grid, strict=True)

    def test_a_part(self):
        """What is cropped lies where it lay."""
        grid, box = formats.load(self.path, vdb.Grid), ((3, 4, 5), (12, 20, 9))
        formats.save(f"part{self.ending}", grid, bounds=box)
        np.testing.assert_array_equal(self.array(f"part{self.ending}"), self.values[3:13, 4:21, 5:10])
        part = formats.load(f"part{self.ending}", vdb.Grid)
        self.assertEqual([dict(it.metadata)[key] for it in (part,) for key in ("image_array", "image_low")], ["uint8,10,17,5", "3,4,5"])
        np.testing.assert_allclose(vdb.images.affine_of(part.metadata), oblique(), rtol=0, atol=1e-4)
        with self.assertRaisesRegex(vdb.GeometryError, r"the shape .* the first voxel"):
            grid.intersect(part)


class Nifti(FirstHour, CommandCase):
    ending = ".nii.gz"
    FIELDS = (
        "sizeof_hdr", "dim", "intent_p1", "intent_p2", "intent_p3", "intent_code", "pixdim", "xyzt_units", "qform_code", "sform_code", "quatern_b",
        "quatern_c", "quatern_d", "qoffset_x", "qoffset_y", "qoffset_z", "srow_x", "srow_y", "srow_z", "intent_name",
    )  # fmt: skip

    def write(self, path, values):
        image = nibabel.Nifti1Image(values, None)  # nibabel writes the header as it is then
        image.header.set_sform(np.vstack([oblique(), [0, 0, 0, 1]]), "aligned")
        image.header.set_xyzt_units("mm", "sec")
        image.header.set_intent("label", name="organs, 12")
        self.change(image.header)
        nibabel.save(image, path)

    def change(self, header):
        header.set_sform(header.get_sform(), "mni")
        header.set_qform(np.array([[0, -0.5, 0, 5], [2.5, 0, 0, -6], [0, 0, 0.75, 7.1], [0, 0, 0, 1]]), "scanner")

    def header(self, path):
        found = nibabel.load(path).header
        return [(name, found[name].tolist()) for name in self.FIELDS]

    def array(self, path):
        image = nibabel.load(path)
        np.testing.assert_array_equal(image.dataobj.get_unscaled(), np.asanyarray(image.dataobj))
        return image.dataobj.get_unscaled()

    def test_the_qform_of_a_part(self):
        """The first voxel of the part lies where the qform of the image maps its index."""
        formats.save("part.nii", formats.load(self.path, vdb.Grid), bounds=((3, 4, 5), (12, 20, 9)))
        whole, part = (nibabel.load(path).header.get_qform(coded=True) for path in (self.path, "part.nii"))
        self.assertEqual(part[1], whole[1])
        np.testing.assert_allclose(part[0], whole[0] @ [[1, 0, 0, 3], [0, 1, 0, 4], [0, 0, 1, 5], [0, 0, 0, 1]], atol=1e-5)


class NiftiOfQform(Nifti):
    """Without an sform; with a sign of the qform, and parameters of the intent."""

    ending = ".nii"

    def change(self, header):
        header.set_qform(np.vstack([oblique(), [0, 0, 0, 1]]), "aligned")
        header.set_sform(np.zeros((4, 4)), 0)
        header.set_intent("f test", (3, 1 / 3), name="")


class Nrrd(FirstHour, CommandCase):
    ending = ".nrrd"

    def write(self, path, values):
        flipped = oblique() * [[-1], [-1], [1]]
        vectors = ["(" + ",".join(map(repr, column)) + ")" for column in flipped.T.tolist()]
        head = (
            "NRRD0005\ntype: uint8\ndimension: 3\nspace: left-posterior-superior\nsizes: 23 31 17\n"
            f"space directions: {' '.join(vectors[:3])}\nkinds: domain domain domain\nencoding: gzip\n"
            f'space origin: {vectors[3]}\nspace units: "mm" "mm" "mm"\n\n'
        )
        (self.folder / path).write_bytes(head.encode() + gzip.compress(values.tobytes(order="F")))

    def parts(self, path):
        head, _, data = (self.folder / path).read_bytes().partition(b"\n\n")
        return dict(line.split(": ", 1) for line in head.decode().splitlines()[1:] if ": " in line), gzip.decompress(data)

    def header(self, path):
        fields, _ = self.parts(path)
        vectors = [np.array([eval(text) for text in fields[name].split()], np.float32).tolist() for name in ("space directions", "space origin")]
        return [fields[name] for name in ("space", "space units", "sizes", "kinds", "dimension")] + vectors

    def array(self, path):
        fields, data = self.parts(path)
        return np.frombuffer(data, fields["type"]).reshape([int(side) for side in fields["sizes"].split()], order="F")


class Vti(FirstHour, CommandCase):
    ending, unit = ".vti", "unknown"

    def write(self, path, values):
        affine = oblique()
        spacing = np.linalg.norm(affine[:, :3], axis=0)
        told = {name: " ".join(map(repr, numbers.ravel().tolist())) for name, numbers in (
            ("Origin", affine[:, 3]), ("Spacing", spacing), ("Direction", affine[:, :3] / spacing))}  # fmt: skip
        image = ElementTree.Element("ImageData", WholeExtent="0 22 0 30 0 16", **told)
        piece = ElementTree.SubElement(image, "Piece", Extent="0 22 0 30 0 16")
        array = ElementTree.SubElement(ElementTree.SubElement(piece, "PointData", Scalars="x"), "DataArray", type="UInt8", Name="x", format="binary")
        data = values.tobytes(order="F")
        array.text = base64.b64encode(struct.pack("<Q", len(data)) + data).decode()
        root = ElementTree.Element("VTKFile", type="ImageData", version="1.0", byte_order="LittleEndian", header_type="UInt64")
        root.append(image)
        ElementTree.ElementTree(root).write(path)

    def header(self, path):
        image = ElementTree.parse(path).getroot().find("ImageData")
        numbers = [np.round([float(word) for word in image.get(name).split()], 5).tolist() for name in ("Origin", "Spacing", "Direction")]
        return [image.get("WholeExtent"), image.find("Piece").get("Extent"), *numbers]

    def array(self, path):
        root = ElementTree.parse(path).getroot()
        array = root.find("ImageData/Piece/PointData/DataArray")
        if array.get("format") == "binary":
            data = base64.b64decode(array.text)[8:]
        else:
            text = root.find("AppendedData").text.strip()[1:]
            (blocks,) = struct.unpack("<Q", base64.b64decode(text[:12])[:8])
            head = -(-(24 + 8 * blocks) // 3) * 4
            self.assertEqual(blocks, 1)
            data = zlib.decompress(base64.b64decode(text[head:]))
        ends = [int(word) for word in root.find("ImageData/Piece").get("Extent").split()]
        return np.frombuffer(data, array.get("type").lower()).reshape([last - first + 1 for first, last in zip(ends[::2], ends[1::2])], order="F")


if __name__ == "__main__":
    unittest.main()
