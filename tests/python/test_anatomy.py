# SPDX-License-Identifier: Apache-2.0
"""Slices of images are turned as their affine says, with the proportions of voxels, over a gray image: compared with nibabel."""
import itertools
import sys
import unittest
from unittest import mock

import nibabel
from PIL import Image

from .support import CommandCase, np, scenefile

from vdb.command.common import anatomy_of
from vdb.command.panes import ENDS, axes_of, panes_of
from vdb.scenefile.picture import INACTIVE, colours_of



def rotation(luck, most=0.5):
    """A random rotation by at most about `most`."""
    made, _ = np.linalg.qr(np.eye(3) + luck.uniform(-most / 2, most / 2, (3, 3)))
    return made @ np.diag(np.sign(np.diag(made)))


def affines():
    """An oblique affine (4 x 4) of anisotropic voxels for each order and each direction of the axes."""
    luck = np.random.default_rng(5)
    for order in itertools.permutations(range(3)):
        for signs in itertools.product((1, -1), repeat=3):
            made = np.eye(4)
            made[:3, :3] = (rotation(luck) * signs)[:, list(order)] * (0.5, 1, 3)
            made[:3, 3] = luck.uniform(-90, 90, 3)
            yield made


def head(affine, shape=(12, 10, 6)):
    """An image of the shape in these axes: label 7 is in the last voxels to the left, 5 in the first ones to the front, 9 is at the top."""
    values = np.zeros(shape, np.uint8)
    axes = nibabel.io_orientation(affine)
    for label, world, to_greater in ((7, 0, False), (5, 1, True), (9, 2, True)):
        axis = int(np.flatnonzero(axes[:, 0] == world)[0])
        part = [slice(side // 2 - 1, side // 2 + 1) for side in shape]
        part[axis] = slice(-2, None) if (axes[axis, 1] > 0) == to_greater else slice(2)
        values[tuple(part)] = label
    return nibabel.Nifti1Image(values, affine)


class Anatomy(CommandCase):
    def pixels(self, name):
        with Image.open(name) as image:
            return np.asarray(image)

    def test_axes(self):
        """The axes and their letters are those that nibabel finds, each axis once."""
        luck = np.random.default_rng(2)
        random = [np.vstack([np.hstack([luck.normal(size=(3, 3)), np.zeros((3, 1))]), [0, 0, 0, 1]]) for _ in range(200)]
        for affine in [*affines(), *random]:
            found = axes_of(affine[:3])
            self.assertEqual({axis for axis, _ in found}, {0, 1, 2})
            self.assertEqual(tuple(ENDS[axis][same] for axis, same in found), nibabel.aff2axcodes(affine))
        self.assertEqual([pane.name for pane in panes_of(affine[:3])], ["axial", "coronal", "sagittal"])

    def test_spaces(self):
        """An affine is of a body, unless the codes of NIfTI or the space of NRRD say that it isn't."""
        rows = {"affine_x": "2,0,0,5", "affine_y": "0,-1,0,0", "affine_z": "0,0,0.5,0"}
        for more, known in (
            ({}, True), ({"image_nifti": "0,0,2"}, False), ({"image_nifti": "0,1,2"}, True), ({"image_nifti": "2,0,2"}, True),
            ({"image_space": "left-posterior-superior"}, True), ({"image_space": "scanner-xyz"}, False),
        ):  # fmt: skip
            for pairs in (rows, {}):
                found = anatomy_of(scenefile.Grid("bool", metadata={**pairs, **more}))
                self.assertEqual(found is not None, known and bool(pairs or more), (pairs, more))
        self.assertEqual(panes_of(None)[0].edges, "")
        for sform, qform in ((0, 0), (0, 1), (1, 0), (2, 0), (2, 2)):
            image = nibabel.Nifti1Image(np.ones((3, 4, 5), np.uint8), np.eye(4))
            image.set_sform(np.eye(4), sform)
            image.set_qform(np.eye(4), qform)
            nibabel.save(image, "a.nii")
            self.run_it("slice", "a.nii", "--axis", "axial", "--at", 2, "out.png", status=not (sform or qform))
            self.run_it("convert", "a.nii", f"a{sform}{qform}.vdbs")
            self.run_it("slice", f"a{sform}{qform}.vdbs", "--axis", "axial", "--at", 2, "out.png", status=not (sform or qform))
            self.run_it("convert", f"a{sform}{qform}.vdbs", "b.nii")
            self.assertEqual([int(nibabel.load("b.nii").header[f"{form}_code"]) for form in ("sform", "qform")], [sform, qform])
        for space, status in (("right-anterior-superior", 0), ("RAS", 0), ("left-posterior-superior", 0), ("scanner-xyz", 1)):
            directions = "(-1,0,0) (0,-1,0) (0,0,1)" if space[0] == "l" else "(1,0,0) (0,1,0) (0,0,1)"
            head = f"NRRD0004\ntype: uint8\ndimension: 3\nsizes: 3 4 5\nencoding: raw\nspace: {space}\nspace directions: {directions}\n\n"
            (self.folder / "a.nrrd").write_bytes(head.encode() + bytes([1]) * 60)
            self.run_it("slice", "a.nrrd", "--axis", "axial", "--at", 2, "out.png", status=status)
        np.save("a.npy", np.ones((3, 4, 5), np.uint8))
        self.run_it("slice", "a.npy", "--axis", "axial", "--at", 2, "out.png", status=1)

    def test_slices(self):
        """A slice is the plane of the image in the order that nibabel gives it, left to the right and up to the top, with its proportions."""
        for affine in [*affines()][::5]:
            image = head(affine)
            nibabel.save(image, "head.nii.gz")
            wanted = nibabel.as_closest_canonical(image)
            values, lengths = np.asarray(wanted.dataobj), wanted.header.get_zooms()
            for name, world, across, up in (("axial", 2, 0, 1), ("coronal", 1, 0, 2), ("sagittal", 0, 1, 2)):
                axis = int(np.flatnonzero(nibabel.io_orientation(affine)[:, 0] == world)[0])
                forward = nibabel.io_orientation(affine)[axis, 1] > 0
                for place in (0, values.shape[world] // 2):
                    at = place if forward else values.shape[world] - 1 - place
                    words = ("--bounds", 0, 0, 0, *(side - 1 for side in image.shape), "--scale", 2)
                    self.run_it("slice", "head.nii.gz", "--axis", name, "--at", at, *words, "out.png")
                    plane = np.flip(values.take(place, world).T)
                    sides = [2 * lengths[it] / min(lengths[across], lengths[up]) for it in (up, across)]
                    pixels = self.pixels("out.png")
                    self.assertEqual(pixels.shape[:2], tuple(round(count * side) for count, side in zip(plane.shape, sides)))
                    middle = np.ix_(*(((np.arange(count) + 0.5) * side).astype(int) for count, side in zip(plane.shape, sides)))
                    expected = np.where(plane[..., None] == 0, np.uint8(INACTIVE), colours_of(plane))
                    np.testing.assert_array_equal(pixels[middle], expected)

    def test_images(self):
        """An image is drawn as the scene file of it, with and without a name, wherever the options stand."""
        affine = next(affines())
        nibabel.save(head(affine), "head.nii")
        self.run_it("convert", "head.nii", "head.vdbs")
        self.run_it("convert", "head.vdbs", "head.nrrd")
        words = ("--axis", "coronal", "--at", "4")
        self.run_it("slice", "head.vdbs", *words, "wanted.png")
        columns = (np.diag([-1, -1, 1, 1]) @ affine)[:3].T
        vectors = ["(" + ",".join(map(repr, column)) + ")" for column in columns.tolist()]
        text = f"NRRD0004\ntype: uchar\ndimension: 3\nspace: left-posterior-superior\nsizes: 12 10 6\nspace directions: {' '.join(vectors[:3])}\n"
        values = np.asarray(head(affine).dataobj)
        (self.folder / "lps.nrrd").write_bytes(f"{text}space origin: {vectors[3]}\nencoding: raw\n\n".encode() + values.tobytes(order="F"))
        for given in (
            ("head.vdbs", "head", *words), ("head.nii", *words), (*words, "head.nii", "any"), ("head.nrrd", "any", *words), ("lps.nrrd", *words)
        ):  # fmt: skip
            self.run_it("slice", *given, "out.png")
            np.testing.assert_array_equal(self.pixels("out.png"), self.pixels("wanted.png"), str(given))
        self.fails("slice", "none.nii", *words, "out.png", told="none.nii: No such file")
        data = (self.folder / "head.nii").read_bytes()
        self.fails("view", "head.vdbs", "head.nii", told="head.nii: the ending is that of a scene file, a table of names or an image, which isn't overwritten")
        self.assertEqual((self.folder / "head.nii").read_bytes(), data)
        self.run_it("slice", "head.nii", *words, status=2)
        np.save("head.npy", np.ones((2, 2, 2), np.uint8))
        self.fails("slice", "head.npy", *words, "out.png", told="head.npy: its affine says nothing of anatomy, so --axis is x, y or z")
        self.run_it("slice", "head.npy", "--axis", "z", "--at", "0", "out.png")
        self.run_it("slice", "head.npy", "more", "out.png", "most", "--axis", "z", "--at", "0", status=2)

    def test_without_pillow(self):
        """Without Pillow a picture is an error that names its package, and the file stays. A page needs none."""
        nibabel.save(head(np.eye(4)), "head.nii")
        (self.folder / "out.png").write_text("old")
        with mock.patch.dict(sys.modules, {"PIL": None, "PIL.Image": None}):
            self.fails("slice", "head.nii", "--axis", "z", "--at", "3", "out.png", told="the package PIL.Image is missing: Debian has it as python3-pil")
            self.run_it("view", "head.nii", "out.html")
        self.assertEqual((self.folder / "out.png").read_text(), "old")

    def test_proportions(self):
        """Voxels of 1 x 2.5 x 0.4 have these proportions, and a montage too."""
        nibabel.save(nibabel.Nifti1Image(np.ones((4, 6, 10), np.uint8), np.diag([1, 2.5, 0.4, 1])), "a.nii")
        for axis, size in (("z", (4, 15)), ("y", (10, 10)), ("x", (37.5, 10))):
            self.run_it("slice", "a.nii", "--axis", axis, "--at", "0", "--scale", "4", "out.png")
            self.assertEqual(self.pixels("out.png").shape[1::-1], tuple(round(4 * side) for side in size), axis)
        self.run_it("slice", "a.nii", "--axis", "axial", "--montage", "2", "--scale", "4", "out.png")
        count = (self.pixels("out.png") == colours_of(np.array([1]))).all(axis=2).sum()
        self.assertEqual(count, 2 * 16 * 60 + 14**2)

    def test_beneath(self):
        """Gray of floats lies beneath labels, at the voxels of the same place, by a window."""
        affine = list(affines())[11]
        image = head(affine)
        nibabel.save(image, "head.nii.gz")
        gray = np.random.default_rng(1).normal(100, 30, image.shape).astype(np.float32)
        nibabel.save(nibabel.Nifti1Image(gray, affine), "gray.nii")
        words = ("slice", "head.nii.gz", "--axis", "z", "--at", 2, "--scale", 1, "--beneath")
        self.run_it(*words, "gray.nii", "--window", 40, 160, "out.png")
        values, shade = np.asarray(image.dataobj)[:, :, 2].T, np.round(np.clip((gray[:, :, 2].T - 40) / 120, 0, 1) * 255)[..., None]
        colours = np.where(values[..., None] > 0, 0.6 * colours_of(values) + 0.4 * shade, shade)
        lengths = nibabel.affines.voxel_sizes(affine)
        pixels = self.pixels("out.png")
        middle = [((np.arange(count) + 0.5) * max(1, lengths[it] / lengths[1 - it])).astype(int) for it, count in ((1, 10), (0, 12))]
        np.testing.assert_allclose(pixels[np.ix_(*middle)], colours, atol=1)
        self.run_it(*words, "gray.nii", "--window", "nan", "inf", "out.png", status=2)
        self.run_it(*words, "gray.nii", "out.png")
        ends = np.quantile(gray, [0.002, 0.998])
        shade = np.clip((gray[:, :, 2].T - ends[0]) / (ends[1] - ends[0]), 0, 1) * 255
        np.testing.assert_allclose(self.pixels("out.png")[np.ix_(*middle)][values == 0], shade[values == 0][:, None].repeat(3, 1), atol=1)

    def test_other_places(self):
        """A gray image that lies elsewhere is an error that says what differs. A part of it in the same voxels is none."""
        affine, moved = np.diag([2.0, 3, 4, 1]), np.eye(4)
        image = head(affine)
        nibabel.save(image, "head.nii")
        words = ("slice", "head.nii", "--axis", "z", "--at", 3, "--scale", 1, "out.png", "--beneath", "gray.nii")
        gray = np.arange(12 * 10 * 6, dtype=np.int16).reshape(12, 10, 6)
        turned = np.array(nibabel.eulerangles.euler2mat(z=0.1))
        for change, told in (
            ((2, 3, 4.1), "gray.nii: its voxels have the lengths 2, 3, 4.1, and of the grid 2, 3, 4"),
            (turned, "gray.nii: its axes have the directions 0.995"), ((0, 0, 1), "gray.nii: its first voxel lies at 0, 0, 1, and of the grid 0, 0, 0"),
        ):  # fmt: skip
            moved[...] = affine
            if np.ndim(change) == 2:
                moved[:3, :3] = change @ affine[:3, :3]
            elif 0 in change:
                moved[:3, 3] = change
            else:
                moved[:3, :3] = np.diag(change)
            nibabel.save(nibabel.Nifti1Image(gray, moved), "gray.nii")
            self.fails(*words, told=told)
        np.save("gray.npy", gray)
        np.save("head.npy", np.asarray(image.dataobj)[1:])
        self.fails(*words[:-1], "gray.npy", told="gray.npy: its voxels have the lengths 1, 1, 1, and of the grid 2, 3, 4")
        self.fails("slice", "head.npy", *words[2:-1], "gray.npy", told="gray.npy: its shape is (12, 10, 6), and of the grid's image (11, 10, 6)")
        moved[...] = affine
        moved[:3, 3] = affine[:3, :3] @ (2, 1, 1)
        bounds = ("--window", 0, 255, "--bounds", 0, 0, 3, 11, 9, 3)
        nibabel.save(nibabel.Nifti1Image(gray[2:6, 1:4, 1:], moved), "gray.nii")
        self.run_it(*words, *bounds)
        inside = np.zeros((10, 12), bool)
        inside[1:4, 2:6] = True
        plane = np.asarray(image.dataobj)[:, :, 3].T
        wanted = np.where(inside, gray[:, :, 3].T.clip(0, 255), 0)[plane == 0]
        rows = ((np.arange(10) + 0.5) * 1.5).astype(int)
        np.testing.assert_array_equal(self.pixels("out.png")[rows][plane == 0], wanted[:, None].repeat(3, 1))


if __name__ == "__main__":
    unittest.main()
