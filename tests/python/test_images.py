# SPDX-License-Identifier: Apache-2.0
"""Images: what a file says of them stays with grids, and grids of different images don't combine."""
import operator
import pickle
import subprocess
import sys
import unittest

from .support import TOP, library_missing, np, scenefile, vdb

from vdb.images import Image

AFFINE = np.array([[-0.5, 0, 0, 10.25], [0, 0.25, 0.125, -3], [0, -0.75, 2.5, 7]])
PAIRS = {
    "affine_x": "-0.5,0,0,10.25", "affine_y": "0,0.25,0.125,-3", "affine_z": "0,-0.75,2.5,7", "image_array": "uint8,5,4,3",
    "image_low": "-9,3,40", "image_units": "mm",
}  # fmt: skip
OWN = {"patient": "17"}


def image(**changes):
    """The image of PAIRS, with changes."""
    return Image(**{"low": (-9, 3, 40), "shape": (5, 4, 3), "dtype": np.dtype("u1"), "affine": AFFINE, "notes": {"image_units": "mm"}, **changes})


class Pairs(unittest.TestCase):
    def test_one_import(self):
        code = "import vdb; assert vdb.formats.FORMATS and vdb.images.Image"
        subprocess.run([sys.executable, "-c", code], cwd=TOP / "python", check=True, timeout=60)

    def test_an_image_and_its_pairs(self):
        found = Image.of({**PAIRS, **OWN})
        self.assertEqual((found.low, found.shape, found.dtype, dict(found.notes)), ((-9, 3, 40), (5, 4, 3), np.uint8, {"image_units": "mm"}))
        np.testing.assert_array_equal(found.affine, AFFINE)
        np.testing.assert_array_equal(found.index_affine[:, 3], [14.75, 2.75, 104.75])  # -0.5 * -9 + 10.25, and so on
        self.assertEqual(found.bounds, ((-9, 3, 40), (-5, 6, 42)))
        self.assertEqual((found.pairs(), image().pairs()), (PAIRS, PAIRS))
        plain = Image((0, 0, 0), (2, 0, 3), np.dtype(np.float32), np.eye(3, 4))
        self.assertEqual((plain.pairs(), plain.bounds), ({"image_array": "float32,2,0,3"}, None))
        self.assertIsNone(Image.of(OWN))

    def test_pairs_of_another_form(self):
        for changed in ({"image_array": "uint8,5,4"}, {"image_array": "uint9,5,4,3"}, {"image_array": "uint8,5,-4,3"}, {"image_low": "1,2,x"}):
            with self.subTest(changed), self.assertRaisesRegex(vdb.VolumeError, "the pairs image_array and image_low"):
                Image.of({**PAIRS, **changed})
        with self.assertRaisesRegex(vdb.VolumeError, "no inverse"):
            image(affine=np.zeros((3, 4))).pairs()

    def test_room_for_pairs(self):
        grid = scenefile.Grid("i32", metadata={**{f"own_{number}": "x" for number in range(11)}, "image_low": "1,2,3"})
        before = dict(grid.metadata)
        with self.assertRaises(vdb.LimitError):
            image().keep(grid.metadata)
        self.assertEqual(dict(grid.metadata), before)
        del grid.metadata["own_3"]
        image().keep(grid.metadata)
        self.assertEqual({key: text for key, text in grid.metadata.items() if "own" not in key}, PAIRS)


@unittest.skipIf(library_missing(), library_missing())
class Kept(unittest.TestCase):
    def made(self, pairs=PAIRS, kind="i32"):
        grid = vdb.Grid(kind, metadata={**pairs, **OWN} if pairs else OWN)
        grid[-9:-4, 3:7, 40:43] = kind == "bool" or 1
        return grid

    def test_every_call_that_makes_a_grid_of_another_one(self):
        grid, mask = self.made(), vdb.Grid("bool")
        mask[-9, 3, 40] = True
        for name, made in (
            ("copy", grid.copy()), ("relabel", grid.relabel({1: 2})), ("where", grid.where(mask)), ("|", grid | mask), ("&", grid & mask),
            ("-", grid - mask), ("view", vdb.View(grid).copy()), ("file", vdb.loads(vdb.Scene({"a": grid}).to_bytes())["a"]),
        ):  # fmt: skip
            with self.subTest(name):
                self.assertEqual(dict(made.metadata), {**PAIRS, **OWN})
        for value in (1, 2):  # all of the grid, and nothing
            self.assertEqual(dict(grid.select(value).metadata), {**PAIRS, "image_array": "bool,5,4,3"})
        for call in (lambda: grid.dilate(1), lambda: grid.erode(1), lambda: grid.dilate_label(1, 1), lambda: grid.clip(grid.bounds)):
            call()
            self.assertEqual(dict(grid.metadata), {**PAIRS, **OWN})

    def test_the_image_of_the_other_grid(self):
        mask = self.made(None, "bool")
        self.assertEqual(dict((mask | self.made()).metadata), {**PAIRS, **OWN, "image_array": "bool,5,4,3"})
        for name, own in (("int32", "uint8"), ("int32", "int64"), ("int32", "float32"), ("int32", "bool")):
            labels, other = self.made(None), self.made({**PAIRS, "image_array": f"{own},5,4,3"})
            labels.replace(other)
            self.assertEqual(labels.metadata["image_array"], f"{own if own == 'uint8' else name},5,4,3")
        placed = self.made({key: text for key, text in PAIRS.items() if "affine" in key})
        self.assertEqual(dict((placed | self.made()).metadata), {**PAIRS, **OWN})
        self.assertEqual(dict((self.made(None) & self.made(None)).metadata), OWN)

    def test_different_images(self):
        calls = [getattr(vdb.Grid, name) for name in ("unite", "subtract", "intersect", "maximum", "minimum", "sum", "replace", "where")]
        for changed, told in (
            ({"image_array": "uint8,5,4,4"}, r"the shape \(5, 4, 3\) and \(5, 4, 4\):"), ({"image_low": "0,0,0"}, r"the first voxel \(-9, 3, 40\) and"),
            ({"affine_x": "0.5,0,0,10.25"}, r"the affine \[\[-0\.5, 0"), ({"image_units": "um"}, "the units mm and um:"),
            ({"affine_z": "0,-0.75,2.5,7.001"}, "the affine"),
        ):  # fmt: skip
            other = self.made({**PAIRS, **changed})
            for call in (*calls, operator.or_, operator.and_, operator.sub, operator.ior, operator.iand, operator.isub):
                grid = self.made()
                with self.subTest(changed, call=call), self.assertRaisesRegex(vdb.GeometryError, told):
                    call(grid, other)
                self.assertEqual((grid, dict(grid.metadata)), (self.made(), {**PAIRS, **OWN}))
            for call in calls:
                grid = self.made()
                made = call(grid, other, ignore_geometry=True) or grid
                self.assertEqual(dict(made.metadata), {**PAIRS, **OWN})

    def test_an_image_without_rows_has_the_identity(self):
        plain = Image((0, 0, 0), (5, 4, 3), np.dtype("u1"), np.eye(3, 4)).pairs()
        grid, far = self.made(plain), {"affine_x": "1,0,0,5", "affine_y": "0,1,0,0", "affine_z": "0,0,1,0"}
        self.assertEqual(plain, {"image_array": "uint8,5,4,3"})
        for other in ({**plain, **far}, image(low=(0, 0, 0), affine=np.diag([2, 2, 3]) @ np.eye(3, 4)).pairs(), far):
            for pair in ((grid, self.made(other)), (self.made(other), grid), (grid == 1, self.made(other)), (grid, self.made(other) == 1)):
                with self.subTest(other, pair=pair), self.assertRaisesRegex(vdb.GeometryError, "the affine"):
                    operator.or_(*pair)
        near = {**far, "affine_x": "1,0,0,1e-9"}
        for other, made in ((plain, plain), ({**plain, **near}, plain), (near, plain), ({}, plain)):
            self.assertEqual(dict((grid | self.made(other)).metadata), {**made, **OWN})
        self.assertEqual(dict((self.made({}) | grid).metadata), {**plain, "image_array": "uint8,5,4,3", **OWN})

    def test_a_view_is_not_pickled(self):
        with self.assertRaisesRegex(vdb.DtypeError, r"pickle view\.copy\(\)"):
            pickle.dumps(vdb.View(self.made()))
        found = pickle.loads(pickle.dumps(vdb.View(self.made()).copy()))
        self.assertEqual((found, dict(found.metadata)), (self.made(), {**PAIRS, **OWN}))

    def test_headers_of_32_bits_differ_by_rounding(self):
        turned = np.array([[0.8, -0.6, 0, 1e3 / 3], [0.6, 0.8, 0, -77.7], [0, 0, 2.5, 1e3 / 7]])
        one, other = (image(affine=affine).pairs() for affine in (turned, turned.astype(np.float32).astype(np.float64)))
        self.assertNotEqual(one, other)
        self.assertEqual(dict((self.made(one) | self.made(other)).metadata), {**one, **OWN})
        for by in (0.01, -0.01):
            with self.assertRaises(vdb.GeometryError):
                self.made(one) | self.made(image(affine=turned + [[0, 0, 0, by], [0] * 4, [0] * 4]).pairs())


if __name__ == "__main__":
    unittest.main()
