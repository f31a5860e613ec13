# SPDX-License-Identifier: Apache-2.0
"""Names of labels: tables of BIDS, segments of 3D Slicer, label files of ITK-SNAP, and where the commands show them."""
import doctest
import json
import pickle
import unittest
import warnings

from .support import CommandCase, library_missing, np, scenefile, vdb

from vdb import formats, images, label_names

# By BIDS 1.8, "Common image-derived labels"; the columns may have any order.
BIDS = "name\tindex\tabbreviation\tcolor\nGray  Matter\t1\tGM\t#ff53bb\nWhite Matter\t2\tWM\tn/a\nNiere rechts \u00fc\t-3\tNi\t2f8bd0\n"
# The pairs for them, by hand, in the order of values: the text is cut at 64 characters.
PAIRS = {"label_names_1": "-3:Niere+rechts+%C3%BC:2f8bd0;1:Gray++Matter:ff53bb;2:White+Matt", "label_names_2": "er"}
WANTED = {1: ("Gray  Matter", (255, 83, 187)), 2: ("White Matter", None), -3: ("Niere rechts \u00fc", (47, 139, 208))}
# The label file that ITK-SNAP writes, shortened.
SNAP = """\
################################################
# ITK-SnAP Label Description File
# IDX   -R-  -G-  -B-  -A--  VIS MSH  LABEL
################################################
    0     0    0    0        0  0  0    "Clear Label"
    1   255    0    0        1  1  1    "Left "inner" ear"
   12    18   52   86      0.5  1  0    "Cochlea"
"""
# Two segments of a header that 3D Slicer writes.
SEGMENTS = (
    b"NRRD0004\ntype: unsigned char\ndimension: 3\nsizes: 2 1 1\nencoding: raw\nSegment0_ID:=Segment_1\nSegment0_Color:=0.5 0.682353 1\n"
    b"Segment0_LabelValue:=7\nSegment0_Layer:=0\nSegment0_Name:=left kidney\nSegment1_LabelValue:=9\nSegment1_Name:=liver: a part\n\n\x07\x09"
)


class Examples(CommandCase):
    def test_docstrings(self):
        for module in (images, label_names):
            found = doctest.testmod(module)
            self.assertEqual((found.failed, found.attempted > 2), (0, True), module)


class Tables(CommandCase):
    def read(self, name, text):
        (self.folder / name).write_bytes(text if isinstance(text, bytes) else text.encode())
        return label_names.read(name)

    def test_tables(self):
        self.assertEqual(self.read("a.tsv", BIDS), WANTED)
        self.assertEqual(self.read("a.tsv", "\ufeffindex\tname\r\n5\tEar\r\n"), {5: ("Ear", None)})
        self.assertEqual(self.read("a.txt", SNAP), {0: ("Clear Label", (0, 0, 0)), 1: ('Left "inner" ear', (255, 0, 0)), 12: ("Cochlea", (18, 52, 86))})
        self.assertEqual(self.read("a.seg.nrrd", SEGMENTS), {7: ("left kidney", (128, 174, 255)), 9: ("liver: a part", None)})

    def test_what_is_written_is_read(self):
        label_names.write("b.tsv", self.read("a.tsv", BIDS))
        text = (self.folder / "b.tsv").read_text(encoding="utf-8")
        self.assertEqual(text, "index\tname\tcolor\n-3\tNiere rechts \u00fc\t#2f8bd0\n1\tGray Matter\t#ff53bb\n2\tWhite Matter\tn/a\n")

    def test_faults(self):
        for name, text, told in (
            ("a.tsv", "index\tname\n1.5\tEar\n", "a.tsv: line 2: the index '1.5'"), ("a.tsv", "index\tname\tcolor\n1\tEar\tred\n", "line 2: the color 'red'"),
            ("a.tsv", "onset\tduration\n1\t2\n", "no columns index and name"), ("a.txt", SNAP + "x", "a.txt: line 8: no label"),
            ("a.txt", "1 256 0 0 1 1 1 \"x\"", "line 1: no label"), ("a.tsv", b"\xff\xfe", "a.tsv: "), ("a.nrrd", b"NRRD", "a.nrrd: no NRRD file"),
        ):  # fmt: skip
            with self.subTest(told), self.assertRaisesRegex(vdb.VolumeError, told):
                self.read(name, text)
        with self.assertRaises(vdb.MissingFileError):
            label_names.read("none.tsv")

    def test_the_table_beside_a_file(self):
        self.assertEqual(label_names.table_of("x/sub-01_dseg.nii.gz"), "x/sub-01_dseg.tsv")
        self.assertEqual(label_names.table_of("a.b.vdbs", "organs"), "a.b.organs.tsv")
        self.assertEqual(label_names.of("a.vdbs", "organs"), {})
        self.read("a.tsv", BIDS)
        self.assertEqual((label_names.of("a.vdbs", "organs"), label_names.of("a.nii.gz")), (WANTED, WANTED))
        self.read("a.organs.tsv", "index\tname\n5\tEar\n")
        self.assertEqual((label_names.of("a.vdbs", "organs"), label_names.of("a.vdbs", "other")), ({5: ("Ear", None)}, WANTED))
        self.read("a.seg.nrrd", SEGMENTS)
        self.assertEqual([*label_names.of("a.seg.nrrd")], [7, 9])
        (self.folder / "b.tsv").write_text("onset\tduration\n1\t2\n")
        self.assertEqual(label_names.of("b.nii"), {})
        (self.folder / "b.tsv").write_text("index\tname\nx\t2\n")
        with self.assertRaisesRegex(vdb.VolumeError, "b.tsv: line 2"):
            label_names.of("b.nii")


class Converted(CommandCase):
    def test_names_go_with_the_labels(self):
        np.save("in.npy", np.full((2, 2, 2), 2, np.uint8))
        (self.folder / "in.tsv").write_text(BIDS, encoding="utf-8")
        (self.folder / "own.txt").write_text(SNAP)
        self.run_it("convert", "in.npy", "a.vdbs", "--grid", "one")
        self.run_it("convert", "in.npy", "a.vdbs", "--grid", "two", "--names", "own.txt")
        self.assertEqual([*label_names.of("a.vdbs", "one")], [-3, 1, 2])
        self.assertEqual(label_names.of("a.vdbs", "two")[12], ("Cochlea", (18, 52, 86)))
        self.run_it("convert", "a.vdbs", "out.vti", "--grid", "one")
        self.assertEqual((self.folder / "out.tsv").read_bytes(), (self.folder / "a.one.tsv").read_bytes())
        self.run_it("convert", "in.npy", "b.vdbs", "--grid", "three")
        self.run_it("merge", "a.vdbs", "b.vdbs", "both.vdbs")
        self.assertEqual([len(label_names.of("both.vdbs", name)) for name in ("one", "two", "three")], [3, 3, 3])

    def test_another_table_stays(self):
        np.save("in.npy", np.full((2, 2, 2), 2, np.uint8))
        (self.folder / "in.tsv").write_text(BIDS, encoding="utf-8")
        self.run_it("convert", "in.npy", "a.vdbs", "--grid", "one")
        (self.folder / "out.tsv").write_text("onset\tduration\n1\t2\n")
        status, _, errors = self.called("convert", "a.vdbs", "out.npy")
        self.assertEqual((status, (self.folder / "out.tsv").read_text()), (0, "onset\tduration\n1\t2\n"))
        self.assertIn("vdb-scene: warning: out.tsv: the table has no columns index and name, with tabs between them: the names", errors)
        self.fails("convert", "in.npy", "a.vdbs", "--grid", "one", "--names", "none.tsv", told="none.tsv: No such file")


class Kept(CommandCase):
    """Names in metadata pairs go with a grid."""

    def setUp(self):
        super().setUp()
        np.save("in.npy", np.full((2, 2, 2), 2, np.uint8))
        (self.folder / "in.tsv").write_text(BIDS, encoding="utf-8")
        self.packages = [scenefile, *([] if library_missing() else [vdb])]

    def test_scene_files(self):
        for package in self.packages:
            grid = formats.load("in.npy", package.Grid)
            self.assertEqual((grid.names, dict(grid.metadata)), (WANTED, {**PAIRS, "image_array": "uint8,2,2,2"}))
            package.Scene({"organs": grid}).save("a.vdbs")
            for made in (package.load("a.vdbs")["organs"], grid.copy(), pickle.loads(pickle.dumps(grid))):
                self.assertEqual((made.names, made), (WANTED, grid))
            for made in (grid == 2, package.Mask(grid)):
                self.assertEqual(dict(made.metadata), {"image_array": "bool,2,2,2"})
            lesion = package.Mask(grid)
            lesion.names = {1: label_names.Label("lesion")}
            self.assertEqual(package.Mask(lesion).names, {1: ("lesion", None)})
            self.assertEqual(self.run_it("labels", "a.vdbs", "organs"), "2 8 0 0 0 1 1 1 White Matter\n")
            (self.folder / "a.tsv").write_text("index\tname\n2\tEar\n")
            self.assertEqual(self.run_it("labels", "a.vdbs", "organs"), "2 8 0 0 0 1 1 1 Ear\n")
            (self.folder / "a.tsv").unlink()
            self.run_it("mesh", "a.vdbs", "organs", "a.ply")
            self.assertIn(b"comment label 2 White Matter\n", (self.folder / "a.ply").read_bytes())
            self.run_it("convert", "a.vdbs", "out.npy")
            self.assertEqual(label_names.of("out.npy")[2], ("White Matter", None))

    def test_room(self):
        """Six pairs of 64 characters are the most, fewer if the grid has more than ten others. Nothing changes where they don't suffice."""
        for own, most in ((0, 384), (10, 384), (11, 320), (16, 0)):
            pairs = {f"own_{number}": "x" for number in range(own)}
            grid = scenefile.Grid("i32", metadata=pairs)
            if most:
                grid.names = names = {5: label_names.Label("x" * (most - 2))}
                self.assertEqual((grid.names, len(grid.metadata)), (names, own + most // 64))
            before = dict(grid.metadata)
            with self.assertRaisesRegex(vdb.LimitError, rf"labels have {most + 3} characters, and metadata pairs room for {most}: vdb.label_names.keep"):
                grid.names = {5: label_names.Label("x" * (most + 1))}
            self.assertEqual(dict(grid.metadata), before)
            grid.names = {}
            self.assertEqual(dict(grid.metadata), pairs)
        grid = scenefile.Grid("i32", metadata={"label_names_1": "5:Ear;red"})
        with self.assertRaisesRegex(vdb.VolumeError, "label_names_1 and so on aren't of the form"):
            grid.names

    def test_images(self):
        """Names go from an image to a grid, and to the table beside another image, which stays if it is there."""
        (self.folder / "in.seg.nrrd").write_bytes(SEGMENTS)
        grid = formats.load("in.seg.nrrd", scenefile.Grid)
        formats.save("out.vti", grid)
        self.assertEqual((grid.names, label_names.of("out.vti")), ({7: ("left kidney", (128, 174, 255)), 9: ("liver: a part", None)},) * 2)
        (self.folder / "other.tsv").write_text("index\tname\n2\tEar\n")
        formats.save("other.nrrd", grid)
        self.assertEqual((self.folder / "other.tsv").read_text(), "index\tname\n2\tEar\n")
        many = "".join(f"{at}\t{at:0>40}\n" for at in range(99))
        for table, told in ((many, "the names of 99 labels have 4,345"), ("x\tEar\n", "in.tsv: line 2: the index 'x'")):
            (self.folder / "in.tsv").write_text(f"index\tname\n{table}")
            with self.assertWarnsRegex(vdb.VdbWarning, f"in.npy is read without the names of labels: {told}"):
                self.assertEqual(formats.load("in.npy", scenefile.Grid).names, {})
        with warnings.catch_warnings():
            warnings.simplefilter("error")
            (self.folder / "in.tsv").write_text("onset\tduration\n1\t2\n")
            self.assertEqual(formats.load("in.npy", scenefile.Grid).names, {})


class Shown(CommandCase):
    def setUp(self):
        super().setUp()
        values = np.zeros((4, 4, 4), np.int32)
        values[0, 0, 0], values[2:, 1, 3] = -3, 2
        grid = scenefile.Grid.from_array(values)
        scenefile.Scene({"organs": grid}).save("a.vdbs")
        (self.folder / "a.organs.tsv").write_text(BIDS, encoding="utf-8")
        self.grid = grid

    def test_labels(self):
        rows = [*self.grid.labels().rows(label_names.of("a.vdbs", "organs"))]
        self.assertEqual(rows, [(-3, "Niere rechts \u00fc", 1, (0, 0, 0), (0, 0, 0)), (2, "White Matter", 2, (2, 1, 3), (3, 1, 3))])
        self.assertEqual([row.name for row in self.grid.labels().rows()], ["", ""])
        self.assertEqual(self.run_it("labels", "a.vdbs", "organs"), "-3 1 0 0 0 0 0 0 Niere rechts \u00fc\n2 2 2 1 3 3 1 3 White Matter\n")

    def test_meshes(self):
        for ending in ("ply", "obj", "glb"):
            self.run_it("mesh", "a.vdbs", "organs", f"a.{ending}")
        head, faces = (self.folder / "a.ply").read_bytes().split(b"end_header\n")
        self.assertIn(b"comment label -3 Niere rechts \\xfc\ncomment label 2 White Matter\n", head)
        self.assertEqual(faces.count(bytes([47, 139, 208])), 8)  # the corners of one voxel
        groups = [line for line in (self.folder / "a.obj").read_text(encoding="utf-8").splitlines() if line.startswith("g ")]
        self.assertEqual(groups, ["g label_-3_Niere_rechts_\u00fc", "g label_2_White_Matter"])
        data = (self.folder / "a.glb").read_bytes()
        document = json.loads(data[20 : 20 + int.from_bytes(data[12:16], "little")])
        self.assertEqual([mesh["name"] for mesh in document["meshes"]], ["organs -3 Niere rechts \u00fc", "organs 2 White Matter"])


if __name__ == "__main__":
    unittest.main()
