# SPDX-License-Identifier: Apache-2.0
"""The command line, as a user calls it."""
import contextlib
import io
import json
import os
import subprocess
import sys
import unittest
from unittest import mock

from PIL import Image

from .support import TOP, CommandCase, np, scenefile, vdb

from vdb import formats
from vdb.command import COMMANDS, STATUSES, main
from vdb.label_names import Label
from vdb.scenefile import picture



class CommandLine(CommandCase):
    def setUp(self):
        super().setUp()
        self.values = np.zeros((10, 9, 8), np.int32)
        self.values[2:5, 2:4, 1:7] = 3
        self.values[7, 7, 7] = -2
        np.save(self.folder / "in.npy", self.values)

    def made(self, *more):
        self.run_it("convert", "in.npy", "a.vdbs", "--grid", "lab", "--origin", "-5", "0", "4090", *more)

    def test_there_and_back(self):
        self.made()
        grid = scenefile.load(self.folder / "a.vdbs")["lab"]
        self.assertEqual(grid.bounds, ((-3, 2, 4091), (2, 7, 4097)))
        self.assertEqual(self.run_it("labels", "a.vdbs", "lab"), "-2 1 2 7 4097 2 7 4097\n3 36 -3 2 4091 -1 3 4096\n")
        self.run_it("convert", "a.vdbs", "out.npy", "--grid", "lab", "--active", "on.npy", "--bounds", "-5", "0", "4090", "4", "8", "4097")
        np.testing.assert_array_equal(np.load(self.folder / "out.npy"), self.values)
        np.testing.assert_array_equal(np.load(self.folder / "on.npy"), self.values != 0)
        self.run_it("convert", "a.vdbs", "out.npy", "--grid", "lab", "--fill", "8")
        np.testing.assert_array_equal(np.load(self.folder / "out.npy"), np.where(self.values == 0, 8, self.values))

    def test_images(self):
        """Labels and faces of an image are those of a scene's grid of the same voxels, whose name may be left out."""
        self.assertEqual(self.run_it("labels", "in.npy"), "-2 1 7 7 7 7 7 7\n3 36 2 2 1 4 3 6\n")
        self.run_it("convert", "in.npy", "in.vdbs", "--grid", "in")
        self.assertEqual(self.run_it("labels", "in.vdbs"), self.run_it("labels", "in.npy"))
        for words in (("in.npy",), ("in.vdbs", "in"), ("in.vdbs",)):
            self.run_it("mesh", *words, f"{len(words)}{words[0]}.obj")
        self.assertEqual(*((self.folder / name).read_text() for name in ("1in.npy.obj", "2in.vdbs.obj")))
        self.assertEqual((self.folder / "1in.vdbs.obj").read_text().count("\nf "), 2 * (72 + 6))

    def test_measures(self):
        """A box of 3 x 2 x 6 voxels and one voxel, then two labels that touch, in voxels of 0.5 x 1 x 2."""
        self.made()
        lines = ["-2 1 1 6 2 7 4097 1 1 1 2 7 4097 2 7 4097 -", "3 36 36 72 -2 2.5 4093.5 3 2 6 -3 2 4091 -1 3 4096 -"]
        self.assertEqual(self.run_it("labels", "a.vdbs", "lab", "--measure").splitlines(), lines)
        affine = {"affine_x": "0.5,0,0,0", "affine_y": "0,0,2,0", "affine_z": "0,1,0,0"}
        scenefile.Scene({"two": scenefile.Grid.from_array(np.array([[[1], [1], [4]]]), metadata=affine)}).save(self.folder / "b.vdbs")
        self.folder.joinpath("b.tsv").write_text("index\tname\n4\tleft ear\n")
        self.assertEqual(self.run_it("labels", "b.vdbs", "two", "--measure").splitlines()[1], "4 1 1 7 0 2 0 0.5 1 2 0 2 0 0 2 0 1:1 left ear")
        told = self.run_it("labels", "b.vdbs", "two", "--measure", "csv").splitlines()
        self.assertEqual(told[0], "value,voxels,volume,area,x,y,z,dx,dy,dz,x0,y0,z0,x1,y1,z1,neighbours,name")
        self.assertEqual(told[2], "4,1,1.0,7.0,0.0,2.0,0.0,0.5,1.0,2.0,0,2,0,0,2,0,1:1,left ear")
        rows = json.loads(self.run_it("labels", "b.vdbs", "two", "--measure", "json"))
        self.assertEqual([(row["value"], row["volume"], row["neighbours"], row["name"]) for row in rows], [(1, 2, {"4": 1}, ""), (4, 1, {"1": 1}, "left ear")])

    def test_info(self):
        self.made("--background", "-1", "--limit", "7")
        told = json.loads(self.run_it("info", "a.vdbs", "--json"))
        grid = scenefile.load(self.folder / "a.vdbs")["lab"]
        self.assertEqual(told["bytes"], (self.folder / "a.vdbs").stat().st_size)
        self.assertEqual(
            told["grids"],
            [
                {
                    "name": "lab", "kind": "i32", "background": -1, "limit": 7,
                    "metadata": {"image_array": f"{self.values.dtype},10,9,8", "image_low": "-5,0,4090"}, "count": 720,
                    "bounds": [[-5, 0, 4090], [4, 8, 4097]], "root_blocks": 4, "leaves": grid.leaf_count,
                    "tiles": {"8": 0, "128": 0, "4096": 0},
                }
            ],
        )
        text = self.run_it("info", "a.vdbs")
        for part in ("1 grid\n", "lab\n", "bounds         -5 0 4090 4 8 4097\n", "active voxels  720\n"):
            self.assertIn(part, text)

    def test_replaced(self):
        """Other grids stay, and so do limit and metadata of the grid that is replaced."""
        self.made("--limit", "7")
        scene = scenefile.load(self.folder / "a.vdbs")
        scene["lab"].metadata["unit"] = "mm"
        scene["other"] = scenefile.Grid("bool", True)
        scene.save(self.folder / "a.vdbs")
        np.save(self.folder / "mask.npy", self.values == 3)
        self.run_it("convert", "mask.npy", "a.vdbs", "--grid", "lab", "--active", "mask.npy")
        scene = scenefile.load(self.folder / "a.vdbs")
        lab = scene["lab"]
        kept = {"image_array": "bool,10,9,8", "unit": "mm"}
        self.assertEqual((list(scene), lab.kind, lab.limit, dict(lab.metadata)), (["lab", "other"], "bool", 7, kept))

    def test_states(self):
        """A grid whose values don't show its states isn't written as if they did."""
        values, active = np.zeros((4, 4, 4), bool), np.zeros((4, 4, 4), bool)
        values[1:3], active[1:4] = True, True
        grids = {"a": scenefile.Grid.from_array(values, active), "b": scenefile.Grid.from_array(values.astype(np.int32), active)}
        scenefile.Scene(grids).save("a.vdbs")
        self.fails("convert", "a.vdbs", "out.npy", "--grid", "a", told="a.vdbs: the values and the states of 16 voxels differ")
        status, _, errors = self.called("convert", "a.vdbs", "out.npy", "--grid", "b")
        self.assertEqual((status, errors.count("vdb-scene: warning: 16 active voxels look like inactive ones")), (0, 1), errors)
        for name in "ab":
            for option, wanted in (("--states", active), ("--values-only", values)):
                self.run_it("convert", "a.vdbs", "out.npy", "--grid", name, option, "--bounds", 0, 0, 0, 3, 3, 3)
                np.testing.assert_array_equal(np.load("out.npy"), wanted)

    def test_other_formats(self):
        """A grid goes into a file of another format and back to the same coordinates, beside other grids."""
        self.made()
        for ending, said in ((".nrrd", {"image_space": "right-anterior-superior"}), (".vti", {})):
            self.run_it("convert", "a.vdbs", f"back{ending}", "--dtype", "int8", "--active", f"on{ending}")
            self.run_it("convert", f"back{ending}", "a.vdbs", "--active", f"on{ending}")
            self.fails("convert", f"back{ending}", "b.vdbs", "--active", f"back{ending}", told=f": back{ending}: the value 3 is neither 0 nor 1")
            scene = scenefile.load(self.folder / "a.vdbs")
            kept = {"image_array": "int8,10,9,8", "image_low": "-5,0,4090", **said}
            self.assertEqual((list(scene), scene["back"], dict(scene["back"].metadata)), (["back", "lab"], scene["lab"], kept))
            self.run_it("merge", "a.vdbs", "a.vdbs", "a.vdbs", "--prefer", "a")
            self.fails("convert", "a.vdbs", f"b{ending}", told="a.vdbs: choose a grid by its name: it has back, lab")
            del scene["back"]
            scene.save(self.folder / "a.vdbs")
        formats.write("far.nrrd", formats.Volume(np.ones((10, 9, 8), bool), np.diag([1, 1, 2]) @ np.eye(3, 4), (-5, 0, 4090)))
        self.fails("convert", "back.vti", "b.vdbs", "--active", "far.nrrd", told="back.vti: far.nrrd: two grids of different images, the affine [[1.0, 0.0, 0.0")
        self.fails("convert", "a.vdbs", "b.nrrd", "--dtype", "uint8", told="a.vdbs: the value -2 at (2, 7, 4097) is outside uint8")
        self.fails("convert", "a.vdbs", "b.nhdr", told="b.nhdr: a .nhdr is only read")
        self.fails("convert", "back.vti", "b.vdbs", "--type", "bool", told="back.vti: the value 3 is neither 0 nor 1")
        self.fails("convert", "back.vti", "b.vdbs", "--max-bytes", "100", told="back.vti: the file has")
        self.fails("convert", "back.vti", "b.npy", told="neither is")
        os.rename("back.vti", "Back 2.vti")
        self.fails("convert", "Back 2.vti", "b.vdbs", told="Back 2.vti: choose a name for the grid by --grid")

    def test_the_affine(self):
        """The affine of a file becomes pairs beside the others, and goes into the next file."""
        head = "NRRD0004\ntype: uchar\ndimension: 3\nsizes: 1 1 2\nencoding: raw\n"
        place = "space: left-posterior-superior\nspace directions: (1,0,0) (0,2.5,0) (0,0,3)\nspace origin: (4,5,6)\n"
        (self.folder / "a.nrrd").write_text(f"{head}{place}\n\x05\x06")
        self.run_it("convert", "a.nrrd", "a.vdbs")
        scene = scenefile.load(self.folder / "a.vdbs")
        image = {"image_array": "uint8,1,1,2", "image_space": "left-posterior-superior"}
        wanted = {"affine_x": "-1,0,0,-4", "affine_y": "0,-2.5,0,-5", "affine_z": "0,0,3,6", **image}
        self.assertEqual(dict(scene["a"].metadata), wanted)
        scene["a"].metadata["unit"] = "mm"
        scene.save(self.folder / "a.vdbs")
        self.run_it("convert", "a.vdbs", "b.nrrd", "--bounds", "0", "0", "1", "0", "0", "1")
        text = (self.folder / "b.nrrd").read_bytes().partition(b"\n\n")[0].decode()
        self.assertIn("space: left-posterior-superior\n", text)
        self.assertIn("space directions: (1,0,0) (0,2.5,0) (0,0,3)\n", text)
        self.assertIn("space origin: (4,5,9)\nvdb_origin:=0 0 1", text)
        (self.folder / "a.nrrd").write_text(f"{head}{place.replace('(4,5,6)', '(0,0,0)')}\n\x05\x06")
        self.run_it("convert", "a.nrrd", "a.vdbs", "--origin", "0", "0", "2")
        wanted = {"affine_x": "-1,0,0,0", "affine_y": "0,-2.5,0,0", "affine_z": "0,0,3,-6", "unit": "mm", "image_low": "0,0,2", **image}
        self.assertEqual(dict(scenefile.load(self.folder / "a.vdbs")["a"].metadata), wanted)

    def test_pictures_of_many_pixels(self):
        """A picture that is too large is an error before it is made."""
        scenefile.Scene({"a": scenefile.Grid.from_array(np.ones((2**10, 2, 1), bool))}).save(self.folder / "a.vdbs")
        self.fails("slice", "a.vdbs", "a", "--axis", "z", "--at", "0", "out.png", "--scale", "99999",
                   told="a.vdbs: a picture of 102,398,976 x 199,998 pixels needs 61,438,771,206,144 bytes, more than 268,435,456")  # fmt: skip
        self.fails("slice", "a.vdbs", "a", "--axis", "z", "--at", "0", "out.png", "--bounds", "0", "0", "0", "99999999", "1", "1", told="more than")
        (self.folder / "answers").write_text("row 0 1 1 1 1 1 1 1 1 1\nend 1\n" * 30_000)
        self.fails("picture", "answers", "out.png", told="answers: a picture of 4,500,024 x 62 pixels needs 837,004,464 bytes")
        (self.folder / "answers").write_text("row 0 1 1x 1\nend 1\n")
        self.fails("picture", "answers", "out.png", told="answers: a row of a slice has the cell '1x', which is no value")
        with mock.patch("vdb.scenefile.picture.MAX_ANSWERS", 9):
            self.fails("picture", "answers", "out.png", told="answers: the answers have more than 9 bytes")
        self.assertFalse((self.folder / "out.png").exists())

    def test_slice(self):
        self.made()
        self.run_it("slice", "a.vdbs", "lab", "--axis", "z", "--at", "4093", "--scale", "2", "out.png")
        pixels = self.pixels("out.png")
        self.assertEqual(pixels.shape, (12, 12, 3))
        label = self.values[2:8, 2:8, 3].T.repeat(2, axis=0).repeat(2, axis=1)
        self.assertEqual(len(np.unique(pixels[label == 3], axis=0)), 1)
        self.assertEqual(np.unique(pixels[label == 0], axis=0).tolist(), [[228, 228, 224]])
        for axis, shape in (("x", (7, 6)), ("y", (7, 6))):
            self.run_it("slice", "a.vdbs", "lab", "--axis", axis, "--at", "2", "--scale", "1", "out.png")
            self.assertEqual(self.pixels("out.png").shape[:2], shape)
        self.fails("slice", "a.vdbs", "lab", "--axis", "x", "--at", "9", "--bounds", *"000111", "out.png", told="outside the bounds, 0 to 1")
        for at in (4089, 4098):  # the image has 4090, and the active voxels begin at 4091
            self.fails("slice", "a.vdbs", "lab", "--axis", "z", "--at", "4090", "--at", at, "out.png",
                       told=f"a.vdbs: the plane z = {at} lies outside 4090 to 4097")  # fmt: skip
        self.run_it("slice", "a.vdbs", "lab", "--axis", "z", "--at", "4090", "--scale", "1", "out.png")
        self.assertEqual(self.pixels("out.png").reshape(-1, 3).max(axis=0).tolist(), [228, 228, 224])
        scenefile.Scene({"a": scenefile.Grid.from_array(self.values)}).save(self.folder / "b.vdbs")
        self.fails("slice", "b.vdbs", "--axis", "z", "--at", "0", "out.png", told="b.vdbs: the plane z = 0 lies outside 1 to 7")
        self.run_it("slice", "b.vdbs", "--axis", "z", "--at", "0", "--bounds", *"000111", "out.png")

    def test_montage(self):
        """Planes side by side: each label has its area in all of them, and one square more in the legend."""
        self.made()
        for words, planes in (
            (["--montage", "3"], [4092, 4094, 4096]), (["--at", "4091", "--at", "4097"], [4091, 4097]), (["--montage", "99"], range(4091, 4098)),
        ):  # fmt: skip
            self.run_it("slice", "a.vdbs", "lab", "--axis", "z", *words, "--scale", "4", "out.png")
            pixels, counts = self.pixels("out.png"), {}
            for colour, count in zip(*np.unique(pixels.reshape(-1, 3), axis=0, return_counts=True)):
                counts[tuple(colour.tolist())] = int(count)
            part = self.values[2:8, 2:8, [at - 4090 for at in planes]]
            for value in {*part.ravel().tolist()} - {0}:
                colour = tuple(picture.colours_of(np.array([value]))[0].tolist())
                self.assertEqual(counts.pop(colour), 16 * int((part == value).sum()) + 14**2, (words, value))
            self.assertEqual(counts.pop(picture.INACTIVE), 16 * int((part == 0).sum()))
            self.assertGreater(counts.pop(picture.PAPER), 0)
            self.assertGreater(counts[picture.INK], 10 * len(planes), "the text")
            between = [all(ink <= part <= 255 for ink, part in zip(picture.INK, colour)) for colour in counts]
            self.assertTrue(all(between), "the edges of letters")
        self.run_it("slice", "a.vdbs", "lab", "--axis", "z", "--at", "4092", "--montage", "2", "out.png", status=2)
        self.run_it("slice", "a.vdbs", "lab", "--axis", "z", "out.png", status=2)
        self.fails("slice", "a.vdbs", "lab", "--axis", "z", "--montage", "7", "--scale", "9999", "out.png", told="bytes, more than")

    def test_legend(self):
        """The legend of a montage has the labels of the most voxels, and says how many others there are."""
        values = np.arange(1, 73, dtype=np.int32).reshape(8, 9, 1)
        planes, wanted = [picture.Plane("z = -1", values[:, :, 0], values[:, :, 0] != 5)], [value for value in range(1, 62) if value != 5]
        labels, texts = picture.legend_of(planes, {7: Label("left ear"), 5: Label("unused")})
        self.assertEqual(labels.tolist(), wanted)
        self.assertEqual(texts, [*("7 left ear" if value == 7 else str(value) for value in wanted), "+11 more"])
        labels, texts = picture.legend_of([planes[0]._replace(active=values[:, :, 0] < 3)])
        self.assertEqual((labels.tolist(), texts), ([1, 2], ["1", "2"]))

    def pixels(self, name):
        with Image.open(name) as image:
            self.assertEqual((image.format, image.mode), ("PNG", "RGB"))
            return np.asarray(image)

    def test_picture(self):
        """The picture of the documents, from its answers, pixel by pixel."""
        answers, wanted = TOP / "examples" / "ball.rows", self.pixels(TOP / "docs" / "pictures" / "ball.png")
        self.run_it("picture", str(answers), "ball.png")
        np.testing.assert_array_equal(self.pixels("ball.png"), wanted)
        piped = self.piped("picture", "-", input=answers.read_bytes())
        self.assertEqual((piped.returncode, piped.stderr), (0, b""))
        np.testing.assert_array_equal(self.pixels(io.BytesIO(piped.stdout)), wanted)
        self.fails("picture", "/dev/null", "ball.png", told="no slice")
        np.testing.assert_array_equal(self.pixels("ball.png"), wanted)

    def piped(self, *words, **given):
        """Runs the command line as a process of its own."""
        environment = {**os.environ, "PYTHONPATH": str(TOP / "python")}
        return subprocess.run([sys.executable, "-m", "vdb", *words], env=environment, capture_output=True, timeout=60, **given)

    def test_array_to_pipe(self):
        self.made()
        run = self.piped("convert", "a.vdbs", "-", "--grid", "lab", cwd=self.folder)
        self.assertEqual(run.returncode, 0, run.stderr)
        np.testing.assert_array_equal(np.load(io.BytesIO(run.stdout)), self.values)

    def test_process(self):
        """The status of the process, and its one line on standard error."""
        run = self.piped("info", "none.vdbs", cwd=self.folder)
        self.assertEqual((run.returncode, run.stdout), (1, b""))
        self.assertEqual(run.stderr, b"vdb-scene: none.vdbs: No such file or directory\n")

    def test_progress(self):
        """Long work shows its progress on a terminal, and only there. Without tqdm it is done all the same."""
        self.made()
        for terminal, modules in ((True, {}), (False, {}), (True, {"tqdm": None})):
            for words, told in ((("labels", "a.vdbs", "lab"), "a.vdbs"), (("convert", "in.npy", "b.vdbs"), "in.npy")):
                errors = io.StringIO()
                errors.isatty = lambda: terminal
                with mock.patch.multiple("vdb.command.common", LARGE=1, DELAY=0), mock.patch.dict(sys.modules, modules):
                    with contextlib.redirect_stderr(errors), contextlib.redirect_stdout(io.StringIO()):
                        self.assertEqual(main([*words]), 0)
                shown = terminal and not modules
                self.assertRegex(errors.getvalue(), rf"\rreading {told}: [^\n]*\rreading {told}: 100%[^\n]*\n" if shown else r"\A\Z")

    def test_merge(self):
        self.made()
        np.save(self.folder / "b.npy", self.values == 3)
        self.run_it("convert", "b.npy", "b.vdbs", "--grid", "lab")
        self.run_it("convert", "b.npy", "b.vdbs", "--grid", "mask")
        self.fails("merge", "a.vdbs", "b.vdbs", "c.vdbs", told="b.vdbs: a.vdbs has lab too")
        self.assertFalse((self.folder / "c.vdbs").exists())
        for choice, kind in (("a", "i32"), ("b", "bool")):
            self.run_it("merge", "a.vdbs", "b.vdbs", "c.vdbs", "--prefer", choice)
            scene = scenefile.load(self.folder / "c.vdbs")
            self.assertEqual((list(scene), scene["lab"].kind), (["lab", "mask"], kind))

    def test_help(self):
        told = self.run_it("--help")
        for part in ("Example: vdb-scene", *COMMANDS, *(f"\n  {status:<5}{what}" for status, what in STATUSES.items())):
            self.assertIn(part, told)
        for command in COMMANDS:
            told = " ".join(self.run_it(command, "--help").split())
            self.assertIn("Example: ", told)
            self.assertIn(f"Example: vdb-scene {command} ", told)

    def test_interruptions(self):
        for error, status, told in ((KeyboardInterrupt(), 130, "interrupted"), (MemoryError(), 1, "there is too little memory")):
            with mock.patch("vdb.command.info.run", side_effect=error):
                self.assertEqual(self.called("info", "a.vdbs"), (status, "", f"vdb-scene: {told}\n"))
            self.assertIn(status, STATUSES)

    def test_wrong_command_lines(self):
        for words in (
            (), ("nothing",), ("info",), ("convert", "in.npy"), ("convert", "in.npy", "a.vdbs", "--grid", "A"),
            ("convert", "in.npy", "a.vdbs", "--grid", "a", "--background", "x"), ("slice", "a", "b", "c", "--axis", "w", "--at", "1"),
            ("convert", "in.npy", "a.vdbs", "--grid", "a", "--limit", "0"), ("convert", "a.vdbs", "b.npy", "--bounds", "1"),
        ):
            self.run_it(*words, status=2)
        self.assertFalse((self.folder / "a.vdbs").exists())
        for words, missing in (
            (("view", "a.nii"), "OUT.html"), (("slice", "a.nii", "--at", 2), "OUT.png, --axis"), (("view",), "FILE, OUT.html"), (("mesh", "a.nii"), "OUT"),
        ):  # fmt: skip
            self.assertIn(f"the following arguments are required: {missing}\n", self.called(*words)[2])

    def test_errors(self):
        self.made()
        data = (self.folder / "a.vdbs").read_bytes()
        (self.folder / "bad.vdbs").write_bytes(data[:-1])
        self.fails("info", "bad.vdbs", told="bad.vdbs: byte ")
        self.fails("info", "none.vdbs", told="none.vdbs: No such file")
        self.fails("labels", "a.vdbs", "x", told="a.vdbs: there is no grid x; it has lab")
        self.fails("convert", "a.vdbs", "o.npy", "--grid", "lab", "--fill", "true", told="integer")
        self.fails("convert", "a.vdbs", "o.npy", "--grid", "lab", "--max-bytes", "9", told="more than max_bytes = 9")
        self.fails("convert", "a.vdbs", "b.vdbs", "--grid", "a", told="b.vdbs: one of IN and OUT is a scene file (.vdbs, .vdbs.gz), and not both")
        self.fails("convert", "in.npy", "b.nrrd", told="and neither is: convert in two steps, by a scene file")
        self.fails("convert", "a.vdbs", "b.txt", told="b.txt: the ending is none of .npy")
        scene = "the ending is .npy, and the first bytes are those of a scene file, whose ending is .vdbs"
        for bad, told in ((data, scene), (data[1:], "no .npy file")):
            (self.folder / "bad.npy").write_bytes(bad)
            self.fails("convert", "bad.npy", "b.vdbs", told=f"bad.npy: {told}")
        self.fails("convert", "in.npy", "bad.vdbs", "--grid", "a", told="truncated")
        np.save(self.folder / "float.npy", self.values * 0.5)
        self.fails("convert", "float.npy", "a.vdbs", "--grid", "lab", told="float.npy: the value 1.5 at the index (2, 2, 1) isn't an integer of 64 bits, so no grid holds it: threshold or round the image first")
        np.save(self.folder / "long.npy", np.full((1, 1, 1), 2**63, np.uint64))
        self.fails("convert", "long.npy", "a.vdbs", told="so no grid holds it\n")
        hint = ". For an image use vdb.formats.load, or vdb-scene convert IMAGE x.vdbs\n"
        self.fails("info", "in.npy", told=f"in.npy: byte 0: magic: the file begins with b'\\x93NUM', not b'VDBS'{hint}")
        (self.folder / "no.vdbs").write_bytes(b"none")
        self.fails("info", "no.vdbs", told="begins with b'none', not b'VDBS'\n")
        self.assertEqual((self.folder / "a.vdbs").read_bytes(), data)
        self.assertEqual((self.folder / "bad.vdbs").read_bytes(), data[:-1])


if __name__ == "__main__":
    unittest.main()
