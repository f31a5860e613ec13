# SPDX-License-Identifier: Apache-2.0
"""The page of `vdb-scene view` in a browser: what it shows, by NumPy, and how it answers to keys, the mouse and the list."""
import base64
import json
import os
import re
import unittest
import zlib
from unittest import mock

import nibabel

from .support import CommandCase, chance, encoding, np, random_array, scenefile

from vdb.command.page import Page
from vdb.scenefile.picture import colours_of

from .browser import CHROMIUM, Browser
from .test_anatomy import affines, head

OUTSIDE, EMPTY = (11, 12, 15), (26, 29, 33)
LOW = (-21, 4085, 7)
PIXELS = """(() => {
  faces.draw();
  const shown = document.querySelector("#%s canvas"), { width, height } = shown, copy = Object.assign(document.createElement("canvas"), { width, height });
  const context = copy.getContext("2d");
  context.drawImage(shown, 0, 0);
  const bytes = context.getImageData(0, 0, width, height).data;
  let text = "";
  for (let place = 0; place < bytes.length; place += 4) text += String.fromCharCode(bytes[place], bytes[place + 1], bytes[place + 2]);
  return [height, width, btoa(text)];
})()"""
CELLS = """(() => {
  const [x0, y0, z0] = about.low, [x1, y1, z1] = about.high, found = [];
  for (let x = x0; x <= x1; x++) for (let y = y0; y <= y1; y++) for (let z = z0; z <= z1; z++) {
    const number = cell(x - about.origin[0], y - about.origin[1], z - about.origin[2]);
    found.push([valueOf(number), data.active[number]]);
  }
  return JSON.stringify(found);
})()"""


def sample():
    """Three labels in tiles and leaves, one of them at some inactive voxels too, and a background of -5."""
    values = np.full((40, 24, 20), -5, np.int32)
    values[3:30, 2:20, 1:18] = 1
    values[8:22, 5:22, 4:12] = 2**31 - 1
    values[30:38, 10:15, 3:9] = -7
    active = values != -5
    active[4:6, 3:9, 2:5] = False
    values[0, 0, 0], active[0, 0, 0] = 99, False
    return values, active


@unittest.skipUnless(CHROMIUM, "there is no chromium")
class Shown(CommandCase):
    @classmethod
    def setUpClass(cls):
        cls.browser = Browser().__enter__()
        cls.addClassCleanup(cls.browser.__exit__, None, None, None)

    def setUp(self):
        super().setUp()
        self.values, self.active = sample()
        grid = scenefile.Grid.from_array(self.values, self.active, LOW, -5)
        many = np.arange(1, 401, dtype=np.int64).reshape(20, 20) * 2**40
        many = np.stack([many, many, np.where(many < 5 * 2**40, 9, many)], axis=2)
        self.many = scenefile.Grid.from_array(many, origin=(2**31 - 20, -(2**31), 0))
        scenefile.Scene({"lab": grid, "many": self.many}).save("a&b<i>.vdbs")
        (self.folder / "a&b<i>.many.tsv").write_text("index\tname\tcolor\n9\tthe <b>nine\t#ff8001\n" + f"{2**40 * 400}\tthe last\tn/a\n")

    def open(self, name, file="a&b<i>.vdbs", *more):
        """Writes the page of a grid and opens it."""
        self.run_it("view", file, name, f"{name}.html", *more)
        self.browser.told.clear()
        self.browser.call("Page.navigate", url=f"file://{self.folder}/{name}.html")
        self.browser.wait("document.documentElement?.dataset.state")
        self.frame("true")

    def tearDown(self):
        self.assertEqual(self.browser.told, [], "the console and errors")
        self.assertEqual(self.browser.value("performance.getEntriesByType('resource').length"), 0, "the page loads nothing")

    def frame(self, does):
        """Evaluates JavaScript, and waits until the page has been drawn after it."""
        before = self.browser.value("Number(document.documentElement.dataset.frames || 0)")
        found = self.browser.value(f"(() => {{ const found = {does}; draw(); return found; }})()")
        self.browser.wait(f"document.documentElement.dataset.frames > {before}")
        return found

    def state(self, name):
        return self.browser.value(f"document.documentElement.dataset.{name}")

    def at(self):
        return tuple(map(int, self.state("at").split()))

    def pixels(self, pane):
        """The pixels of a pane (rows x columns x 3)."""
        self.frame("true")
        height, width, text = self.browser.value(PIXELS % pane)
        return np.frombuffer(base64.b64decode(text), np.uint8).reshape(height, width, 3)

    def place(self, pane):
        """Where a pane lies in the window: left, top, width and height."""
        return self.browser.value(f"(({{ x, y, width, height }}) => [x, y, width, height])(document.querySelector('#{pane} canvas').getBoundingClientRect())")

    def centres(self, pixels, shape):
        """The rows and the columns of the middles of voxels, by the box that differs from what lies outside."""
        inside = (pixels != OUTSIDE).any(axis=2)
        made = []
        for axis, count in zip((1, 0), shape):
            ends = np.flatnonzero(inside.sum(axis=axis) > 5)[[0, -1]]
            made.append((ends[0] + (np.arange(count) + 0.5) * (ends[1] - ends[0] + 1) / count).astype(int))
        return made

    def check_slice(self, axis, hidden=()):
        """Compares a slice with the array, voxel by voxel, but for the lines of the crosshair."""
        values, active = np.pad(self.values, 2, constant_values=-5), np.pad(self.active, 2)
        low, high = np.argwhere(active).min(axis=0) - 2, np.argwhere(active).max(axis=0) + 3
        at = np.array(self.at()) - LOW + 2
        plane = (values.take(at[axis], axis), active.take(at[axis], axis))
        first, second = (it for it in range(3) if it != axis)
        values, active = (part[low[first] : high[first], low[second] : high[second]].T for part in plane)
        expected = np.where((active & ~np.isin(values, hidden))[..., None], colours_of(values), np.uint8(EMPTY))
        rows, columns = at[second] - low[second], at[first] - low[first]
        if axis < 2:  # z goes up
            expected, rows = expected[::-1], len(expected) - 1 - rows
        pixels = self.pixels("xyz"[axis])
        found = pixels[np.ix_(*self.centres(pixels, values.shape))]
        for part in (expected, found):
            part = np.delete(np.delete(part, rows, axis=0), columns, axis=1)
        kept = np.ix_(np.arange(len(found)) != rows, np.arange(found.shape[1]) != columns)
        np.testing.assert_array_equal(found[kept], expected[kept])

    def test_cells_and_slices(self):
        """Each voxel of the box has its value and state, and each slice shows them; keys, the wheel and clicks move the crosshair."""
        self.open("lab")
        self.assertEqual(self.state("state"), "ready")
        values, active = np.pad(self.values, 2, constant_values=-5), np.pad(self.active, 2)
        low, high = np.argwhere(active).min(axis=0) - 2, np.argwhere(active).max(axis=0) + 3
        box = tuple(slice(*ends) for ends in zip(low, high))
        cells = json.loads(self.browser.value(CELLS))
        self.assertEqual([int(value) for value, _ in cells], values[box].ravel().tolist())
        self.assertEqual([bool(state) for _, state in cells], active[box].ravel().tolist())
        for axis in range(3):
            self.check_slice(axis)
        x, y, z = self.at()
        self.browser.key(".")
        self.assertEqual(self.at(), (x, y, z + 1))
        self.check_slice(2)
        self.browser.key("ArrowDown")
        self.browser.key("ArrowLeft")
        self.assertEqual(self.at(), (x - 1, y + 1, z + 1))
        left, top, width, height = self.place("x")
        self.browser.mouse("mouseMoved", left + width / 2, top + height / 2)
        self.browser.mouse("mouseWheel", left + width / 2, top + height / 2, deltaX=0, deltaY=-100)
        self.assertEqual(self.at(), (x, y + 1, z + 1))
        self.browser.key("ArrowUp")
        self.assertEqual(self.at(), (x, y + 1, z + 2))
        self.check_slice(0)

    def test_clicks(self):
        self.open("lab")
        left, top, *_ = self.place("z")
        pixels, shape = self.pixels("z"), self.browser.value("[sides[1], sides[0]]")
        rows, columns = self.centres(pixels, shape)
        low = self.browser.value("about.low")
        self.browser.click(left + int(columns[9]), top + int(rows[4]))
        at = self.at()
        self.assertEqual(at[:2], (low[0] + 9, low[1] + 4))
        place = tuple(np.array(at) - LOW)
        self.assertEqual((self.state("value"), self.state("cell")), (str(self.values[place]), ("inactive", "active")[int(self.active[place])]))
        self.check_slice(1)
        self.browser.value("(() => { const input = document.querySelector('#at2'); input.value = 12; input.dispatchEvent(new Event('change')); })()")
        self.assertEqual(self.at(), (*at[:2], 12))
        self.browser.key("+")
        self.assertGreater(self.browser.value("zoom"), 1)

    def coloured(self, value):
        """Which pixels of the faces have the hue of a label."""
        pixels, colour = self.pixels("space").astype(float), colours_of(np.array([value]))[0].astype(float)
        length = np.linalg.norm(pixels, axis=2)
        return (length > 60) & (pixels @ colour > 0.999 * length * np.linalg.norm(colour))

    def test_faces(self):
        """Faces have the hues of their labels; a box of the list hides a label; a click goes to the voxel, a drag turns, `c` cuts."""
        self.open("lab")
        grid = scenefile.load("a&b<i>.vdbs")["lab"]
        self.assertEqual(int(self.state("faces")), len(Page(grid, "lab").faces.low))
        for value in (1, -7):
            mask = self.coloured(value)
            self.assertGreater(np.count_nonzero(mask), 1000, value)
            rows, columns = np.nonzero(mask)
            row, column = rows[len(rows) // 2], columns[len(rows) // 2]
            left, top, *_ = self.place("space")
            self.browser.click(left + int(column), top + int(row))
            place = tuple(np.array(self.at()) - LOW)
            self.assertEqual((self.state("value"), self.state("cell"), self.values[place]), (str(value), "active", value))
        hidden = np.count_nonzero(self.coloured(2**31 - 1))
        self.frame("document.querySelectorAll('li input')[1].click()")
        self.assertLess(np.count_nonzero(self.coloured(1)), 200)
        self.assertGreater(np.count_nonzero(self.coloured(2**31 - 1)), hidden + 1000)
        self.check_slice(2, hidden=[1])
        before = self.pixels("space")
        self.browser.mouse("mousePressed", left + 50, top + 50, button="left", buttons=1, clickCount=1)
        self.browser.mouse("mouseMoved", left + 120, top + 60, button="left", buttons=1)
        self.browser.mouse("mouseReleased", left + 120, top + 60, button="left", clickCount=1)
        turned = self.pixels("space")
        self.assertGreater(np.count_nonzero((before != turned).any(axis=2)), 2000)
        self.browser.mouse("mouseWheel", left + 120, top + 60, deltaX=0, deltaY=-100)
        self.assertGreater(np.count_nonzero(self.coloured(-7)), 0)
        self.browser.key("c")
        self.assertGreater(np.count_nonzero((self.pixels("space") != turned).any(axis=2)), 500)

    def letters(self, pane):
        """The letters of a pane, and where their middles lie in it, in pixels."""
        left, top, *_ = self.place(pane)
        found = self.browser.value(
            f"Array.from(document.querySelectorAll('#{pane} .edge'), (each) => [each.textContent, each.getBoundingClientRect()])"
            ".map(([text, { x, y, width, height }]) => [text, x + width / 2, y + height / 2])"
        )
        return {text: np.array([x - left, y - top]) for text, x, y in found}

    def test_anatomy(self):
        """The panes of an image are planes as nibabel orders them, between letters: what is at the left, front and top is at L, A and S."""
        for affine in [*affines()][5::34]:
            image = head(affine)
            gray = np.random.default_rng(4).integers(0, 256, image.shape, np.uint8)
            nibabel.save(image, "head.nii.gz")
            nibabel.save(nibabel.Nifti1Image(gray, affine), "gray.nii")
            wanted, shades = (nibabel.as_closest_canonical(nibabel.Nifti1Image(each, affine)) for each in (np.asarray(image.dataobj), gray))
            values, shades, lengths = np.asarray(wanted.dataobj), np.asarray(shades.dataobj), wanted.header.get_zooms()
            self.open("head", "head.nii.gz", "--beneath", "gray.nii", "--window", 0, 255)
            panes = {each["name"]: "xyz"[each["axis"]] for each in self.browser.value("about.panes")}
            rows = self.browser.value("Array.from(document.querySelectorAll('li'), (row) => row.innerText.split(/\\s+/).filter(Boolean))")
            self.assertEqual(rows, [["5", "8"], ["7", "8"], ["9", "8"]])
            for place, (label, letter, shown) in enumerate(((5, "A", "02"), (7, "L", "01"), (9, "S", "12"))):
                self.frame(f"document.querySelectorAll('li button')[{place}].click()")
                self.assertEqual(self.browser.value("document.querySelector('li.picked button').textContent.trim()"), str(label))
                at = np.zeros(3, int)  # in the order of nibabel
                for (axis, sign), part, count in zip(nibabel.io_orientation(affine), self.at(), image.shape):
                    at[int(axis)] = part if sign > 0 else count - 1 - part
                self.assertEqual(values[tuple(at)], label)
                for world, name in enumerate(("axial", "coronal", "sagittal")):
                    across, up = ((0, 1), (0, 2), (1, 2))[world]
                    pane, letters, through = panes[name], self.letters(panes[name]), 2 - world
                    self.assertEqual("".join(letters), ("RLAP", "RLSI", "APSI")[world])
                    pixels = self.pixels(pane)
                    plane, under = (np.flip(each.take(at[through], through).T) for each in (values, shades))
                    centres = self.centres(pixels, plane.shape)
                    ends = [np.flatnonzero((pixels != OUTSIDE).any(axis=2).sum(axis=axis) > 5)[[0, -1]] for axis in (1, 0)]
                    side = [lengths[up] * plane.shape[0], lengths[across] * plane.shape[1]]
                    self.assertAlmostEqual(np.ptp(ends[0]) / np.ptp(ends[1]) * side[1] / side[0], 1, delta=0.03)
                    expected = np.where(plane[..., None] > 0, 0.6 * colours_of(plane) + 0.4 * under[..., None], under[..., None])
                    kept = [np.arange(count) != count - 1 - at[it] for count, it in zip(plane.shape, (up, across))]
                    np.testing.assert_allclose(pixels[np.ix_(*centres)][np.ix_(*kept)], expected[np.ix_(*kept)], atol=1.5)
                    if str(world) in shown:
                        row, column = np.argwhere(plane == label).mean(axis=0) / (np.array(plane.shape) - 1) - 0.5
                        outward = {it: (letters[it] / self.place(pane)[2:] - 0.5) @ (column, row) for it in letters}
                        self.assertEqual(max(outward, key=outward.get), letter)
                mask, ends = self.coloured(label), self.letters("space")
                self.assertGreater(np.count_nonzero(mask), 50)
                self.assertEqual("".join(sorted(ends)), "AILPRS")
                outward = np.argwhere(mask).mean(axis=0)[::-1] - np.mean([*ends.values()], axis=0)
                self.assertGreater(outward @ (ends[letter] - ends[{"L": "R", "A": "P", "S": "I"}[letter]]), 0, (letter, affine))
            faces, masks = self.pixels("space"), [self.coloured(label) for label in (5, 7, 9)]
            nibabel.save(wanted, "same.nii.gz")
            self.open("same", "same.nii.gz", "--beneath", "same.nii.gz")
            self.frame(f"move({at.tolist()}.map((part, axis) => part - about.origin[axis]))")
            same = self.pixels("space").astype(int)
            for label, mask in zip((5, 7, 9), masks):
                other = self.coloured(label)
                self.assertGreater(np.count_nonzero(mask & other), 0.9 * np.count_nonzero(mask | other), "the same body in other axes")
                self.assertLess(np.abs(faces - same)[mask & other].mean(), 4)

    def test_many(self):
        """More than 256 labels: a list of the most frequent ones, and faces to inactive voxels. Labels side by side differ in colour."""
        self.open("many")
        text = self.browser.value("document.querySelector('aside').innerText")
        self.assertIn("256 of 401 labels", text)
        self.assertIn("145 others", text)
        self.assertEqual(self.browser.value("document.querySelectorAll('li').length"), 257)
        first = self.browser.value("Array.from(document.querySelectorAll('li'), (row) => row.innerText.split(/\\s+/)).slice(0, 2)")
        self.assertEqual([[word for word in row if word] for row in first], [["9", "the", "<b>nine", "4"], [str(5 * 2**40), "3"]])
        self.assertEqual(self.browser.value("document.querySelector('li .chip').style.background"), "rgb(255, 128, 1)")
        self.assertEqual(sum(self.browser.value("about.groups.map((group) => group.count)")), 1200)
        colours = np.array(self.browser.value("Array.from(data.colours)")).reshape(-1, 3)[1:402]
        self.assertGreater(np.abs(np.diff(colours, axis=0)).sum(axis=1).min(), 60)
        self.assertEqual(self.at()[:2], (2**31 - 11, -(2**31) + 9))
        self.assertEqual(self.state("value"), str(self.many[self.at()]))
        self.browser.key("ArrowRight")
        self.assertEqual(self.state("value"), str(self.many[self.at()]))
        cell = "Array.from(document.querySelectorAll('.cell b, .cell span:last-child, #name'), (each) => each.textContent)"
        for place, told in (((0, 0, 2), ["9", "4 voxels", "the <b>nine"]), ((19, 19, 0), [str(2**40 * 400), "3 voxels", "the last"])):
            self.frame(f"move({[*place]}.map((part, axis) => part + about.bounds[0][axis] - about.origin[axis]))")
            self.assertEqual(self.browser.value(cell), told, "a label of the list, and another one")
        self.assertEqual(self.browser.value("document.querySelector('li.picked')"), None)
        self.frame("document.querySelectorAll('li input')[256].click()")
        self.frame("document.querySelector('#all').click()")
        self.assertTrue(self.browser.value("about.groups.every((group) => group.visible)"))


class Written(CommandCase):
    def setUp(self):
        super().setUp()
        values, active = sample()
        grid = scenefile.Grid.from_array(values, active, LOW, -5)
        self.high = tuple(np.argwhere(active).max(axis=0) - np.argwhere(active).min(axis=0) + 5)
        grid.metadata.update({"affine_x": "2,0,0,5", "affine_y": "0,-1,0,0", "affine_z": "0,0,0.5,0"})
        scenefile.Scene({"lab": grid, "none": scenefile.Grid("bool"), "flag": scenefile.Grid.from_array(active)}).save("a.vdbs")
        os.link("a.vdbs", "a<b.vdbs")

    def parts(self, name):
        """The two scripts of a page that hold what it says of the grid, and its arrays."""
        text = (self.folder / name).read_text(encoding="utf-8")
        found = [re.search(rf'<script id="{part}" type="[a-z/]*">(.*?)</script>', text, re.S)[1] for part in ("about", "data")]
        return json.loads(found[0]), zlib.decompress(base64.b64decode(found[1]))

    def about(self, name):
        return self.parts(name)[0]

    def cells(self, name):
        """The values and states of all voxels that a page holds, from its leaves and tiles, and where they begin."""
        about, data = self.parts(name)
        arrays, place = {}, 0
        for name, form, length in about["arrays"]:
            arrays[name] = np.frombuffer(data, "<" + form, length, place)
            place += arrays[name].nbytes
        self.assertEqual(place, len(data))
        sides = [-(-(high - low + 1) // 8) * 8 for low, high in zip(about["origin"], about["high"])]
        numbers = np.zeros(sides, np.int64)
        for x0, y0, z0, x1, y1, z1, number in arrays["tiles"].reshape(7, -1).T:
            numbers[8 * x0 : 8 * x1, 8 * y0 : 8 * y1, 8 * z0 : 8 * z1] = number
        corners = np.stack(np.unravel_index(arrays["leaves"], [side // 8 for side in sides]), axis=1) * 8
        for (x, y, z), leaf in zip(corners, arrays["cells"].reshape(-1, 8, 8, 8)):
            numbers[x : x + 8, y : y + 8, z : z + 8] = leaf
        return arrays["values"][numbers], arrays["active"][numbers] != 0, about["origin"], arrays["cells"].dtype

    def test_data(self):
        """The arrays of a page give back all voxels: few labels, more than 256, and more than 65,536; tiles, and inactive values."""
        luck, tried = chance(3), set()
        for kind in ("bool", "i32", "i64", "u2", "u4"):
            low, shape = (-9, 4090, -(2**31)), (44, 40, 45)
            values, active = random_array(luck, kind if kind[0] != "u" else "i64", False, low, shape)
            values[16:34, 4:40, 8:40], active[16:34, 4:40, 8:40] = True, True
            if kind[0] == "u":
                values += np.arange(values.size).reshape(shape) % (2 ** (4 * int(kind[1])) * 2)
                active[...] = True
            grid = scenefile.Grid.from_array(values, active, low)
            scenefile.Scene({"g": grid}).save("b.vdbs")
            self.run_it("view", "b.vdbs", "g", "b.html")
            found, states, origin, dtype = self.cells("b.html")
            tried.add((dtype.itemsize, bool(grid.tile_counts[8])))
            high = tuple(at + side - 1 for at, side in zip(origin, found.shape))
            expected = grid.to_array((origin, high))
            np.testing.assert_array_equal(found, expected[0].astype(np.int64))
            np.testing.assert_array_equal(states, expected[1])
        self.assertEqual({size for size, _ in tried}, {1, 2, 4})
        self.assertIn((1, True), tried)

    def test_page(self):
        """One file that names nothing outside it, and says what the grid is."""
        self.run_it("view", "a<b.vdbs", "lab", "out.html")
        text = (self.folder / "out.html").read_text()
        self.assertEqual(re.findall(r"""(?:src|href)\s*=\s*["'](?!data:)|https?:|@import|url\(""", text), [])
        self.assertIn("<title>lab \u2013 a&lt;b.vdbs</title>", text)
        about = self.about("out.html")
        self.assertEqual(about["spacing"], [2, 1, 0.5])
        self.assertEqual(about["affine"], [[2, 0, 0, 5], [0, -1, 0, 0], [0, 0, 0.5, 0]])
        self.assertEqual([group["number"] for group in about["groups"]], [1, 2, 3])
        self.assertEqual([group["volume"] for group in about["groups"]], [group["count"] for group in about["groups"]])  # a voxel of 2 x 1 x 0.5
        self.assertTrue(all(group["area"] >= 2 * (2 + 1 + 0.5) for group in about["groups"]))
        self.run_it("view", "a.vdbs", "flag", "flag.html")
        self.assertEqual((self.about("flag.html")["kind"], self.about("flag.html")["labels"]), ("bool", 1))

    def test_gray(self):
        """A page has the gray of each voxel of an image, by a window, or for a large image of every second one along each axis."""
        luck = np.random.default_rng(8)
        np.save("labels.npy", luck.integers(1, 4, (9, 8, 7), np.uint8))
        gray = luck.normal(0, 50, (9, 8, 7))
        np.save("gray.npy", gray)
        for most, step in ((2**26, 1), (504, 1), (503, 2), (63, 2), (62, 3)):
            with mock.patch("vdb.command.page.MOST_GRAY", most):
                self.run_it("view", "labels.npy", "gray.html", "--beneath", "gray.npy", "--window", "-100", "100")
            about, data = self.parts("gray.html")
            some = gray[::step, ::step, ::step]
            told = {"file": "gray.npy", "low": [0, 0, 0], "shape": [*some.shape], "step": step, "window": [-100, 100]}
            self.assertEqual((about["gray"], about["low"], about["high"]), (told, [0, 0, 0], [8, 7, 6]))
            self.assertEqual(about["arrays"][-1], ["gray", "u1", some.size])
            found = np.frombuffer(data, np.uint8)[-some.size :].reshape(some.shape)
            np.testing.assert_allclose(found, ((some + 100) / 200).clip(0, 1) * 255, atol=0.51)

    def test_limits(self):
        """A grid above a limit is an error with its size and the limit, and the file stays."""
        (self.folder / "out.html").write_text("old")
        size = int(np.prod(self.high))
        self.fails("view", "a.vdbs", "lab", "out.html", "--max-voxels", size - 1, told=f"have {size:,} voxels, more than max_voxels = {size - 1:,}")
        leaves = 512 * scenefile.load("a.vdbs")["lab"].leaf_count
        self.assertLess(8 * leaves - 8, 10**6)
        self.fails("view", "a.vdbs", "lab", "out.html", "--max-voxels", 8 * leaves - 8, told=f"have {leaves:,} voxels, more than max_voxels / 8 = {leaves - 1:,}")
        self.fails("view", "a.vdbs", "lab", "out.html", "--max-faces", "100", told="a.vdbs: the labels have more than max_faces = 100 faces")
        self.fails("view", "a.vdbs", "none", "out.html", told="a.vdbs: no voxel of none is active")
        self.assertEqual((self.folder / "out.html").read_text(), "old")
        self.run_it("view", "a.vdbs", "lab", "out.html", "--max-voxels", 8 * leaves)
        self.assertNotEqual((self.folder / "out.html").read_text(), "old")

    def test_far(self):
        """The limit holds before anything of the size of the box is made: this one has 2^96 voxels."""
        ends = [((part,) * 3, [(entry[0], [(entry[1], [(entry[2], (2, 1))])])]) for part, entry in ((-(2**19), (0, 0, 0)), (2**19 - 1, (32767, 4095, 511)))]
        (self.folder / "far.vdbs").write_bytes(encoding.save([encoding.Grid(b"far", 0, 0, 2, [], ends)]))
        self.fails("view", "far.vdbs", "far", "out.html", told=f"the bounding box of far and its margin have {2**96:,} voxels")


if __name__ == "__main__":
    unittest.main()
