# SPDX-License-Identifier: Apache-2.0
"""Meshes of labels: their volume by the divergence theorem, closed surfaces, and the three formats by readers of their own."""
import contextlib
import importlib.util
import io
import json
import re
import struct
import unittest
from unittest import mock

from .support import EXTREMES, CommandCase, chance, encoding, np, random_array, scenefile, vdb

from vdb.command import main
from vdb.command.mesh import model_of
from vdb.scenefile.faces import faces
from vdb.scenefile.mesh import merged, mesh_of


LEAST, MOST = -(2**31), 2**31 - 1
TYPES = {"double": "<f8", "int": "<i4", "uchar": "u1"}


def volume(corners):
    """The volume that triangles enclose (n x 3 x 3), positive if they run anticlockwise seen from outside. Exact for integers."""
    a, b, c = (corners - corners.reshape(-1, 3)[0]).transpose(1, 0, 2)
    wide = object if len(corners) < 100 else None
    a, b, c = (np.asarray(it, wide) for it in (a, b, c))
    cross = [b[:, i] * c[:, j] - b[:, j] * c[:, i] for i, j in ((1, 2), (2, 0), (0, 1))]
    return sum((a[:, axis] * cross[axis]).sum() for axis in range(3)) / 6


def area(corners):
    """The area of triangles."""
    a, b, c = (corners - corners.reshape(-1, 3)[0]).astype(np.float64).transpose(1, 0, 2)
    return np.linalg.norm(np.cross(b - a, c - a), axis=1).sum() / 2


def is_closed(triangles):
    """Whether each edge of triangles (n x 3 numbers of corners) is in as many of them in one sense as in the other."""
    begins = triangles.astype(np.int64).ravel()
    ends, count = np.roll(triangles, -1, axis=1).ravel(), begins.max() + 1
    return np.array_equal(np.sort(begins * count + ends), np.sort(ends * count + begins))


def face_count(mask):
    """How many faces of voxels an array of bools has."""
    wide = np.pad(mask, 1).astype(np.int8)
    return sum(int(np.count_nonzero(np.diff(wide, axis=axis))) for axis in range(3))


def grid_of(kind, roots):
    """A grid by the bodies of its root blocks, as tests/faults/encoding.py writes them."""
    return scenefile.loads(encoding.save([encoding.Grid(b"g", kind, 0, 4096, [], roots)]))["g"]


class Surfaces(unittest.TestCase):
    def check(self, grid, masks):
        """Compares the meshes of a grid, plain and merged, with the voxels of each label, a value to an array of bools."""
        values = grid.labels().values
        self.assertEqual(values.tolist(), sorted(masks))
        plain = mesh_of(faces(grid._tree, values, 10**7))
        joined = mesh_of(merged(faces(grid._tree, values, 10**7, unit=False)))
        self.assertEqual(len({*map(bytes, plain.corners)}), len(plain.corners), "corners are shared")
        self.assertLessEqual(len(joined.quads), len(plain.quads))
        for place, value in enumerate(values.tolist()):
            count = int(masks[value].sum())
            for mesh in (plain, joined):
                triangles = mesh.triangles[np.repeat(mesh.label == place, 2)]
                self.assertEqual(volume(mesh.corners[triangles]), count, value)
                self.assertAlmostEqual(area(mesh.corners[triangles]), face_count(masks[value]), delta=1e-6)
                if mesh is plain:
                    self.assertTrue(is_closed(triangles), value)
                    self.assertEqual(len(triangles), 2 * face_count(masks[value]))

    def test_random_labels(self):
        """Random boxes and specks at borders of blocks, at negative coordinates and at the extremes."""
        lows = [(0, 0, 0), (-19, 4090, -4101), (LEAST, LEAST, MOST - 47), (MOST - 39, -128, LEAST)]
        tried = 0
        for number in range(36):
            luck, low, kind = chance(number), lows[number % 4], ["bool", "i32", "i64"][number % 3]
            shape = tuple(luck.choice([1, 7, 24, 40]) for _ in range(3))
            values, active = random_array(luck, kind, EXTREMES[kind][0], low, shape)
            specks = np.random.default_rng(number).random(shape) < 0.02 * (number % 2)
            values[specks], active[specks] = EXTREMES[kind][1], True
            grid = scenefile.Grid.from_array(values, active, low, EXTREMES[kind][0])
            self.check(grid, {value: active & (values == value) for value in np.unique(values[active]).tolist()})
            tried += bool(active.any())
        self.assertGreater(tried, 25)

    def test_tiles(self):
        """Tiles of 128 and 8 voxels beside one another, beside leaves, and beside the background."""
        values = np.zeros((272, 136, 136), np.int32)
        values[:256, :128, :128] = 1
        values[128:256, :128, :128] = 2
        values[256:264, 3:50, 8:16] = 1
        values[40:60, 128:136, 16:40] = 1
        values[100:150, 130, 5:100] = 2
        values[264:272, 128:136, 128:136] = 3
        values[200, 127, 127] = 1
        grid = scenefile.Grid.from_array(values, origin=(-128, -4096, 2**31 - 256))
        self.assertEqual((grid.tile_counts[8] > 4000, grid.tile_counts[128]), (True, 1))
        self.check(grid, {value: values == value for value in (1, 2, 3)})

    def test_large_tiles(self):
        """A cube of 4,096 voxels beside smaller tiles and voxels: its inside costs nothing. Volumes and areas are counted by hand."""
        leaf = [(0, (2, 5)), (1, (2, 7)), (511, (1, 3))]
        above = [(0, (2, 5)), (1, (2, 7)), (2, [(0, (2, 5)), (1, leaf), (2, (2, 7))])]
        below = [(31 << 10, [(15 << 8, [(7 << 6, (2, 7)), (7 << 6 | 2, (2, 5))]), (15 << 8 | 1 << 4, (2, 5))]), (31 << 10 | 1 << 5, (2, 7))]
        grid = grid_of(1, [
            ((-1, 0, 0), below), ((0, 0, 0), (2, 5)), ((0, 0, 1), [(0, [(0, [(0, (2, 7))])])]), ((0, 1, 0), [(0, (2, 5))]),
            ((1, 0, 0), above),
        ])  # fmt: skip
        volumes = {5: 4096**3 + 2 * 128**3 + 2 * 8**3 + 2, 7: 2 * 128**3 + 8**3 + 3}
        # each cube has six sides, less two for each pair of sides of one label that touch: here all of label 5 touch the large one,
        # and one voxel touches a cube of eight
        areas = {5: 6 * (4096**2 + 2 * 128**2 + 2 * 8**2 + 2) - 2 * (2 * 128**2 + 2 * 8**2 + 2) - 2, 7: 6 * (2 * 128**2 + 8**2 + 3)}
        found = faces(grid._tree, np.array([5, 7], np.int32), 10**6, unit=False)
        self.assertEqual(int(found.sides.astype(np.int64).prod(axis=1).sum()), sum(areas.values()))
        mesh = mesh_of(merged(found))
        self.assertLess(len(mesh.quads), 200)
        for place, value in enumerate((5, 7)):
            corners = mesh.corners[mesh.triangles[np.repeat(mesh.label == place, 2)]]
            self.assertEqual(volume(corners), volumes[value])
            self.assertEqual(area(corners), areas[value])
        with self.assertRaisesRegex(vdb.RangeError, "more than max_faces = 1,000,000 faces"):
            faces(grid._tree, np.array([5], np.int32), 10**6)

    def test_far_corners(self):
        """Voxels at opposite ends of all coordinates in one mesh."""
        far = grid_of(2, [
            ((-(2**19),) * 3, [(0, [(0, [(0, (2, 2**63 - 1))])])]), ((2**19 - 1,) * 3, [(32767, [(4095, [(511, (2, 2**63 - 1))])])]),
        ])  # fmt: skip
        self.assertEqual(far.bounds, ((LEAST,) * 3, (MOST,) * 3))
        for unit in (True, False):
            mesh = mesh_of(merged(faces(far._tree, far.labels().values, 12, unit=unit)))
            self.assertEqual((len(mesh.quads), len(mesh.corners)), (12, 16))
            self.assertEqual((mesh.corners.min(), mesh.corners.max()), (LEAST, MOST + 1))
            self.assertTrue(is_closed(mesh.triangles))
            for end in (mesh.corners[mesh.triangles[:, 0], 0] < 0, mesh.corners[mesh.triangles[:, 0], 0] > 0):
                self.assertEqual(volume(mesh.corners[mesh.triangles[end]]), 1)
        with self.assertRaises(vdb.RangeError):
            faces(far._tree, far.labels().values, 11)

    def test_past_the_last_block(self):
        """Past the last root block along z there is nothing, although the next row of root blocks begins with a voxel."""
        first = [(0, [(0, [(0, (2, 1))])])]
        for axis in (1, 2):
            ends = [[0, 0, 0], [0, 0, 0]]
            ends[0][axis], ends[1][axis], ends[1][axis - 1] = 2**19 - 1, -(2**19), 1
            place = (31 << 5, 15 << 4, 7 << 3) if axis == 1 else (31, 15, 7)
            last = [(place[0], [(place[1], [(place[2], (2, 1))])])]
            grid = grid_of(1, [(tuple(ends[0]), last), (tuple(ends[1]), first)])
            self.assertEqual(len(faces(grid._tree, np.array([1], np.int32), 99).low), 12)

    def test_outer_faces(self):
        """Without the faces between labels the surface is that of all of them together."""
        values = np.random.default_rng(5).integers(0, 4, (20, 17, 9)).astype(np.int32)
        grid = scenefile.Grid.from_array(values, origin=(-4, 4090, 0))
        found = faces(grid._tree, grid.labels().values, 10**5, outer=True)
        self.assertEqual(len(found.low), face_count(values != 0))
        mesh = mesh_of(found)
        self.assertTrue(is_closed(mesh.triangles))
        self.assertEqual(volume(mesh.corners[mesh.triangles]), np.count_nonzero(values))


def read_ply(data):
    """The corners of the triangles of a PLY file (n x 3 x 3), their labels and colours, and the triangles as numbers of corners."""
    head, _, body = data.partition(b"end_header\n")
    lines = head.decode("ascii").splitlines()
    assert lines[:2] == ["ply", "format binary_little_endian 1.0"], lines
    form = {}
    for words in (line.split() for line in lines[2:]):
        if words[0] == "element":
            fields = form[words[1]] = (int(words[2]), [])
        elif words[1] == "list":
            fields[1].extend([("count", TYPES[words[2]]), (words[4], TYPES[words[3]], 3)])
        elif words[0] == "property":
            fields[1].append((words[2], TYPES[words[1]]))
    vertices = np.frombuffer(body, form["vertex"][1], form["vertex"][0])
    rows = np.frombuffer(body, form["face"][1], form["face"][0], vertices.nbytes)
    assert vertices.nbytes + rows.nbytes == len(body) and (rows["count"] == 3).all()
    places = np.stack([vertices[axis] for axis in "xyz"], axis=1)
    colours = np.stack([vertices[part] for part in ("red", "green", "blue")], axis=1)
    triangles = rows["vertex_indices"]
    assert (vertices["label"][triangles] == vertices["label"][triangles[:, :1]]).all() and len(np.unique(triangles)) == len(vertices)
    return places[triangles], vertices["label"][triangles[:, 0]], colours[triangles[:, 0]], triangles


def read_obj(data):
    """The corners of the triangles of an OBJ file, their labels, and the triangles as numbers of corners."""
    places, triangles, labels = [], [], []
    for kind, *words in (line.split() for line in data.decode("ascii").splitlines()):
        if kind == "v":
            places.append([float(word) for word in words])
        elif kind == "g":
            label = int(re.fullmatch(r"label_(-?\d+)", words[0])[1])
        elif kind == "f":
            triangles.append([int(word) - 1 for word in words])
            labels.append(label)
        else:
            assert kind in "#o", kind
    triangles = np.array(triangles)
    return np.array(places)[triangles], np.array(labels), triangles


def read_glb(data):
    """The corners of the triangles of each mesh of a glTF file in the world, by the name of its material, and the JSON."""
    magic, version, length, size, kind = struct.unpack_from("<4sIIII", data)
    assert (magic, version, length, kind) == (b"glTF", 2, len(data), 0x4E4F534A) and size % 4 == 0
    about, (count, kind) = json.loads(data[20 : 20 + size]), struct.unpack_from("<II", data, 20 + size)
    assert kind == 0x004E4942 and count == about["buffers"][0]["byteLength"] == len(data) - 28 - size
    matrix = np.array(about["nodes"][0]["matrix"]).reshape(4, 4).T

    def array(number):
        accessor = about["accessors"][number]
        view = about["bufferViews"][accessor["bufferView"]]
        wide = {"VEC3": 3, "SCALAR": 1}[accessor["type"]]
        form = {5126: "<f4", 5125: "<u4"}[accessor["componentType"]]
        begin, inner = view["byteOffset"], accessor.get("byteOffset", 0)
        assert inner + 4 * wide * accessor["count"] <= view["byteLength"]
        return np.frombuffer(data, form, wide * accessor["count"], 28 + size + begin + inner).reshape(-1, wide)

    found = {}
    for node in about["nodes"][0]["children"]:
        (part,) = about["meshes"][about["nodes"][node]["mesh"]]["primitives"]
        places = array(part["attributes"]["POSITION"])
        accessor = about["accessors"][part["attributes"]["POSITION"]]
        assert (places.min(axis=0).tolist(), places.max(axis=0).tolist()) == (accessor["min"], accessor["max"])
        world = places.astype(np.float64) @ matrix[:3, :3].T + matrix[:3, 3]
        triangles = array(part["indices"]).reshape(-1, 3)
        if np.linalg.det(matrix[:3, :3]) < 0:  # glTF: such triangles run the other way
            triangles = triangles[:, ::-1]
        found[about["materials"][part["material"]]["name"]] = world[triangles], triangles
    return found, about


class Files(CommandCase):
    AFFINES = {
        "plain": (None, 1.0), "scaled": ([[0.5, 0, 0, 10], [0, 0, 2, -3], [0, 0.25, 0, 0]], -0.25),
        "sheared": ([[2, 0.5, 0, 1], [0, 1, 0.25, 0], [0, 0, 3, 7]], 6.0),
    }  # fmt: skip

    def setUp(self):
        super().setUp()
        self.values = np.random.default_rng(2).integers(-1, 3, (9, 10, 8)).astype(np.int32) * 1000
        self.counts = {value: int((self.values == value).sum()) for value in (-1000, 1000, 2000)}

    def save(self, affine=None, origin=(-20, 5, 4090)):
        grid = scenefile.Grid.from_array(self.values, origin=origin)
        for axis, row in zip("xyz", affine or []):
            grid.metadata[f"affine_{axis}"] = ",".join(map(str, row))
        scenefile.Scene({"lab": grid, "none": scenefile.Grid("i32")}).save("a.vdbs")

    def test_formats(self):
        """Each format gives each label its volume in the world, outward and closed, with and without joined faces."""
        for (affine, factor) in self.AFFINES.values():
            self.save(affine)
            for words in ([], ["--merge"]):
                for ending in ("ply", "obj", "glb"):
                    self.run_it("mesh", "a.vdbs", "lab", f"out.{ending}", *words)
                    data = (self.folder / f"out.{ending}").read_bytes()
                    if ending == "glb":
                        found = {int(name.split()[1]): part for name, part in read_glb(data)[0].items()}
                    else:
                        corners, labels, *_, triangles = (read_ply if ending == "ply" else read_obj)(data)
                        found = {value: (corners[labels == value], triangles[labels == value]) for value in np.unique(labels).tolist()}
                    self.assertEqual({*found}, {*self.counts})
                    for value, (corners, triangles) in found.items():
                        self.assertAlmostEqual(volume(corners), abs(factor) * self.counts[value], places=6)
                        self.assertEqual(len(triangles) < 2 * face_count(self.values == value), bool(words))
                        self.assertTrue(words or is_closed(triangles))

    @unittest.skipUnless(importlib.util.find_spec("meshio"), "the package meshio is missing: Debian has it as python3-meshio")
    def test_another_program_reads_ply(self):
        """meshio reads the corners, the triangles and the label of each corner."""
        import meshio

        self.save()
        self.run_it("mesh", "a.vdbs", "lab", "out.ply")
        found = meshio.read(self.folder / "out.ply")
        (triangles,) = [it.data for it in found.cells if it.type == "triangle"]
        labels = found.point_data["label"][triangles[:, 0]]
        self.assertEqual({*labels.tolist()}, {*self.counts})
        for value, count in self.counts.items():
            self.assertEqual(volume(found.points[triangles[labels == value]]), count)

    def test_places(self):
        """Voxel x reaches from x - 0.5 to x + 0.5, and the affine maps that to the world."""
        self.values = np.ones((2, 1, 1), np.int32)
        self.save([[2, 0, 0, 0], [0, 1, 0, 0.5], [0, 0, -1, 0]], (3, MOST, LEAST))
        ends = np.array([[5, MOST, 2.0**31 - 0.5], [9, MOST + 1, 2.0**31 + 0.5]])
        for ending, read in (("ply", read_ply), ("obj", read_obj)):
            self.run_it("mesh", "a.vdbs", "lab", f"out.{ending}")
            corners = read((self.folder / f"out.{ending}").read_bytes())[0].reshape(-1, 3)
            np.testing.assert_array_equal([corners.min(axis=0), corners.max(axis=0)], ends)
        self.run_it("mesh", "a.vdbs", "lab", "out.glb")
        corners = read_glb((self.folder / "out.glb").read_bytes())[0]["label 1"][0].reshape(-1, 3)
        np.testing.assert_array_equal([corners.min(axis=0), corners.max(axis=0)], ends)

    def test_labels(self):
        """Chosen labels alone, and the colours: PLY has them as they are, glTF linear."""
        self.save()
        self.run_it("mesh", "a.vdbs", "lab", "out.ply", "--label", "2000", "--label", "-1000", "--label", "2000")
        corners, labels, colours, _ = read_ply((self.folder / "out.ply").read_bytes())
        self.assertEqual(np.unique(labels).tolist(), [-1000, 2000])
        for value in (-1000, 2000):
            self.assertEqual(volume(corners[labels == value]), self.counts[value])
            self.assertEqual(len(np.unique(colours[labels == value], axis=0)), 1)
        self.run_it("mesh", "a.vdbs", "lab", "out.glb", "--label", "2000")
        found, about = read_glb((self.folder / "out.glb").read_bytes())
        self.assertEqual([*found], ["label 2000"])
        (material,) = about["materials"]
        self.assertNotIn("doubleSided", material)
        colour = np.array(material["pbrMetallicRoughness"]["baseColorFactor"])
        back = np.where(colour <= 0.0031308, 12.92 * colour, 1.055 * colour ** (1 / 2.4) - 0.055)
        np.testing.assert_allclose(back[:3] * 255, colours[labels == 2000][0], atol=0.5)

    def test_kinds(self):
        """Booleans, and values of 64 bits, which PLY doesn't hold."""
        wide = scenefile.Grid.from_array(np.array([[[2**40, 7]]], np.int64))
        scenefile.Scene({"wide": wide, "flag": scenefile.Grid.from_array(np.ones((1, 2, 3), np.bool_))}).save("a.vdbs")
        self.run_it("mesh", "a.vdbs", "flag", "out.ply", "--label", "true")
        self.assertEqual(volume(read_ply((self.folder / "out.ply").read_bytes())[0]), 6)
        self.run_it("mesh", "a.vdbs", "wide", "out.ply", "--label", "7")
        kept = (self.folder / "out.ply").read_bytes()
        self.fails("mesh", "a.vdbs", "wide", "out.ply", told="out.ply: PLY has no integers of 64 bits for the label 1099511627776")
        self.assertEqual((self.folder / "out.ply").read_bytes(), kept)
        for ending in ("glb", "obj"):
            self.run_it("mesh", "a.vdbs", "wide", f"out.{ending}")
        self.assertEqual({*read_glb((self.folder / "out.glb").read_bytes())[0]}, {"label 7", "label 1099511627776"})
        self.assertEqual({*read_obj((self.folder / "out.obj").read_bytes())[1].tolist()}, {7, 2**40})

    def test_errors(self):
        self.save()
        self.fails("mesh", "a.vdbs", "lab", "out.stl", told="out.stl: the ending is none of .ply, .glb, .obj")
        self.fails("mesh", "a.vdbs", "lab", "out.ply", "--label", "5", told="a.vdbs: no active voxel of lab has the value 5")
        self.fails("mesh", "a.vdbs", "lab", "out.ply", "--label", "true", told="integer")
        self.fails("mesh", "a.vdbs", "none", "out.ply", told="a.vdbs: no voxel of none is active")
        self.fails("mesh", "a.vdbs", "lab", "out.ply", "--max-faces", "99", told="a.vdbs: the labels have more than max_faces = 99 faces")
        with mock.patch("vdb.command.mesh_files.MOST_BYTES", 4000):
            self.fails("mesh", "a.vdbs", "lab", "out.glb", told="bytes is too long for glTF: write .ply or .obj")
        for rows, told in (([[1, 0, 0, 0], [2, 0, 0, 0], [0, 0, 1, 0]], "has no inverse"), ([["a"], [1], [2]], "four numbers")):
            self.save(rows)
            self.fails("mesh", "a.vdbs", "lab", "out.ply", told=told)
        self.assertFalse((self.folder / "out.ply").exists())
        far = grid_of(1, [((0, 0, 0), [(0, [(0, [(0, (2, 1))])])]), ((5000, 0, 0), [(0, [(0, [(0, (2, 1))])])])])
        scenefile.Scene({"far": far}).save("a.vdbs")
        self.fails("mesh", "a.vdbs", "far", "out.glb", told="out.glb: the faces span 20,480,001 voxels")
        self.run_it("mesh", "a.vdbs", "far", "out.obj")
        self.assertEqual(volume(read_obj((self.folder / "out.obj").read_bytes())[0]), 2)

    def test_progress(self):
        self.save()
        errors = io.StringIO()
        errors.isatty = lambda: True
        with mock.patch("vdb.command.common.DELAY", 0), contextlib.redirect_stderr(errors):
            self.assertEqual(main(["mesh", "a.vdbs", "lab", "out.ply"]), 0)
        self.assertRegex(errors.getvalue(), r"\rfinding faces in a.vdbs: 100%[^\r\n]* voxels/s\]\n\Z")

    def test_same_bytes(self):
        """The same grid gives the same file, whatever the order of the labels asked for."""
        grid = scenefile.Grid.from_array(self.values)
        models = [model_of(grid, "lab", chosen) for chosen in ([1000, 2000], [2000, 1000, 1000])]
        for one, other in zip(models[0].mesh, models[1].mesh):
            np.testing.assert_array_equal(one, other)


if __name__ == "__main__":
    unittest.main()
