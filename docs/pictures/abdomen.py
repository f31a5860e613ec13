#!/usr/bin/env python3
# SPDX-License-Identifier: Apache-2.0
"""Draws the picture of README: abdomen.py [OUT.png]

It makes an abdomen of implicit shapes with smooth noise, as labels and as a gray image, opens the page of `vdb-scene view` in Chromium, cuts
the faces open, and takes a picture of the window. It needs python3-nibabel, python3-scipy, python3-pil and chromium.
"""
import os
import subprocess
import sys
import tempfile
from pathlib import Path

import nibabel
import numpy as np
from PIL import Image
from scipy import ndimage

TOP = Path(__file__).resolve().parents[2]
sys.path[:0] = [str(TOP / "python"), str(TOP / "tests" / "python")]

import browser  # noqa: E402
from vdb import label_names  # noqa: E402

SHAPE = (224, 160, 208)
SPACING = 1.7  # mm
CROSSHAIR = (128, 86, 128)
# the gray value of a label, and its name and colour, in the order in which they are drawn
ORGANS = {
    1: (110, "liver", (158, 84, 66)), 2: (125, "spleen", (150, 92, 150)), 3: (140, "kidney-right", (206, 132, 80)),
    4: (140, "kidney-left", (206, 132, 80)), 5: (85, "stomach", (196, 164, 120)), 6: (100, "pancreas", (222, 188, 90)),
    7: (30, "gallbladder", (92, 150, 76)), 8: (180, "aorta", (206, 62, 56)), 9: (160, "vena-cava", (66, 104, 190)),
    10: (150, "hepatic-vessels", (92, 132, 214)), 11: (60, "tumour", (238, 222, 70)), 12: (330, "spine", (226, 218, 196)),
    13: (300, "ribs", (226, 218, 196)),
}  # fmt: skip
X, Y, Z = np.ogrid[: SHAPE[0], : SHAPE[1], : SHAPE[2]]
CHANCE = np.random.default_rng(3)
NOISE = ndimage.zoom(CHANCE.standard_normal([side // 16 for side in SHAPE]).astype(np.float32), 16, order=3)


def blob(centre, radii, rough=0.12, lean=(0, 0)):
    """An ellipsoid whose surface is rough, as a mask. It leans along x and y by `lean` voxels for each voxel of z."""
    x, y, z = (axis - at for axis, at in zip((X, Y, Z), centre))
    form = ((x - lean[0] * z) / radii[0]) ** 2 + ((y - lean[1] * z) / radii[1]) ** 2 + (z / radii[2]) ** 2
    return form + rough * np.roll(NOISE, tuple(centre), (0, 1, 2)) <= 1


def tube(points, radii):
    """The voxels near a polyline, whose radius goes from the first to the second of `radii`."""
    points, made = np.asarray(points, float), np.zeros(SHAPE, bool)
    lengths = np.r_[0, np.cumsum(np.linalg.norm(np.diff(points, axis=0), axis=1))]
    for along in np.arange(0, lengths[-1], 0.7):
        x, y, z = at = [np.interp(along, lengths, column) for column in points.T]
        radius = np.interp(along, [0, lengths[-1]], radii)
        box = [slice(max(0, int(it - radius)), max(0, int(it + radius) + 2)) for it in at]
        near = (X[box[0]] - x) ** 2 + (Y[:, box[1]] - y) ** 2 + (Z[:, :, box[2]] - z) ** 2
        made[tuple(box)] |= near <= radius**2
    return made


def branches(start, direction, radius, depth):
    """Yields the tubes of a tree of vessels."""
    end = np.add(start, np.multiply(direction, 6 + 5 * depth))
    yield [start, end], (radius, radius * 0.75)
    for side in (-1, 1) if depth else ():
        turned = np.add(direction, side * 0.7 * np.cross(direction, CHANCE.standard_normal(3)) + 0.15 * CHANCE.standard_normal(3))
        yield from branches(end, turned / np.linalg.norm(turned), radius * 0.75, depth - 1)


def rib(height, side):
    """The points of a rib, from the spine around the body to the front, falling."""
    angles = np.linspace(-0.47 * np.pi, 0.3 * np.pi, 60)
    return [(112 + side * 92 * np.cos(it), 80 + 62 * np.sin(it), height - 14 * (it + 1.5)) for it in angles]


def labels():
    """The labels of the abdomen."""
    made = np.zeros(SHAPE, np.uint8)
    liver = blob((154, 88, 138), (44, 48, 42), lean=(-0.15, 0)) | blob((112, 106, 150), (44, 24, 22))
    liver &= Z + 0.35 * (X - 150) + 0.2 * (Y - 90) > 96
    made[liver] = 1
    made[blob((46, 60, 142), (17, 25, 30), lean=(0.1, 0.1))] = 2
    for label, (x, z), side in ((3, (160, 86), -1), (4, (66, 96), 1)):
        kidney = blob((x, 46, z), (15, 13, 27), 0.07, (side * 0.18, 0.1))
        made[kidney & ~blob((x + side * 15, 50, z), (9, 8, 9), 0.05)] = label
    made[blob((76, 98, 138), (24, 22, 36), 0.1, (-0.25, -0.2)) & (made == 0)] = 5
    made[tube([(132, 74, 100), (112, 84, 108), (86, 74, 116), (62, 66, 128)], (11, 6)) & (made == 0)] = 6
    made[blob((146, 112, 102), (9, 10, 17), 0.05, (0.2, 0.3))] = 7
    for points, radii in (
        ([(105, 54, 207), (103, 56, 120), (106, 58, 44)], (8, 7)), ([(106, 58, 46), (88, 64, 0)], (5, 5)), ([(106, 58, 46), (126, 64, 0)], (5, 5)),
        ([(104, 56, 98), (80, 52, 96)], (3, 3)), ([(104, 56, 92), (146, 50, 88)], (3, 3)),
    ):  # fmt: skip
        made[tube(points, radii)] = 8
    made[tube([(128, 72, 207), (122, 60, 130), (120, 56, 30)], (8, 8)) | tube([(120, 58, 90), (148, 48, 86)], (4, 4))] = 9
    for start, direction in (((128, 74, 156), (0.7, 0.6, 0)), ((126, 76, 124), (0.8, 0.3, 0.5)), ((120, 84, 152), (-0.5, 0.8, -0.1))):
        for points, radii in branches(start, direction, 3.6, 4):
            made[tube(points, radii) & liver & (made == 1)] = 10
    made[blob((158, 98, 134), (13, 12, 12), 0.2)] = 11
    bodies = (((X - 112) / 15) ** 2 + ((Y - 36) / 12) ** 2 <= 0.85 + 0.25 * np.cos(2 * np.pi * Z / 25) ** 2) & (Z % 25 < 20)
    arches = (abs(X - 112) < 3) & (Y < 26) & (Y > 9 + 0.3 * (Z % 25)) & (Z % 25 < 13)
    arches |= (abs(X - 112) < 28) & (abs(Y - 27) < 3) & (abs(Z % 25 - 9) < 4)
    made[bodies | arches] = 12
    for height in range(92, 300, 24):
        for side in (-1, 1):
            made[tube(rib(height, side), (3.4, 3.0)) & (made == 0)] = 13
    return made


def gray(found):
    """A gray image of the labels, in Hounsfield units: air, skin, fat, soft tissue, and the organs, with noise."""
    body = ((X - 112) / 106.0) ** 2 + ((Y - 80) / 74.0) ** 2 + 0.03 * NOISE
    image = np.select([body > 1, body > 0.97, body > 0.86], [-1000, 20, -100], 45 + 25 * NOISE).astype(np.float32)
    for label, (value, _, _) in ORGANS.items():
        image[found == label] = value
    image = ndimage.gaussian_filter(image, 0.7)
    return (image + 12 * CHANCE.standard_normal(SHAPE, np.float32)).astype(np.int16)


def shot(page):
    """A picture of the page, with the crosshair in the liver and the faces cut open there."""
    browser.SECONDS = 3600
    others = [it for it in browser.FLAGS if not it.startswith("--window-size")]
    browser.FLAGS = (*others, "--window-size=1080,750", "--disable-accelerated-2d-canvas", "--disable-gpu-rasterization")
    with browser.Browser() as window:
        window.call("Page.navigate", url=f"file://{page}")
        window.wait("document.documentElement?.dataset.state")
        before = window.value("Number(document.documentElement.dataset.frames)")
        window.value(f"move({list(CROSSHAIR)}.map((part, axis) => part - about.origin[axis])); $('#cut').click(); opacity = 0.75; true")
        window.wait(f"document.documentElement.dataset.frames > {before}")
        return window.screenshot()


def main():
    out = Path(sys.argv[1] if len(sys.argv) > 1 else TOP / "docs" / "pictures" / "abdomen.png").resolve()
    with tempfile.TemporaryDirectory() as folder:
        os.chdir(folder)
        found, affine = labels(), np.diag([SPACING, SPACING, SPACING, 1])
        for name, array in (("abdomen", found), ("ct", gray(found))):
            image = nibabel.Nifti1Image(array, affine)
            image.header.set_xyzt_units("mm")
            nibabel.save(image, f"{name}.nii.gz")
        label_names.write("abdomen.tsv", {label: label_names.Label(name, colour) for label, (_, name, colour) in ORGANS.items()})
        words = ["view", "abdomen.nii.gz", "abdomen.html", "--beneath", "ct.nii.gz", "--window", "-160", "300"]
        subprocess.run([sys.executable, "-m", "vdb", *words], env={**os.environ, "PYTHONPATH": str(TOP / "python")}, check=True)
        Path("shot.png").write_bytes(shot(f"{folder}/abdomen.html"))
        Image.open("shot.png").convert("RGB").quantize(256, dither=Image.Dither.NONE).save(out, optimize=True)


if __name__ == "__main__":
    main()
