# SPDX-License-Identifier: Apache-2.0
"""The tables of speed for readers, in README and docs/BENCHMARKS.md: the calls that they make, beside the libraries that they would use.

They are made from results.txt alone, so anyone can compare them with it. A row that no run has measured yet is left out.
"""
import re

from .tables import line, short, verdict

# each subject of the summary, and its table in results.txt
SUBJECTS = {
    "whole scripts: time": "Scripts",
    "calls of the crates: time": "Library",
    "calls of the C library: time": "C library",
    "bytes per active voxel, by density": "Memory against density",
    "memory of a grid of one voxel": "Memory of a grid of one voxel",
    "time per voxel, 10^4 to 10^8 voxels": "Time by size",
    "memory per voxel, 10^4 to 10^8 voxels": "Memory by size",
    "scene files: size, load, load and save": "Scene files",
    "Python: arrays without the library": "Python package, arrays",
    "Python: arrays through the library": "Python package, arrays and the engine",
    "Python: labels measured": "Python package, labels measured",
    "Python: booleans": "Python package, booleans",
    "Python: volumes past memory": "Python package, volumes past memory",
}
# for each table of results.txt its rows, with what readers call them, and the peer's column if it isn't the first one. README has those with a +
CALLS = {
    "C library": {
        "+C: set a voxel by an accessor": "C, sets by an accessor in order, new leaves",
        "C: set many voxels in order": "C, sets of many voxels in order",
        "+C: get a voxel, no accessor": "C, gets without an accessor in order",
        "+C: get a voxel by an accessor": "C, gets by an accessor in order",
        "C: get many voxels, random walk": "C, gets of many voxels along a random walk",
        "+C: array to new grid, per voxel": "C, an array to a new grid",
        "+C: array to box, per voxel": "C, an array to a box",
        "+C: box to array, per voxel": "C, a box to an array",
        "+C: fill a box, sides to 64": "C, fills of boxes",
        "C: count in 4,000 boxes": "C, count of boxes",
        "+C: dilate 4,000 boxes twice": "C, dilation of boxes",
        "+C++: loop over active voxels, per voxel": "C++, a loop over active voxels",
    },
    "Scene files": {
        "+file of three sparse grids": "three grids of 434,000 scattered voxels, i32: size",
        "+load three sparse grids": "three grids of 434,000 scattered voxels, i32: load",
        "+file of two dense masks": "two masks of 300 boxes, bool: size",
        "+load two dense masks": "two masks of 300 boxes, bool: load",
    },
    "Python package, labels measured": {
        "+Python: measure 12 organs, 512³": "12 organs: measure",
        "+Python: components of 12 organs, 512³": "12 organs: components",
        "Python: open an organ thrice": "12 organs: open, 3 iterations",
        "Python: fill the holes of an organ": "12 organs: fill_holes",
        "+Python: a margin of 8 voxels, 512³": "12 organs: margin, 8 voxels",
        "+Python: measure touching cells, 256³": "touching cells: measure",
    },
    "Python package, arrays and the engine": {
        "+Python: spheres, 512³, array to grid": "spheres: into a grid",
        "Python: spheres, 512³, grid to array": "spheres: out of a grid",
        "+Python: spheres, 512³, array to file": "spheres: to a file",
        "Python: spheres, 512³, file to array": "spheres: from a file",
        "+Python: noise, 512³, array to file": "single voxels: to a file",
    },
    "Python package, booleans": {
        "Python: a mask, 512³, array to grid": "from an array",
        "Python: count a mask, 512³": "number of active voxels",
    },
    "Python package, volumes past memory": {
        "+Python: cells, 1,024³, to a store": "1024^3 cells: write",
        "+Python: cells, 1,024³, dilated twice": "1024^3 cells: dilate",
    },
}
SCALES = {"s": 1e9, "ms": 1e6, "us": 1e3, "ns": 1}
GROUPS = {"vdb": "Faster or smaller", "peer": "Slower or larger", "tie": "Tie"}


def rows_of(results):
    """Returns the rows of each table of results.txt, by the titles: the cells of a row by the headings, and its unit."""
    found = {}
    for title, body in re.findall(r"(?ms)^### (.*?)\n(.*?)(?=^##|\Z)", results):
        heads, _, *rows = [[cell.strip() for cell in it.split("|")[1:-1]] for it in re.findall(r"(?m)^\|.*\|$", body)]
        unit = re.search(r"Figures are in (.*?)\.$", body, re.M)
        found[title] = {row[0]: {"Unit": unit and unit[1], **dict(zip(heads, row))} for row in rows}
    return found


def numbers_of(cell):
    """Returns the median of a cell, and the least and the greatest of all runs."""
    found = [float(it.replace(",", "")) for it in re.findall(r"\d[\d,]*(?:\.\d+)?", cell)]
    return [*found, found[0], found[0]][:3]


def shown(cell, unit, with_spread):
    """Returns a figure in a unit that readers know."""
    unit, numbers = unit.partition(" per ")[0], numbers_of(cell)
    if unit in SCALES:
        numbers = [it * SCALES[unit] for it in numbers]
        unit = next((it for it, scale in SCALES.items() if numbers[0] >= scale), "ns")
        numbers = [it / SCALES[unit] for it in numbers]
    median, *spread = map(short, numbers)
    return f"{median} {unit}" + (f" ({' to '.join(spread)})" if with_spread and spread[0] != spread[1] else "")


def calls(results, whole):
    """Returns the tables of calls by who is ahead: all of them with their spreads, or those of README."""
    tables, groups = rows_of(results), {key: [] for key in GROUPS}
    for title, rows in CALLS.items():
        for label, name in rows.items():
            row = tables.get(title, {}).get(name)
            if not row or not (whole or label.startswith("+")):
                continue
            names = [it for it in row if it not in ("Row", "Unit") and row[it] != "-"][: 3 if row.get("zarr", "-") != "-" else 2]
            sizes = [it.strip() for it in row.get("Store", row["File"] if "file" in name else "").split(",") if it.strip()]
            figures = [shown(row[it], row["Unit"], whole) for it in names]
            figures = [f"{it}, {size}" for it, size in zip(figures, sizes)] + figures[len(sizes) :]
            peers = "; ".join(f"{it}: {figure}" for it, figure in [*zip(names, figures)][1:])
            groups[verdict(*(numbers_of(row[it]) for it in names[:2]))].append(line([label.lstrip("+"), figures[0], peers]))
    return ["\n".join([line([GROUPS[key], "vdb", "Peer"]), "|---|---|---|", *rows]) for key, rows in groups.items()]


def lacking(results):
    """Returns the rows of CALLS that results.txt hasn't."""
    tables = rows_of(results)
    return [f"{title}: {name}" for title, rows in CALLS.items() for name in rows.values() if name not in tables.get(title, {})]


def summary(results):
    """Returns the table of who is ahead how often."""
    lines = [line(["Subject", "Peer", "Rows", "vdb ahead", "Ties", "Peer ahead", "Mean ratio"]), line(["---"] * 7)]
    form = r"Of (\d+) rows with a peer vdb is ahead in (\d+), (.*?) in (\d+), and (\d+) are ties\. The geometric mean of the ratios is ([\d.]+)\."
    for subject, title in SUBJECTS.items():
        for rows, ours, peer, theirs, ties, mean in re.findall(rf"(?m)^### {re.escape(title)}\n(?:(?!##).*\n)*?{form}", results):
            lines.append(line([subject, peer, rows, ours, ties, theirs, mean]))
    return "\n".join(lines)


def machine(results):
    """Returns the table of the machine and the run."""
    facts = re.findall(r"(?m)^\| ([A-Z][^|]+) \| ([^|]+) \|$", results.partition("\n## ")[0])
    return "\n".join([line(["Machine", "and run"]), "|---|---|", *map(line, facts)])


def made(results):
    """Returns all tables of BENCHMARKS."""
    return [machine(results), summary(results), *calls(results, True)]
