# SPDX-License-Identifier: Apache-2.0
"""Calls of the crates' libraries and of the C library, beside loops over OpenVDB's."""
import re
import subprocess

from . import programs
from .parts import KEEP, KEEPING, in_turn, row, table, tell
from .play import LIMIT
from .programs import Failed

BENCHMARKS = ("accessors", "tree", "walks", "boxes", "pairs")

# OpenVDB's call in each row: the first pattern that a row's name begins with
CALLS = {
    "accessor, writes": "ValueAccessor::setValue",
    "accessor, reads": "ValueAccessor::getValue",
    "grid, reads": "Tree::getValue",
    "tree, writes": "Tree::setValue",
    "tree, reads": "Tree::probeValue",
    "tree, pass": "Tree::cbeginLeaf",
    "prune": "tools::prune",
    "count": "tools::countActiveVoxels",
    "bounding box": "Tree::evalActiveVoxelBoundingBox",
    "census": "a copy, tools::prune, Tree::nodeCount",
    "list": "Tree::cbeginValueOn",
    "fill": "Tree::fill",
    "clip": "Tree::clip",
    "union": "Tree::topologyUnion",
    "intersection": "Tree::topologyIntersection",
    "difference": "Tree::topologyDifference",
    "sum": "a copy, tools::compSum",
    "maximum": "a copy, tools::compMax",
    "replacement": "tools::compReplace",
    "C, sets": "ValueAccessor::setValue",
    "C, gets without": "Tree::probeValue",
    "C, gets": "ValueAccessor::probeValue",
    "C, a box": "tools::copyToDense",
    "C, an array": "tools::copyFromDense",
    "C, leaves": "Tree::cbeginLeaf",
    "C, fills": "Tree::fill",
    "C, count": "tools::countActiveVoxels",
    "C, dilation": "tools::dilateActiveValues",
    "C++, a loop": "Tree::cbeginValueOn",
}

# rows whose two sides do not do the same, and why: each pattern is the beginning of a row's name
UNLIKE = {
    "census": "OpenVDB has no census, so a copy is pruned and its nodes are counted",
    "sum": "OpenVDB's call empties the second tree, so it gets a copy",
    "maximum": "OpenVDB's call empties the second tree, so it gets a copy",
    "C, leaves": "the C library copies leaves, and OpenVDB lends its own",
}


def run(command):
    """Runs a benchmark, and returns its rows with nanoseconds and unit, and the line of its sums."""
    try:
        ran = subprocess.run(command, stdin=subprocess.DEVNULL, capture_output=True, text=True, errors="replace", timeout=LIMIT)
    except subprocess.TimeoutExpired:
        raise Failed(f"{' '.join(command)} hadn't ended after {LIMIT} seconds") from None
    if ran.returncode:
        raise Failed(f"{' '.join(command)} ended with status {ran.returncode}: {ran.stderr.strip()[:300]}")
    rows = {name: (int(picos) / 1000, unit) for name, picos, unit in re.findall(r"(?m)^(.+): (\d+) ps a (\w+)$", ran.stdout)}
    sums = re.search(r"(?m)^sums (.*)$", ran.stdout)
    if not rows or not sums:
        raise Failed(f"{' '.join(command)} printed no row or no sums")
    return rows, sums[1]


def measure_benchmark(name, commands, runs):
    """Runs a benchmark on each library in turn, and returns its rows, and what differed if anything did."""
    found = in_turn({key: lambda _, command=command: run(command) for key, command in commands.items()}, runs)
    sums = {key: {sums for _, sums in series} for key, series in found.items()}
    rows = []
    for title, (_, unit) in found["vdb"][0][0].items():
        series = {key: [each[0][title][0] for each in series] for key, series in found.items() if title in series[0][0]}
        call = next((f"`{text}`" for start, text in CALLS.items() if title.startswith(start)), "")
        unlike = next((why for start, why in UNLIKE.items() if title.startswith(start)), None)
        rows.append(row(title, f"ns per {unit}", series, unlike, **{"OpenVDB's call": call}))
    all_same = len(set.union(*sums.values())) == 1
    return rows, [] if all_same else [f"{name}: the results differ: {'; '.join(f'{key} {sorted(it)}' for key, it in sums.items())}"]


def measure(runs, quick):
    built = programs.build(BENCHMARKS, ["loops", "calls"])
    if isinstance(built["loops"], Failed):
        raise built["loops"]

    def rows_of(benchmarks, commands):
        """The rows of some benchmarks, and what failed."""
        rows, failed = [], []
        for number, name in enumerate(benchmarks, 1):
            tell(f"library, {name}", number, len(benchmarks))
            try:
                if isinstance(built[name], Failed):
                    raise built[name]
                more, differing = measure_benchmark(name, commands(name), runs)
                rows, failed = rows + more, failed + differing
            except Failed as failure:
                failed.append(str(failure))
        return rows, failed

    loops = built["loops"]
    def commands(name):
        one = [loops, name, "1"]
        return {"vdb": [built[name]], "one": one, "all": [loops, name, "all"], "keeps": [*KEEP, *one]}

    rows, failed = rows_of(BENCHMARKS, commands)
    c_rows, c_failed = rows_of(["calls"], lambda name: {"vdb": [built[name], "vdb"], "one": [built[name], "openvdb"]})
    if not rows and not c_rows:
        raise Failed("; ".join(dict.fromkeys(failed + c_failed)))
    note = "One call, or one voxel or leaf of it, in nanoseconds. vdb uses one thread. Trees have 4,096 full leaves of `i32` unless the row says otherwise."
    c_note = "The same through vdb.h, over 4,096 full leaves of `i64`. Both libraries use one thread."
    tables = table("Library", note, rows, KEEPING), table("C library", c_note, c_rows, {"vdb": "vdb", "one": "OpenVDB"})
    return [{**each, "failed": lost} for each, lost in zip(tables, (failed, c_failed))]
