# SPDX-License-Identifier: Apache-2.0
"""Prints the grids of a scene file: type, background, root limit, metadata,
active voxels, bounding box, root blocks, leaves and tiles."""
from __future__ import annotations

import argparse
import json
import os
from typing import Any, Dict

from ..scenefile import Grid
from .common import loaded, numbers_of, text_of

EXAMPLE = "info scene.vdbs --json"


def add_arguments(parser: argparse.ArgumentParser) -> None:
    parser.add_argument("file", metavar="FILE", help="a scene file")
    parser.add_argument("--json", action="store_true", help="print JSON")


def run(arguments: argparse.Namespace) -> None:
    scene = loaded(arguments.file)
    reports = [report_of(name, grid) for name, grid in scene.items()]
    size = os.path.getsize(arguments.file)
    if arguments.json:
        print(json.dumps({"path": arguments.file, "bytes": size, "grids": reports}, indent=2))
        return
    print(f"{arguments.file}: {plural(size, 'byte')}, {plural(len(reports), 'grid')}")
    for report in reports:
        tiles = ", ".join(f"{count:,} of {side}" for side, count in report["tiles"].items())
        rows = [
            ("kind", report["kind"]),
            ("background", text_of(report["background"])),
            ("limit", f"{report['limit']:,}"),
            *(("metadata", f"{key} {text}") for key, text in report["metadata"].items()),
            ("active voxels", f"{report['count']:,}"),
            ("bounds", numbers_of(report["bounds"]) if report["bounds"] else "none"),
            ("root blocks", f"{report['root_blocks']:,}"),
            ("leaves", f"{report['leaves']:,}"),
            ("tiles", tiles),
        ]
        print(f"\n{report['name']}", *(f"  {what:<15}{value}" for what, value in rows), sep="\n")


def report_of(name: str, grid: Grid) -> Dict[str, Any]:
    """Returns what the command reports of a grid."""
    return {
        "name": name,
        "kind": grid.kind,
        "background": grid.background,
        "limit": grid.limit,
        "metadata": dict(grid.metadata),
        "count": grid.count,
        "bounds": grid.bounds,
        "root_blocks": grid.root_blocks,
        "leaves": grid.leaf_count,
        "tiles": {str(side): count for side, count in grid.tile_counts.items()},
    }


def plural(count: int, what: str) -> str:
    return f"{count:,} {what}{'' if count == 1 else 's'}"
