# SPDX-License-Identifier: Apache-2.0
"""The results of a machine: a folder with results.json, which a later run of one part goes into, and what is written from it."""
import csv
import json
import os

from . import chart, tables
from .programs import Failed


def load(folder):
    """Returns what earlier runs left in a folder, or nothing."""
    file = f"{folder}/results.json"
    if not os.path.exists(file):
        return {}
    try:
        with open(file, encoding="utf-8") as text:
            return json.load(text)["parts"]
    except (OSError, ValueError, KeyError, TypeError) as error:
        raise Failed(f"{os.path.relpath(file)} can't be read ({error}): remove it, or name another folder by --output") from None


def replace(path, text):
    """Writes a file whole or not at all."""
    with open(f"{path}.new", "w", encoding="utf-8", newline="") as file:
        file.write(text)
    os.replace(f"{path}.new", path)


def figures(parts):
    """Yields each figure of each run, with the names of what it is of."""
    for part, found in parts.items():
        for table in found["tables"]:
            for row in table["rows"]:
                for series, numbers in row["series"].items():
                    for run, number in enumerate(numbers, 1):
                        yield part, table["title"], row["name"], row["unit"], table["headings"][series], run, number


def save(folder, parts, order):
    """Writes results.json, results.csv, results.txt and chart.svg."""
    parts = {name: parts[name] for name in order if name in parts}
    try:
        os.makedirs(folder, exist_ok=True)
        replace(f"{folder}/results.json", json.dumps({"parts": parts}, indent=1) + "\n")
        with open(f"{folder}/results.csv", "w", encoding="utf-8", newline="") as file:
            rows = csv.writer(file, lineterminator="\n")
            rows.writerow(["part", "table", "row", "unit", "series", "run", "figure"])
            rows.writerows(figures(parts))
        replace(f"{folder}/chart.svg", chart.draw(parts))
        replace(f"{folder}/results.txt", tables.page(parts))
    except OSError as error:
        raise Failed(f"{error.filename}: {error.strerror}") from None
