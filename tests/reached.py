#!/usr/bin/env python3
# SPDX-License-Identifier: Apache-2.0
"""Measures which lines and branches tests reach, and fails below 90 % of the lines or 80 % of the branches.

    tests/reached.py python    runs the tests of the Python package, as unittest does, and measures python/vdb

`of_cpp` does the same for code in C++ that g++ compiled with --coverage and that has run. It needs Debian's python3-coverage and gcovr.
"""
import json
import os
import re
import subprocess
import sys
import tempfile
from pathlib import Path

TOP = Path(__file__).resolve().parent.parent
LINES, BRANCHES = 90, 80
# starts the measurement in each process of Python below
START = "import coverage\n\ncoverage.process_startup()\n"
SETTINGS = "[run]\nbranch = True\nparallel = True\nsource = {top}/python/vdb\ndata_file = {folder}/data\nconcurrency = thread,multiprocessing\n"


def judged(name, lines, branches):
    """Returns a line with both percentages, and whether they suffice."""
    return f"coverage of {name}: {lines:.1f} % of the lines, {branches:.1f} % of the branches", lines >= LINES and branches >= BRANCHES


def of_cpp(name, folder, sources):
    """Returns the same for the C++ sources whose paths match a pattern, from the counts that programs left below a folder."""
    words = ["gcovr", folder, "--root", "/", "--filter", sources, "--exclude-throw-branches", "--exclude-unreachable-branches", "--json-summary"]
    with tempfile.TemporaryDirectory(prefix="gcovr-") as work:
        ran = subprocess.run(words, cwd=work, stdin=subprocess.DEVNULL, stdout=subprocess.PIPE, stderr=subprocess.PIPE, text=True)
    if ran.returncode:
        return f"coverage of {name}: gcovr ended with status {ran.returncode}: {ran.stderr[-500:]}", False
    found = json.loads(ran.stdout)
    if not found["line_total"]:
        return f"coverage of {name}: no counts of {sources} below {folder}", False
    return judged(name, found["line_percent"], found["branch_percent"])


def of_python():
    """Runs the tests of the Python package, prints the coverage, and returns the exit status."""
    python = "/usr/bin/python3"
    with tempfile.TemporaryDirectory(prefix="coverage-") as folder:
        settings = Path(folder, "settings")
        settings.write_text(SETTINGS.format(top=TOP, folder=folder), encoding="utf-8")
        Path(folder, "sitecustomize.py").write_text(START, encoding="utf-8")
        environment = {**os.environ, "COVERAGE_PROCESS_START": str(settings), "PYTHONPATH": folder, "PYTHONDONTWRITEBYTECODE": "1"}
        tests = subprocess.run([python, "-m", "unittest", "discover", "-s", "tests/python", "-t", "tests", "-v"], cwd=TOP, env=environment)
        measure = [python, "-m", "coverage"]
        subprocess.run([*measure, "combine", "-q", "--rcfile", settings, folder], cwd=folder, check=True, stdout=subprocess.DEVNULL)
        subprocess.run([*measure, "json", "-q", "--rcfile", settings, "-o", "found.json"], cwd=folder, check=True)
        found = json.loads(Path(folder, "found.json").read_text(encoding="utf-8"))
    for file, one in sorted(found["files"].items()):
        if one["summary"]["percent_covered"] < LINES:
            print(f"{os.path.relpath(file, TOP)}: {one['summary']['percent_covered']:.0f} %, lines missing: {shortened(one['missing_lines'])}")
    totals = found["totals"]
    lines = 100 * totals["covered_lines"] / max(1, totals["num_statements"])
    text, suffices = judged("python/vdb", lines, 100 * totals["covered_branches"] / max(1, totals["num_branches"]))
    print(text)
    return tests.returncode or int(not suffices)


def shortened(numbers):
    """Returns numbers as runs, the first ten of them."""
    runs = []
    for number in numbers:
        if runs and runs[-1][1] == number - 1:
            runs[-1][1] = number
        else:
            runs.append([number, number])
    return ", ".join(f"{a}-{b}" if a < b else f"{a}" for a, b in runs[:10]) + (" .." if len(runs) > 10 else "")


if __name__ == "__main__":
    if not re.fullmatch("python", " ".join(sys.argv[1:])):
        print(__doc__.strip())
        sys.exit(0 if "--help" in sys.argv else 2)
    sys.exit(of_python())
