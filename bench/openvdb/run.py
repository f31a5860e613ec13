#!/usr/bin/env python3
# SPDX-License-Identifier: Apache-2.0
"""Plays scripts on two programs, and compares their answers, times and peaks of memory.

    run.py [-n RUNS] PROGRAM OTHER SCRIPT..

    run.py ../../crates/vdb/out/vdb ./openvdb scripts/*.script

Each program is a command, in quotes if it has several words. Both play each script RUNS times (5), in turn. The line of a script has the
ratio of the median seconds, PROGRAM by OTHER, so below 1 PROGRAM is ahead; the ratio of the greatest peaks of memory; both medians; both
peaks, in MB of 1,000,000 bytes; and whether the answers are the same, byte for byte.

A script save-NAME.script is given `--save FILE`. A script load-NAME.script is given `--load FILE`, the file that the same program saved by
save-NAME.script beside it. The exit status is 1 if some answers or statuses differ, and 2 if a program failed.
"""
import argparse
import os
import shlex
import sys
import tempfile
from statistics import median

sys.path.insert(0, os.path.dirname(os.path.dirname(os.path.abspath(__file__))))

from measure.parts import in_turn
from measure.programs import Failed
from measure.scripts import Player


def text_of(file):
    with open(file, "rb") as answers:
        return answers.read()


def compare(programs, script, runs, room):
    """Plays a script on both programs in turn, prints its line, and returns whether both answer the same."""
    name = os.path.basename(script).removesuffix(".script")
    players = [Player(program, f"{room}/{name}/{number}", [script]) for number, program in enumerate(programs)]
    found = [*in_turn(dict(enumerate(players)), runs).values()]
    seconds = [median([run.seconds for run in series]) for series in found]
    peaks = [max(run.peak for run in series) / 1e6 for series in found]
    statuses = [sorted({run.status for run in series}) for series in found]
    same = text_of(players[0].answers) == text_of(players[1].answers) and statuses[0] == statuses[1]
    word = "same" if same else f"DIFFER, statuses {statuses[0]} and {statuses[1]}"
    print(f"{name:<20} {seconds[0] / seconds[1]:6.2f} {peaks[0] / peaks[1]:6.2f} {seconds[0]:9.3f} {seconds[1]:9.3f}"
          f" {peaks[0]:8.0f} {peaks[1]:8.0f}  {word}", flush=True)
    return same


def main():
    parser = argparse.ArgumentParser(description=__doc__, formatter_class=argparse.RawDescriptionHelpFormatter)
    parser.add_argument("-n", type=int, default=5, metavar="RUNS")
    parser.add_argument("program")
    parser.add_argument("other")
    parser.add_argument("scripts", nargs="+", metavar="SCRIPT")
    given = parser.parse_args()
    programs = [shlex.split(given.program), shlex.split(given.other)]
    print(f"{'script':<20} {'time':>6} {'memory':>6} {'seconds':>9} {'other':>9} {'MB':>8} {'other':>8}  answers")
    try:
        with tempfile.TemporaryDirectory() as room:
            all_same = all([compare(programs, script, given.n, room) for script in given.scripts])
    except (Failed, OSError) as failure:
        print(f"run.py: {failure}", file=sys.stderr)
        sys.exit(2)
    sys.exit(0 if all_same else 1)


if __name__ == "__main__":
    main()
