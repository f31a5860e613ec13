# SPDX-License-Identifier: Apache-2.0
"""Mutated files under sanitizers: vdb2vdbs converts each .vdb file or names one reason, and what it writes is a scene file. Both
converters answer to the scene files of faults.py as they do without sanitizers.

OpenVDB 10 itself writes past its buffers for some of them. A report whose place is in OpenVDB's library is counted and no failure, as
is one of an allocation that no memory has: without sanitizers that ends with status 1."""
import random
import re

import encoding
import faults
from vdb_files import WRITTEN, RandomFile
from workplace import Workplace

TURNS = 10
NO_MEMORY = "AddressSanitizer: requested allocation size"
FRAME = re.compile(r" *#\d+ 0x")


def is_of_openvdb(lines):
    """Whether the first frame of a report that is neither the sanitizer's nor the standard library's is one of OpenVDB's library."""
    frames = [line for line in lines if FRAME.match(line) and "sanitizer" not in line and "libstdc++" not in line]
    return bool(frames) and "libopenvdb" in frames[0]


def check_mutated(place, what, text):
    """Converts these bytes in a folder that has an old file under the name to write. Returns whether OpenVDB's library failed."""
    place.write("mutated.vdb", text)
    place.write("mutated.vdbs", b"old")
    status, _, lines = place.convert("vdb2vdbs", "mutated.vdb", "mutated.vdbs")
    told = [line for line in lines if not line.startswith("vdb2vdbs: mutated.vdb: ")]
    if any(NO_MEMORY in line for line in told) or is_of_openvdb(told):
        for name in place.leftovers():
            place.without(name)
        return True
    place.check(status in (0, 1) and not told, f"{what}: status {status}: {told[:3]}")
    if status == 0:
        place.check(not isinstance(encoding.verdict(place.read("mutated.vdbs")), str), f"{what}: no scene file")
    else:
        place.equal((place.read("mutated.vdbs"), place.leftovers()), (b"old", []), f"{what}: the old file")
    return False


def check(place, seed, scenes):
    with Workplace(place.here, ".san") as sanitized:
        check_vdb_files(sanitized, seed, scenes)
        faults.check_vectors(sanitized)
        faults.check_changes(sanitized, seed, 2 * scenes)
        place.passed, place.failed = place.passed + sanitized.passed, place.failed + sanitized.failed


def check_vdb_files(place, seed, scenes):
    failed = 0
    for number in range(seed, seed + scenes // 4):
        chance = random.Random(f"mutated {number}")
        lines = list(RandomFile(chance).lines(chance.choice(WRITTEN)))
        place.probed("make", "good.vdb", lines)
        for turn in range(TURNS):
            failed += check_mutated(place, f"file {number}, change {turn}", faults.changed(chance, place.read("good.vdb")))
    print(f"mutations: OpenVDB's library or the memory failed for {failed} of {scenes // 4 * TURNS} files")
    place.check(failed < scenes // 4 * TURNS, "no mutated file was read")
