# SPDX-License-Identifier: Apache-2.0
"""Files that can't be read or written, and wrong command lines: one line each, the status, and the old file as it was."""
import os
import resource
import signal
import subprocess

OUTPUT = {"vdb2vdbs": "out.vdbs", "vdbs2vdb": "out.vdb"}


def is_refused(place, program, words, told, **options):
    """Checks that nothing is converted, for this reason, and that the old file stays."""
    what = f"{program} {' '.join(words)}"
    old = place.read(OUTPUT[program])
    place.equal(place.convert(program, *words, **options), (1, "", [f"{program}: {told}"]), what)
    place.equal((place.read(OUTPUT[program]), place.leftovers()), (old, []), f"{what}: the old file")


def check_words(place):
    wrong = [
        ([], "IN and OUT are needed"),
        (["a"], "IN and OUT are needed"),
        (["a", "b", "c"], "a third file is too many"),
        (["--other", "a", "b"], 'unknown option "--other"'),
        (["a", "b", "--grid"], "--grid needs a value"),
        (["a", "b", "--strict=x"], 'unknown option "--strict=x"'),
    ]
    own = {
        "vdb2vdbs": [
            (["a", "b", "--limit", "0"], '--limit is a number from 1 to 65536, not "0"'),
            (["a", "b", "--limit=65537"], '--limit is a number from 1 to 65536, not "65537"'),
            (["a", "b", "--limit", "-1"], '--limit is a number from 1 to 65536, not "-1"'),
            (["a", "b", "--compress", "zip"], 'unknown option "--compress"'),
        ],
        "vdbs2vdb": [
            (["a", "b", "--compress", "rar"], '--compress is zip, blosc or none, not "rar"'),
            (["a", "b", "--limit", "1"], 'unknown option "--limit"'),
        ],
    }
    for program, more in own.items():
        for words, told in wrong + more:
            line = f"{program}: {told} ({program} --help says more)"
            place.equal(place.convert(program, *words), (2, "", [line]), f"{program} {words}")
        for words in (["--help"], ["a", "-h"]):
            status, text, lines = place.convert(program, *words)
            place.check((status, lines) == (0, []) and "Example" in text and f"{program} IN" in text, f"{program} {words}")


def check_reading(place):
    for program, name in (("vdb2vdbs", "none.vdb"), ("vdbs2vdb", "none.vdbs")):
        place.write(OUTPUT[program], b"old")
        is_refused(place, program, [name, OUTPUT[program]], f"{name}: No such file or directory")
    is_refused(place, "vdb2vdbs", ["programs", "out.vdbs"], "programs: it is a folder")
    is_refused(place, "vdbs2vdb", ["programs", "out.vdb"], "programs: byte 0: read: Is a directory")
    place.write("empty.vdb", b"")
    is_refused(place, "vdb2vdbs", ["empty.vdb", "out.vdbs"], "empty.vdb: the file is cut short, or no .vdb file")
    place.write("text.vdb", b"no file of OpenVDB at all, but a text that is long enough")
    status, _, lines = place.convert("vdb2vdbs", "text.vdb", "out.vdbs")
    place.check(status == 1 and len(lines) == 1 and lines[0].startswith("vdb2vdbs: text.vdb: "), f"a text as a .vdb file: {lines}")


def check_unknown_type(place):
    """A grid of a type that OpenVDB doesn't know is left out, if the file has offsets."""
    place.probed("make", "float.vdb", ["grid Tree_float_5_4_3 f 0", "grid i32 a 5", "write zip"])
    place.write("other.vdb", place.read("float.vdb").replace(b"Tree_float_5_4_3", b"Tree_other_5_4_3"))
    told = ['vdb2vdbs: other.vdb: grid "f" is left out: its type is Tree_other_5_4_3']
    place.is_converted("vdb2vdbs", "other.vdb", "other.vdbs", told=told)
    place.equal(place.read("other.vdbs"), place.saved(["grid a i32 5"], "wanted.vdbs"), "a grid beside one of an unknown type")


def check_cut(place):
    """Files of OpenVDB that are cut short, in each compression and without offsets."""
    lines = ["grid i32 a 7", "noise 40", "voxel -5 -5 -5 8 off", "grid bool b true", "noise 9", "tile 3 8192 0 0 false on"]
    for how in ("zip", "blosc", "none", "stream"):
        place.probed("make", "whole.vdb", [*lines, f"write {how}"])
        text = place.read("whole.vdb")
        place.is_converted("vdb2vdbs", "whole.vdb", "whole.vdbs")
        place.write("out.vdbs", b"old")
        for size in [*range(0, len(text) - 1, max(len(text) // 40, 1)), len(text) - 1]:
            place.write("cut.vdb", text[:size])
            status, answers, told = place.convert("vdb2vdbs", "cut.vdb", "out.vdbs")
            good = (status, answers, len(told)) == (1, "", 1) and told[0].startswith("vdb2vdbs: cut.vdb: ")
            place.check(good and place.read("out.vdbs") == b"old", f"{size} of {len(text)} bytes by {how}: {status} {told}")


def check_offsets(place):
    """A grid that ends before it begins, so that its descriptor would be read over and over, and more grids than a file holds."""
    place.probed("make", "good.vdb", ["grid i32 a 7", "noise 3", "write zip"])
    text = place.read("good.vdb")
    begin = text.index(b"\x01\0\0\0a\x10\0\0\0Tree_int32_5_4_3\0\0\0\0")
    offsets = begin + 5 + 20 + 4
    place.write("out.vdbs", b"old")
    for name, at, change, told in (
        ("backwards", offsets + 16, begin.to_bytes(8, "little"), 'grid "a" has offsets that don\'t rise'),
        ("behind", offsets, (1 << 62).to_bytes(8, "little"), 'grid "a" has offsets that don\'t rise'),
        ("past", offsets + 16, (1 << 62).to_bytes(8, "little"), 'the file is cut short: grid "a" ends past it'),
        ("many", begin - 4, b"\xff\xff\xff\x7f", "it tells of 2147483647 grids, more than it holds"),
        ("negative", begin - 4, b"\xff\xff\xff\xff", "it tells of -1 grids, more than it holds"),
    ):
        place.write(f"{name}.vdb", text[:at] + change + text[at + len(change) :])
        is_refused(place, "vdb2vdbs", [f"{name}.vdb", "out.vdbs"], f"{name}.vdb: {told}")


def limit_files():
    """Lets a process write at most 1,000 bytes into a file."""
    resource.setrlimit(resource.RLIMIT_FSIZE, (1000, 1000))


def as_other():
    """The options that run a program as a user who isn't root."""
    return {"user": 65534, "group": 65534, "extra_groups": []} if os.geteuid() == 0 else {}


def check_writing(place):
    for program, given in (("vdb2vdbs", "whole.vdb"), ("vdbs2vdb", "whole.vdbs")):
        out = OUTPUT[program]
        place.write(out, b"old")
        is_refused(place, program, [given, "none/x"], "none/x: No such file or directory")
        is_refused(place, program, [given, "programs"], "programs: Is a directory")
        is_refused(place, program, [given, out], f"{out}: File too large", preexec_fn=limit_files)
        place.folder.chmod(0o555)
        is_refused(place, program, [given, "new"], "new: Permission denied", **as_other())
        place.folder.chmod(0o700)


def check_replacing(place):
    """A file that is replaced keeps its permissions, and a link to it stays a link."""
    (place.folder / "behind").mkdir()
    for program, given in (("vdb2vdbs", "whole.vdb"), ("vdbs2vdb", "whole.vdbs")):
        real, link = place.folder / "behind" / OUTPUT[program], place.folder / f"link-{program}"
        real.write_bytes(b"old")
        real.chmod(0o640)
        link.symlink_to(real)
        place.is_converted(program, given, str(link))
        place.check(link.is_symlink() and real.read_bytes() != b"old", f"{program}: a link")
        place.equal(real.stat().st_mode & 0o777, 0o640, f"{program}: permissions")
        whole, device = real.read_bytes(), run_into(place, program, given, "/dev/stdout")
        place.equal((device.returncode, device.stderr, len(device.stdout)), (0, b"", len(whole)), f"{program}: standard output")
        full = run_into(place, program, given, "/dev/full")
        place.equal((full.returncode, full.stderr), (1, f"{program}: /dev/full: No space left on device\n".encode()), f"{program}: a full device")


def run_into(place, program, given, target):
    """Runs a converter whose output is a device or a pipe."""
    return subprocess.run([place.programs / program, given, target], cwd=place.folder, capture_output=True, timeout=300, check=False)


def check_closed_streams(place):
    """Messages don't go into an output file that would else become the closed standard error."""
    place.probed("make", "renamed.vdb", ["grid i32 Name 7", "write zip"])
    told = ['vdb2vdbs: renamed.vdb: grid "Name" is called name']
    place.is_converted("vdb2vdbs", "renamed.vdb", "renamed.vdbs", told=told)
    found = place.convert("vdb2vdbs", "renamed.vdb", "unheard.vdbs", preexec_fn=lambda: [os.close(number) for number in (0, 1, 2)])
    place.equal(found, (0, "", []), "all streams are closed")
    place.equal(place.read("unheard.vdbs"), place.read("renamed.vdbs"), "all streams are closed: the scene")


def check(place, _seed, _scenes):
    signal.signal(signal.SIGXFSZ, signal.SIG_DFL)
    check_words(place)
    check_reading(place)
    check_unknown_type(place)
    check_cut(place)
    check_offsets(place)
    if not place.counts:  # where the output can't be written, the counts can't be either
        check_writing(place)
    check_replacing(place)
    check_closed_streams(place)
