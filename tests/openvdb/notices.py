# SPDX-License-Identifier: Apache-2.0
"""What a scene file can't hold: one line reports each of it, which is an error with --strict."""

FLOAT = "Tree_float_5_4_3"

# lines of the probe, each with what vdb2vdbs reports and with the script that makes the same scene
HALF = "0.5 0 0  0 0.5 0  0 0 0.5  0 0 0"
TOLD = [
    (
        "a grid of another type",
        [f"grid {FLOAT} f 0", "grid i32 a 0"],
        [f'grid "f" is left out: its type is {FLOAT}'],
        ["grid a i32 0"],
    ),
    (
        "names",
        ["grid i32 Density%20(old) 0", "grid i32 density__old_ 1", "grid i32 3d 2", "grid i32 a_name_of_more_than_sixteen 3"],
        [
            'grid "Density (old)" is called density__old_2',
            'grid "3d" is called g_3d',
            'grid "a_name_of_more_than_sixteen" is called a_name_of_more_t',
        ],
        ["grid density__old_2 i32 0", "grid density__old_ i32 1", "grid g_3d i32 2", "grid a_name_of_more_t i32 3"],
    ),
    (
        "names that are there twice",
        ["grid i32 abcdefghijklmnop 0", "grid bool abcdefghijklmnop true", "grid i64 %c3%a9%0a 5"],
        ['grid "abcdefghijklmnop[1]" is called abcdefghijklmno2', 'grid "\\xc3\\xa9\\x0a" is called g____'],
        ["grid abcdefghijklmnop i32 0", "grid abcdefghijklmno2 bool true", "grid g____ i64 5"],
    ),
    (
        "metadata",
        ["grid i32 a 0", "meta string unit mm", "meta string By me", "meta string by a%20b", "meta int32 n 3", "meta string e"],
        [
            'grid "a": metadata "By" is left out: its key is none of a scene',
            'grid "a": metadata "by" is left out: its text is none of a scene',
            'grid "a": metadata "e" is left out: its text is none of a scene',
            'grid "a": metadata "n" is left out: it is no text but of type int32',
        ],
        ["grid a i32 0", "meta a unit mm"],
    ),
    (
        "a limit out of range",
        ["grid i32 a 0", "meta int32 vdb_root_limit 0"],
        ['grid "a": metadata "vdb_root_limit" is left out: it is no text but of type int32'],
        ["grid a i32 0"],
    ),
    (
        "seventeen pairs",
        ["grid i32 a 0", *(f"meta string k{number:02} x" for number in range(17))],
        ['grid "a": metadata "k16" is left out: a scene\'s grid has at most 16 pairs'],
        ["grid a i32 0", *(f"meta a k{number:02} x" for number in range(16))],
    ),
    (
        "a transform that isn't linear",
        ["grid i32 a 0", "frustum"],
        ['grid "a": its transform (NonlinearFrustumMap) is left out: it isn\'t linear'],
        ["grid a i32 0"],
    ),
    (
        "a transform without room",
        ["grid i32 a 0", *(f"meta string k{number:02} x" for number in range(14)), f"affine {HALF}"],
        ['grid "a": its transform (UniformScaleMap) is left out: a scene\'s grid has at most 16 pairs'],
        ["grid a i32 0", *(f"meta a k{number:02} x" for number in range(14))],
    ),
    (
        "a class",
        ["grid i32 a 0", "class level%20set"],
        ['grid "a": its class "level set" is left out: a scene\'s grid has none'],
        ["grid a i32 0"],
    ),
    (
        "metadata of the file",
        ["grid i32 a 0", "file creator me"],
        ['metadata "creator" of the file is left out: a scene has none'],
        ["grid a i32 0"],
    ),
    (
        "the background of a mask",
        ["grid mask a true"],
        ['grid "a": its background true is false in the scene'],
        ["grid a bool false"],
    ),
    (
        "sixty-five grids",
        [f"grid bool g{number:02} false" for number in range(65)],
        ['grid "g64" is left out: a scene has at most 64 grids'],
        [f"grid g{number:02} bool false" for number in range(64)],
    ),
]


def check_told(place, what, lines, told, script):
    place.probed("make", "told.vdb", [*lines, "write zip"])
    begin = "vdb2vdbs: told.vdb: "
    place.is_converted("vdb2vdbs", "told.vdb", "told.vdbs", told=[begin + line for line in told], what=what)
    wanted = place.saved(script, "wanted.vdbs")
    place.equal(place.read("told.vdbs"), wanted, f"{what}: the scene")
    place.write("told.vdbs", b"old")
    place.equal(place.convert("vdb2vdbs", "told.vdb", "told.vdbs", "--strict"), (1, "", [begin + told[0]]), f"{what}: strict")
    place.equal((place.read("told.vdbs"), place.leftovers()), (b"old", []), f"{what}: strict, the old file")


def check_limits(place):
    """Root limits: raised, given, kept, too small, and past the greatest."""
    place.probed("make", "roots.vdb", ["grid i32 a 0", "roots 4097 5", "write none"])
    begin = "vdb2vdbs: roots.vdb: grid \"a\""
    place.is_converted("vdb2vdbs", "roots.vdb", "roots.vdbs", "--strict", told=[f"{begin} has the root limit 4097, more than 4096"])
    tail = ["fill a 0 -2097152 -4096 16383 2097151 -1 5 on", "fill a 16384 -2097152 -4096 20479 -2093057 -1 5 on"]
    place.equal(place.read("roots.vdbs"), place.saved(["grid a i32 0 4097", *tail], "wanted.vdbs"), "a raised limit")
    place.is_converted("vdb2vdbs", "roots.vdb", "roots.vdbs", "--limit", "65536")
    place.equal(place.read("roots.vdbs"), place.saved(["grid a i32 0 65536", *tail], "wanted.vdbs"), "a limit that is given")
    found = place.convert("vdb2vdbs", "roots.vdb", "roots.vdbs", "--limit=4096")
    place.equal(found, (1, "", [f"{begin}: it has more than 4096 root blocks"]), "a limit too small")
    place.probed("make", "roots.vdb", ["grid bool a false", "roots 65537 true", "write none"])
    found = place.convert("vdb2vdbs", "roots.vdb", "roots.vdbs")
    place.equal(found, (1, "", [f"{begin}: it has more than 65536 root blocks"]), "65,537 root blocks")
    place.probed("make", "roots.vdb", ["grid bool a false", "roots 65536 true", "meta int32 vdb_root_limit 7", "write none"])
    place.is_converted("vdb2vdbs", "roots.vdb", "roots.vdbs", told=[f"{begin} has the root limit 65536, more than 7"])
    place.equal(place.read("roots.vdbs")[:21], b"VDBS\0\2\0\1\1a\0\0" + b"\0\1\0\0" + b"\0" + b"\0\1\0\0", "65,536 root blocks")


def check_length(place):
    """A scene that is too long: nothing is written."""
    place.probed("make", "long.vdb", ["grid bool a false", "noise 131072", "write none"])
    place.write("long.vdbs", b"old")
    told = ['vdb2vdbs: long.vdb: grid "a": the encoding of its grids is longer than 268,435,456 bytes']
    place.equal(place.convert("vdb2vdbs", "long.vdb", "long.vdbs"), (1, "", told), "a scene too long")
    place.equal((place.read("long.vdbs"), place.leftovers()), (b"old", []), "a scene too long, the old file")


def check(place, _seed, _scenes):
    for case in TOLD:
        check_told(place, *case)
    check_limits(place)
    check_length(place)
