#!/usr/bin/env python3
# SPDX-License-Identifier: Apache-2.0
"""Tests of the reader of rows, of the files of rows, of the player over programs that answer wrongly, and of the fuzzer's model: it answers each
row as the row says, and writes the file that the row saves."""
import subprocess
import sys
import tempfile
import unittest
from pathlib import Path

import rows
from rows import DATA, TOP, Malformed

sys.path.insert(0, str(TOP / "tests" / "fuzz"))
from language import Scene  # noqa: E402
from mutating import corpus, encoding, lines_of  # noqa: E402

WHOLE = """\
# Rows for the tests.

== a grid
# A comment.
saved: 0a
saved: ff
+ grid a i32 0
>
> list a 0 0 0 1 1 1 2
(allocates nothing)
0 0 0 1
end 1

== the file of the row above
load: saved a grid
load: 00
saved: same
status: 3
stderr: vdb: load: magic
>> \\x23\\t\\\\\\r
> error
error syntax

== nothing is written
saved: none

== a fault
fault: magic
"""
MALFORMED = [
    ("== a\n> a\n", 1, "the first line must say in a comment what the rows show"),
    ("# a\n> a\n", 2, "a line stands before the first row"),
    ("# a\n==\n", 2, "a row must begin with '== NAME'"),
    ("# a\n== a \n", 2, "a row must begin with '== NAME'"),
    ("# a\n== a\n\n== a\n", 4, "a row above has the name 'a'"),
    ("# a\n== a\n> a\n# a\n", 4, "a comment must stand before the first command of its row"),
    ("# a\n== a\n> a\nstatus: 1\n", 4, "a head must stand before the first command of its row"),
    ("# a\n== a\nload: 0\n", 3, "the bytes must be pairs of hexadecimal digits in small letters"),
    ("# a\n== a\nload: FF\n", 3, "the bytes must be pairs of hexadecimal digits in small letters"),
    ("# a\n== a\nload:\n", 3, "the bytes must be pairs of hexadecimal digits in small letters"),
    ("# a\n== a\nload: saved b\n", 3, "no row above saves a file under the name 'b'"),
    ("# a\n== b\nsaved: none\n== a\nload: saved b\n", 5, "no row above saves a file under the name 'b'"),
    ("# a\n== a\nsaved: 00\nload: 00\n", 4, "'load:' must stand above 'saved:'"),
    ("# a\n== a\nsaved: same\n", 3, "'saved: same' without 'load:' above it"),
    ("# a\n== a\nsaved: none\nsaved: 00\n", 4, "'saved:' stands twice"),
    ("# a\n== a\nsaved: 00\nsaved: empty\n", 4, "'saved:' stands twice"),
    ("# a\n== a\nstatus: 1\nstatus: 1\n", 4, "'status:' stands twice, or has no text"),
    ("# a\n== a\nstatus: 01\n", 3, "'01' is no exit status"),
    ("# a\n== a\nstderr:\n", 3, "'stderr:' stands twice, or has no text"),
    ("# a\n== a\nok\n", 3, "an answer stands before the first command of its row"),
    ("# a\n== a\n>a\n", 3, "a command must stand behind '> ' or '>> '"),
    ("# a\n== a\n>> \\a\n", 3, "a backslash must begin \\n, \\r, \\t, \\\\ or \\xHH"),
    ("# a\n== a\n>> \\xF0\n", 3, "a backslash must begin \\n, \\r, \\t, \\\\ or \\xHH"),
    ("# a\n== a\n> \xe9\n", 3, "a byte is not printable ASCII"),
    ("# a\n== a\n> a\r\n", 3, "a byte is not printable ASCII"),
    ("# a\n== a\n> a", 3, "the last line must end with a newline"),
    ("", 1, "the first line must say in a comment what the rows show"),
    ("# a\n", 1, "the file has no row"),
]
# programs that answer, end or save otherwise than the row, each with what the player tells
WRONG = [
    ("echo ok; echo 'value 2 on'", "FILE:6: a voxel: the answer is 'value 2 on', not 'value 1 on'"),
    ("echo ok", "FILE:2: a voxel: there is no answer 'value 1 on'"),
    ("printf 'ok\\nvalue 1 on\\nok\\n'", "FILE:2: a voxel: there is a further answer 'ok'"),
    ("printf 'ok\\nvalue 1 on'", "FILE:2: a voxel: the last answer has no newline"),
    ("printf 'ok\\nvalue 1 on\\n'; exit 1", "FILE:2: a voxel: the exit status is 1, not 0"),
    ("printf 'ok\\nvalue 1 on\\n'; echo oh >&2", "FILE:2: a voxel: standard error is b'oh\\n', not b''"),
]


def read(text):
    return rows.Reader(Path("FILE")).read(text.encode("latin-1"))


class Reading(unittest.TestCase):
    def test_whole(self):
        first, second, third, fourth = read(WHOLE)
        self.assertEqual((first.name, first.line, first.load, first.saves, first.saved), ("a grid", 3, None, True, b"\x0a\xff"))
        self.assertEqual((first.status, first.stderr), (0, b""))
        self.assertEqual(first.script, b"grid a i32 0\n\nlist a 0 0 0 1 1 1 2\n")
        self.assertEqual([(it.answered, it.allocates_nothing) for it in first.commands], [(b"ok\n", False), (b"", False), (b"0 0 0 1\nend 1\n", True)])
        self.assertEqual((second.load, second.saved, second.status), (b"\x0a\xff\x00", b"\x0a\xff\x00", 3))
        self.assertEqual((second.stderr, second.script), (b"vdb: load: magic\n", b"#\t\\\rerror\n"))
        self.assertEqual((third.saves, third.saved, third.status, third.script), (True, None, 0, b""))
        self.assertEqual((fourth.saves, fourth.saved, fourth.status, fourth.stderr), (True, None, 3, b"vdb: load: magic\n"))

    def test_status_of_an_error(self):
        self.assertEqual([row.status for row in read("# a\n== a\n> a\nok\n> b\nerror box\n")], [1])

    def test_malformed(self):
        for text, line, reason in MALFORMED:
            with self.subTest(text=text), self.assertRaises(Malformed) as caught:
                read(text)
            self.assertEqual(str(caught.exception), f"FILE:{line}: {reason}")


class Files(unittest.TestCase):
    def test_count(self):
        """There are as many rows as before."""
        self.assertGreater(sum(len(rows.read(file)) for file in DATA), 240)

    def test_comments(self):
        """Each row has a comment that says what it shows."""
        for file in DATA:
            lines = file.read_text().split("\n")
            for row in rows.read(file):
                self.assertTrue(lines[row.line].startswith("# "), row.place)

    def test_examples(self):
        """The examples' rows are the scripts beside them."""
        found = sorted((TOP / "examples").glob("*.rows"))
        self.assertEqual([file.stem for file in found], [file.stem for file in sorted((TOP / "examples").glob("*.txt"))])
        for file in found:
            (row,) = rows.read(file)
            self.assertEqual(row.script, file.with_suffix(".txt").read_bytes(), file)


class Playing(unittest.TestCase):
    def setUp(self):
        holder = tempfile.TemporaryDirectory()
        self.addCleanup(holder.cleanup)
        self.folder = Path(holder.name)
        self.file, self.program = self.folder / "FILE", self.folder / "program"

    def play(self, text, program):
        self.file.write_text(text)
        self.program.write_text(f"#!/bin/sh\n{program}\n")
        self.program.chmod(0o755)
        words = [sys.executable, rows.__file__, "--program", str(self.program), str(self.file)]
        ran = subprocess.run(words, capture_output=True, text=True, timeout=60)
        return ran.returncode, (ran.stdout + ran.stderr).replace(str(self.folder) + "/", "")

    def test_right(self):
        text = "# a\n== a voxel\n> a\nok\n> b\nvalue 1 on\n== none\nsaved: none\n> a\nok\n> b\nvalue 1 on\n"
        self.assertEqual(self.play(text, "printf 'ok\\nvalue 1 on\\n'"), (0, "2 passed, 0 failed\n"))

    def test_wrong(self):
        for program, told in WRONG:
            with self.subTest(program=program):
                text = "# a\n== a voxel\n> a\nok\n> b\nvalue 1 on\n"
                self.assertEqual(self.play(text, program), (1, f"{told}\n0 passed, 1 failed\n"))

    def test_saved(self):
        """A file is compared byte by byte, and with none."""
        for head, program, told in [
            ("saved: 00", "printf a > $2", "the saved file is b'a', not b'\\x00'"),
            ("saved: 00", ":", "the saved file is None, not b'\\x00'"),
            ("saved: none", ": > $2", "the saved file is b'', not None"),
        ]:
            self.assertEqual(self.play(f"# a\n== a file\n{head}\n", program), (1, f"FILE:2: a file: {told}\n0 passed, 1 failed\n"))

    def test_malformed(self):
        self.assertEqual(self.play("# a\nok\n", ":"), (1, "rows.py: FILE:2: a line stands before the first row\n"))


class Model(unittest.TestCase):
    def test_answers(self):
        played = [row for row in corpus() if not row.stderr]
        self.assertGreater(len(played), 150)
        for row in played:
            with self.subTest(row.place):
                scene = Scene.loaded(row.load) if row.load else Scene()
                found = [line for text in lines_of(row) for line in scene.answer(text)]
                self.assertEqual(found, [answer.text for answer in row.answers])
                if row.saved:
                    self.assertEqual(scene.saved(), row.saved)

    def test_faults(self):
        rejected = [row for row in corpus() if row.stderr]
        self.assertGreater(len(rejected), 30)
        for row in rejected:
            with self.subTest(row.place):
                self.assertEqual(encoding.verdict(row.load), row.stderr.decode().split()[-1])


if __name__ == "__main__":
    unittest.main()
