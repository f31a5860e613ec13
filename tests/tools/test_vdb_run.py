#!/usr/bin/env python3
# SPDX-License-Identifier: Apache-2.0
"""Tests of `vdb-run`. The program is the variable VDB, else crates/vdb/out/vdb of this repository."""
from __future__ import annotations

import os
import pty
import select
import signal
import stat
import subprocess
import sys
import tempfile
import textwrap
import time
import unittest
from pathlib import Path
from typing import List, NamedTuple, Optional, Tuple

TOOLS = Path(__file__).resolve().parents[2] / "tools"
RUN = TOOLS / "vdb-run"
VDB = os.environ.get("VDB") or str(TOOLS.parent / "crates" / "vdb" / "out" / "vdb")
SCRIPT_LIMIT = 16_777_216
WAIT = 60

METADATA = b"""\
grid a i32 0
meta a by lab
meta a end 1
meta a error no-grid
meta a more 3
"""
METADATA_LINES = b"by lab\nend 1\nerror no-grid\nmore 3\nend 4\n"


class Ran(NamedTuple):
    """What a run printed, and its status."""

    status: int
    out: bytes
    err: str


class Case(NamedTuple):
    """A script, and what `vdb-run` must print and return for it."""

    name: str
    script: bytes
    out: bytes
    errors: List[str]
    options: Tuple[str, ...] = ()


ERROR_ONLY = b"grid a i32 0\nmeta a error no-grid\nmetas a\n"
CASES = [
    Case("empty script", b"", b"", []),
    Case("comments and blank lines give no answer", b"# a\n\n  \t\r\n#\n", b"", []),
    Case("one error with its line", b"# a\n\nget a - 0 0 0\n", b"error no-grid\n", ["3: error no-grid: get a - 0 0 0"]),
    Case("no newline at the end", b"grid a i32 0\nfoo", b"ok\nerror syntax\n", ["2: error syntax: foo"]),
    Case("carriage returns", b"grid a i32 0\r\nfoo\r\n", b"ok\nerror syntax\n", ["2: error syntax: foo"]),
    Case("256 bytes", b"#" * 256 + b"\n" + b" " * 256 + b"\nfoo\n", b"error syntax\n", ["3: error syntax: foo"]),
    Case(
        "257 bytes, comments too",
        b"#" * 257 + b"\n" + b" " * 257 + b"\n",
        b"error line-too-long\n" * 2,
        ["1: error line-too-long: " + "#" * 256 + " ...", "2: error line-too-long: "],
    ),
    Case("other bytes", b"\xff\0\x1b[m\xc3\xa9\n", b"error syntax\n", ["1: error syntax: \\xff\\x00\\x1b[m\u00e9"]),
    Case("a vertical tab is no space", b"\x0b#\n\x0b\n", b"error syntax\n" * 2, ["1: error syntax: \\x0b#", "2: error syntax: \\x0b"]),
    Case(
        "lists and slices",
        b"grid a i32 0\nlist a 0 0 0 9 9 9 1\nfill a 0 0 0 0 0 1 -5 on\nlist a 0 0 0 9 9 9 1\nlist a 0 0 0 9 9 9 2\n"
        b"slice a 0 0 -1 1 0\nlist b 0 0 0 9 9 9 2\nlist\nslice a 0 0 0 64 0\nbar\n",
        b"ok\nend 0\nok\n0 0 0 -5\nmore 1\n0 0 0 -5\n0 0 1 -5\nend 2\nrow -1 (0) (0)\nrow 0 -5 (0)\nend 2\n"
        b"error no-grid\nerror syntax\nerror too-large\nerror syntax\n",
        [
            "7: error no-grid: list b 0 0 0 9 9 9 2",
            "8: error syntax: list",
            "9: error too-large: slice a 0 0 0 64 0",
            "10: error syntax: bar",
        ],
    ),
    Case("metas without pairs", b"grid a i32 0\nmetas a\nfoo\n", b"ok\nend 0\nerror syntax\n", ["3: error syntax: foo"]),
    Case("keys end, error and more", METADATA + b"metas a\nfoo\n", b"ok\n" * 5 + METADATA_LINES + b"error syntax\n", ["7: error syntax: foo"]),
    Case("the last line is a metas", METADATA + b" metas\ta\r", b"ok\n" * 5 + METADATA_LINES, []),
    Case("a text is the number of lines before", b"grid a i32 0\nmeta a end 0\nmetas a\n", b"ok\nok\nend 0\nend 1\n", []),
    Case("a key error alone", ERROR_ONLY, b"ok\nok\nerror no-grid\nend 1\n", []),
    Case(
        "refused metas after such keys",
        ERROR_ONLY + b"metas b\nmetas\nmetas A\nmetas a b\nmetas a" + b" " * 250 + b"\nmetas a\n",
        b"ok\nok\nerror no-grid\nend 1\nerror no-grid\n" + b"error syntax\n" * 3 + b"error line-too-long\nerror no-grid\nend 1\n",
        [
            "4: error no-grid: metas b",
            "5: error syntax: metas",
            "6: error syntax: metas A",
            "7: error syntax: metas a b",
            "8: error line-too-long: metas a",
        ],
    ),
    Case("a key value", b"grid a bool true\nmeta a end 1\nmeta a value on\nmetas a\n", b"ok\nok\nok\nend 1\nvalue on\nend 2\n", []),
    Case(
        "--echo",
        b"# note\n\ngrid a i32 0\nmetas a\nfoo\n",
        b"> # note\n>\n> grid a i32 0\nok\n> metas a\nend 0\n> foo\nerror syntax\n",
        ["5: error syntax: foo"],
        ("--echo",),
    ),
    Case("--quiet", b"grid a i32 0\nget a - 0 0 0\nfoo\n", b"value 0 off\n", ["3: error syntax: foo"], ("--quiet",)),
    Case("--quiet keeps a key error", ERROR_ONLY, b"error no-grid\nend 1\n", [], ("--quiet",)),
    Case(
        "--bail",
        METADATA + b"metas a\nfoo\nbar\n",
        b"ok\n" * 5 + METADATA_LINES + b"error syntax\n",
        ["7: error syntax: foo", "--bail"],
        ("--bail",),
    ),
    Case("--bail without an error", METADATA + b"metas a\n#\n", b"ok\n" * 5 + METADATA_LINES, [], ("--bail",)),
]

FAKES = [
    ("dies at once", "os.kill(os.getpid(), 9)", 4, "died by SIGKILL"),
    ("dies after an answer", "input(); print('ok', flush=True); os.abort()", 4, "died by SIGABRT"),
    ("reads all, answers nothing", "sys.stdin.read()", 4, "ended before it answered line 1"),
    ("answers one line", "input(); print('ok')", 4, "ended before it answered line 2"),
    ("reads nothing, ends", "pass", 4, "ended before it answered line 1"),
    ("answers too much", "print('ok\\nend 0\\nok', flush=True); sys.stdin.read()", 4, "unexpected answer: ok"),
    ("a wrong end", "sys.stdin.read(); print('ok\\nend 1')", 4, "unexpected answer to line 2: end 1"),
    ("closes its answers, stays", "os.close(1); time.sleep(30)", 4, "closed its answers but did not end"),
    ("another status", "sys.exit(77)", 4, "unknown status 77"),
    ("a silent fault", "sys.exit(3)", 3, "ended with status 3"),
    ("a fault in words", "sys.exit('out of luck')", 4, "fake: out of luck"),
]


class Runs(unittest.TestCase):
    """A folder for each test, and the ways to run `vdb-run` in it."""

    def setUp(self) -> None:
        folder = tempfile.TemporaryDirectory()
        self.addCleanup(folder.cleanup)
        self.folder = Path(folder.name)

    def play(self, *words: str, script: Optional[bytes] = b"", vdb: str = VDB, **more: object) -> Ran:
        """Runs with words, and a script on standard input."""
        ran = subprocess.run(
            [sys.executable, str(RUN), "--vdb", vdb, *words], input=script, capture_output=True, cwd=self.folder, timeout=WAIT, **more
        )
        return Ran(ran.returncode, ran.stdout, ran.stderr.decode())

    def plain(self, *words: str, script: bytes = b"") -> Ran:
        """Runs the program alone."""
        ran = subprocess.run([VDB, *words], input=script, capture_output=True, cwd=self.folder, timeout=WAIT)
        return Ran(ran.returncode, ran.stdout, ran.stderr.decode())

    def fake(self, body: str) -> str:
        """Makes a program that does what the body says."""
        path = self.folder / "fake"
        path.write_text(f"#!{sys.executable}\nimport os, sys, time\n{textwrap.dedent(body)}\n")
        path.chmod(0o755)
        return str(path)

    def files(self) -> List[str]:
        """Returns the names in the folder."""
        return sorted(os.listdir(self.folder))


class Scripts(Runs):
    def test_cases(self) -> None:
        for case in CASES:
            with self.subTest(case.name):
                (self.folder / "s.txt").write_bytes(case.script)
                told = "".join(f"s.txt:{it}\n" if it != "--bail" else "" for it in case.errors)
                for source, words, given in (("s.txt", ("s.txt",), b""), ("<stdin>", (), case.script)):
                    ran = self.play(*case.options, *words, script=given)
                    expected = told.replace("s.txt:", f"{source}:")
                    if "--bail" in case.errors:
                        expected += f"vdb-run: {source}: --bail ends the script at line 7\n"
                    self.assertEqual(ran, Ran(1 if case.errors else 0, case.out, expected))
                if not case.options:
                    plain = self.plain(script=case.script)
                    self.assertEqual((plain.status, plain.out), (ran.status, ran.out))

    def test_loaded_metadata(self) -> None:
        """The keys of a loaded grid are unknown to vdb-run."""
        self.play("--save", "a.vdbs", script=METADATA)
        ran = self.play("--load", "a.vdbs", script=b"metas a\ncopy a b\nmetas b\nmetas c\ndrop a\nmetas a\nbar")
        self.assertEqual(ran.out, METADATA_LINES + b"ok\n" + METADATA_LINES + b"error no-grid\nok\nerror no-grid\nerror syntax\n")
        told = "<stdin>:4: error no-grid: metas c\n<stdin>:6: error no-grid: metas a\n<stdin>:7: error syntax: bar\n"
        self.assertEqual((ran.status, ran.err), (1, told))

    def test_as_the_program(self) -> None:
        """Long scripts, at the limit and beyond it, are answered as by the program alone."""
        command, too_long = b"grid a i32 0\n", "vdb-run: <stdin>: script: too-long\n"
        long_line = b"x" * (SCRIPT_LIMIT - len(command))
        error = "error line-too-long: " + "x" * 256 + " ...\n"
        scripts = {
            "at the limit": (command + long_line, 1, f"<stdin>:2: {error}"),
            "one byte more": (long_line[1:] + b"\n" + command + b"\n", 4, f"<stdin>:1: {error}{too_long}"),
            "much longer": (command + long_line + b"foo\n" * 99_999, 4, too_long),
        }
        for name, (script, status, told) in scripts.items():
            with self.subTest(name):
                plain = self.plain(script=script)
                self.assertEqual(self.play(script=script), Ran(status, plain.out, told))
                self.assertEqual(plain.status, status)

    def test_large_answers(self) -> None:
        """Answers much longer than the script fill no pipe for good."""
        script = b"grid a i32 0\nfill a 0 0 0 15 15 15 7 on\n" + b"list a 0 0 0 99 99 99 4096\n" * 20 + b"foo\n" * 9
        ran = self.play(script=script)
        self.assertEqual((ran.status, ran.out), self.plain(script=script)[:2])
        self.assertEqual(ran.err, "".join(f"<stdin>:{it}: error syntax: foo\n" for it in range(23, 32)))

    def test_answers_come_at_once(self) -> None:
        """A line is answered before the next one is written."""
        with subprocess.Popen([str(RUN), "--vdb", VDB], stdin=subprocess.PIPE, stdout=subprocess.PIPE, bufsize=0) as run:
            for line, answer in ((b"grid a i32 0\n", b"ok\n"), (b"metas a\n", b"end 0\n"), (b"#\nbounds a\n", b"bounds none\n")):
                run.stdin.write(line)
                self.assertTrue(select.select([run.stdout], [], [], WAIT)[0])
                self.assertEqual(run.stdout.read(99), answer)
            run.stdin.close()
            self.assertEqual(run.wait(WAIT), 0)


class Saves(Runs):
    def test_saves(self) -> None:
        """The status, the option and the old file decide what is saved."""
        good, refused = b"grid a i32 0\n", b"grid a i32 0\nfoo\n"
        hint = "not saved, status 1: commands failed: 1"
        table = [
            ("status 0", good, (), True, ""),
            ("status 1", refused, (), False, hint + " (--force saves all the same)"),
            ("status 1 with --force", refused, ("--force",), True, ""),
            ("--bail", refused, ("--bail",), False, hint),
            ("--bail beats --force", refused, ("--bail", "--force"), False, hint),
            ("status 3", good, ("--load", "bad"), False, "not saved, status 3"),
            ("status 3 with --force", good, ("--load", "bad", "--force"), False, "not saved, status 3"),
            ("status 4", b"x" * (SCRIPT_LIMIT + 1), ("--force",), False, "not saved, status 4"),
        ]
        self.plain("--save", "wanted", script=good)
        wanted = (self.folder / "wanted").read_bytes()
        target = self.folder / "t.vdbs"
        (self.folder / "bad").write_bytes(b"VDBT")
        for name, script, words, saved, reason in table:
            for old in (None, b"old"):
                with self.subTest(name, old=old):
                    if old is None:
                        target.unlink() if target.exists() else None
                    else:
                        target.write_bytes(old)
                        target.chmod(0o640)
                    ran = self.play(*words, "--save", "t.vdbs", script=script)
                    now = target.read_bytes() if target.exists() else None
                    self.assertEqual(now, wanted if saved else old)
                    told = f"vdb-run: t.vdbs: {reason}{'; the old file stays' if old else ''}\n"
                    self.assertEqual(ran.err.endswith(told), not saved, ran.err)
                    if old:
                        self.assertEqual(stat.S_IMODE(target.stat().st_mode), 0o640)
                    self.assertEqual([it for it in self.files() if it.startswith(".")], [])

    def test_new_file_obeys_the_mask(self) -> None:
        self.play("--save", "t.vdbs", preexec_fn=lambda: os.umask(0o027))
        self.assertEqual(stat.S_IMODE((self.folder / "t.vdbs").stat().st_mode), 0o640)

    def test_load_and_save_one_file_through_a_link(self) -> None:
        (self.folder / "link").symlink_to("t.vdbs")
        self.play("--save", "link", script=b"grid a i32 0\n")
        ran = self.play("--load", "link", "--save=link", script=b"grid b i32 0\n")
        self.assertEqual(ran, Ran(0, b"ok\n", ""))
        self.assertTrue((self.folder / "link").is_symlink())
        self.assertEqual(self.plain("--load", "t.vdbs", script=b"drop a\ndrop b\n").status, 0)

    def test_no_regular_file(self) -> None:
        self.assertEqual(self.play("--save", "/dev/null").status, 0)
        self.assertTrue(stat.S_ISCHR(os.stat("/dev/null").st_mode))
        ran = self.play("--save", "/dev/full")
        self.assertEqual((ran.status, ran.err.splitlines()[0]), (4, "vdb-run: /dev/full: save: write (No space left on device)"))

    def test_no_target(self) -> None:
        """A folder or a missing folder is reported before the script is played."""
        for target, reason in ((".", "Is a directory"), ("none/t.vdbs", "No such file or directory")):
            ran = self.play("--save", target, script=b"grid a i32 0\n")
            self.assertEqual(ran, Ran(4, b"", f"vdb-run: {target}: save: write ({reason})\n"))


class Faults(Runs):
    def test_fakes(self) -> None:
        for name, body, status, told in FAKES:
            with self.subTest(name):
                script = b"grid a i32 0\nlist a 0 0 0 1 1 1 1\n"
                ran = self.play("--save", "t.vdbs", script=script, vdb=self.fake(body))
                self.assertEqual(ran.status, status, ran.err)
                self.assertIn(told, ran.err)
                self.assertNotIn("Traceback", ran.err)
                self.assertTrue(ran.err.endswith(f"vdb-run: t.vdbs: not saved, status {status}\n"), ran.err)
                self.assertEqual(self.files(), ["fake"])

    def test_one_line_each(self) -> None:
        """What can't be done is reported in one line."""
        (self.folder / "part").write_bytes(b"VDBS\0\2\0")
        (self.folder / "text").write_text("no program")
        table = [
            (("--load", "part"), 3, "part: load: truncated"),
            (("--load", "none"), 3, "none: load: read (No such file or directory)"),
            (("--load", "."), 3, ".: load: read (Is a directory)"),
            (("none",), 4, "none: script: read (No such file or directory)"),
            (("-",), 4, "-: script: read (No such file or directory)"),
            (("/",), 4, "/: script: read (Is a directory)"),
            (("--vdb", "./none"), 2, "./none: No such file or directory"),
            (("--vdb", "./text"), 2, "./text: Permission denied"),
            (("--loud",), 2, "unrecognized arguments: --loud (--help shows the options)"),
            (("--load",), 2, "argument --load: expected one argument (--help shows the options)"),
            (("--memory", "0"), 2, "argument --memory: invalid byte_count value: '0' (--help shows the options)"),
            (("a", "b"), 2, "unrecognized arguments: b (--help shows the options)"),
        ]
        for words, status, told in table:
            with self.subTest(words):
                self.assertEqual(self.play(*words, script=b"grid a i32 0\n"), Ran(status, b"", f"vdb-run: {told}\n"))

    def test_memory(self) -> None:
        """Each box of 128 voxels along each axis becomes 4,096 leaves, whose values take 16 MiB: 64 MiB of address space don't hold eight."""
        lines = ["grid a i64 0", "fill a 0 0 0 1023 127 127 1 on", *(f"voxelise a {at} 0 0 {at + 127} 127 127" for at in range(0, 1024, 128)), "count a all"]
        script = "".join(f"{line}\n" for line in lines).encode()
        self.assertEqual(self.play(script=script), Ran(0, b"ok\n" * 10 + b"count 16777216\n", ""))
        ran = self.play("--memory", str(64 << 20), script=script)
        self.assertEqual((ran.status, ran.out.splitlines()[-2:]), (1, [b"error memory", b"count 16777216"]))

    def test_memory_for_a_scene_file(self) -> None:
        """Each root block with one voxel has 36 bytes, and reserves 308 KB: 64 MiB of address space don't hold 400."""
        head = b"VDBS\0\2\0\1\1a\2" + bytes(8) + b"\0\0\x10\0\0" + (400).to_bytes(4, "big")
        blocks = [at.to_bytes(4, "big") + bytes(8) + 3 * b"\3\0\1\0\0" + b"\2" + bytes(7) + b"\1" for at in range(400)]
        self.assertEqual({len(it) for it in blocks}, {36})
        (self.folder / "many").write_bytes(head + b"".join(blocks))
        self.assertEqual(self.play("--load", "many", script=b"count a all\n"), Ran(0, b"count 400\n", ""))
        ran = self.play("--memory", str(64 << 20), "--load", "many", script=b"count a all\n")
        self.assertEqual(ran, Ran(3, b"", "vdb-run: many: load: memory\n"))

    def test_answers_not_written(self) -> None:
        for words in ((), ("--save", "t.vdbs")):
            with open("/dev/full", "wb") as full:
                run = [str(RUN), "--vdb", VDB, *words]
                ran = subprocess.run(run, input=b"foo\n", stdout=full, stderr=subprocess.PIPE, cwd=self.folder, timeout=WAIT)
            told = "vdb-run: standard output: answers: write (No space left on device)\n"
            self.assertEqual((ran.returncode, ran.stderr.decode()[: len(told)]), (4, told))
            self.assertEqual(self.files(), [])

    def test_signals(self) -> None:
        """A signal ends the run, saves nothing and leaves no temporary file."""
        for number in (signal.SIGINT, signal.SIGTERM):
            command = [str(RUN), "--vdb", VDB, "--save", "t.vdbs"]
            run = subprocess.Popen(command, stdin=subprocess.PIPE, stdout=subprocess.PIPE, stderr=subprocess.PIPE, cwd=self.folder, bufsize=0)
            run.stdin.write(b"grid a i32 0\n")
            self.assertEqual(run.stdout.read(3), b"ok\n")
            run.send_signal(number)
            err = run.communicate(timeout=WAIT)[1].decode()
            self.assertEqual(run.returncode, 128 + number)
            self.assertEqual(err, f"vdb-run: ended by {number.name}\nvdb-run: t.vdbs: not saved, status {128 + number}\n")
            self.assertEqual(self.files(), [])

    def test_help_and_program(self) -> None:
        shown = subprocess.run([str(RUN), "--help"], capture_output=True, text=True, timeout=WAIT)
        self.assertEqual(shown.returncode, 0)
        for wanted in ("vdb-run --load labels.vdbs --save labels.vdbs clean.txt", "Exit status: 0 success", "Ctrl-C twice"):
            self.assertIn(wanted, shown.stdout)
        named = subprocess.run([str(RUN)], input=b"foo\n", capture_output=True, env={**os.environ, "VDB": VDB}, timeout=WAIT)
        self.assertEqual((named.returncode, named.stdout), (1, b"error syntax\n"))


class Terminals(Runs):
    """Runs on a pseudo-terminal."""

    def start(self, *words: str, out: Optional[int] = None, script: Optional[int] = None) -> Tuple[subprocess.Popen, int]:
        """Starts with a terminal in place of each stream that isn't given."""
        master, slave = pty.openpty()
        self.addCleanup(os.close, master)
        run = subprocess.Popen(
            [str(RUN), "--vdb", VDB, *words],
            stdin=slave if script is None else script,
            stdout=slave if out is None else out,
            stderr=slave,
            cwd=self.folder,
            env={**os.environ, "TERM": "dumb", "XDG_STATE_HOME": str(self.folder / "state")},
            start_new_session=True,
        )
        os.close(slave)
        self.addCleanup(run.wait, WAIT)
        self.addCleanup(run.kill)
        return run, master

    def read(self, master: int, until: bytes) -> bytes:
        """Reads from the terminal up to a text, or to its end."""
        text, limit = b"", time.monotonic() + WAIT
        while until not in text:
            self.assertTrue(select.select([master], [], [], limit - time.monotonic())[0], text)
            try:
                data = os.read(master, 4096)
            except OSError:
                data = b""
            if not data:
                self.assertEqual(until, b"\xff", text)
                return text
            text += data
        return text

    def talk(self, master: int, lines: List[bytes]) -> bytes:
        """Types lines, each when the prompt is there."""
        text = b""
        for line in lines:
            text += self.read(master, b"vdb> ")
            time.sleep(0.05)
            os.write(master, line)
        return text

    def test_prompt(self) -> None:
        """Ctrl-D ends and saves, also after an error; the history is kept."""
        run, master = self.start("--save", "t.vdbs")
        text = self.talk(master, [b"grid a i32 4\n", b"foo\n", b"get a - 0 0 0\n", b"\x04"]) + self.read(master, b"\xff")
        self.assertEqual(run.wait(WAIT), 1)
        self.assertIn(b"<stdin>:2: error syntax: foo\r\n", text)
        self.assertNotIn(b"\nerror syntax\r\n", text)
        self.assertIn(b"value 4 off\r\n", text)
        self.assertEqual(self.plain("--load", "t.vdbs", script=b"drop a\n").status, 0)
        history = (self.folder / "state" / "vdb-run" / "history").read_text().splitlines()
        self.assertEqual(history[-3:], ["grid a i32 4", "foo", "get a - 0 0 0"])

    def test_prompt_history_unwritable(self) -> None:
        (self.folder / "state").write_text("no folder")
        run, master = self.start()
        self.talk(master, [b"grid a i32 4\n", b"\x04"])
        self.read(master, b"\xff")
        self.assertEqual(run.wait(WAIT), 0)

    def test_prompt_interrupted(self) -> None:
        """One Ctrl-C does no harm, two leave without saving."""
        run, master = self.start("--save", "t.vdbs")
        text = self.talk(master, [b"grid a i32 4\n"])
        self.read(master, b"vdb> ")
        time.sleep(0.5)  # a signal between the prompt and the wait for a key counts only when a key comes
        run.send_signal(signal.SIGINT)
        self.assertIn(b"Ctrl-C again leaves without saving", self.read(master, b"vdb> "))
        os.write(master, b"get a - 0 0 0\n")
        self.assertIn(b"value 4 off", self.read(master, b"vdb> "))
        for until in (b"vdb> ", b"\xff"):
            time.sleep(0.5)
            run.send_signal(signal.SIGINT)
            text = self.read(master, until)
        self.assertEqual(run.wait(WAIT), 130)
        self.assertIn(b"vdb-run: t.vdbs: not saved, status 130", text)
        self.assertEqual(self.files(), ["state"])

    def test_prompt_after_a_fault(self) -> None:
        """A scene that can't be loaded is reported before the first prompt."""
        (self.folder / "bad").write_bytes(b"VDBT")
        run, master = self.start("--load", "bad")
        text = self.read(master, b"\xff")
        self.assertEqual(run.wait(WAIT), 3)
        self.assertEqual(text, b"vdb-run: bad: load: magic\r\n")

    def test_prompt_bail(self) -> None:
        run, master = self.start("--bail")
        self.talk(master, [b"foo\n"])
        self.assertIn(b"<stdin>:1: error syntax: foo\r\n", self.read(master, b"\xff"))
        self.assertEqual(run.wait(WAIT), 1)

    def test_bar(self) -> None:
        """The bar is on a terminal alone, and a line with the time replaces it."""
        script = self.folder / "s.txt"
        slow = self.fake("for line in sys.stdin: time.sleep(1.3); print('ok', flush=True)")
        script.write_bytes(b"grid a i32 0\nget a - 0 0 0\n")
        for words, barred in (((), True), (("--quiet",), False)):
            run, master = self.start("--vdb", slow, *words, str(script), out=subprocess.DEVNULL)
            text = self.read(master, b"\xff")
            self.assertEqual(run.wait(WAIT), 0)
            self.assertEqual(b"100%" in text and b"2 lines in " in text, barred, text)
            self.assertEqual(text == b"", not barred)


if __name__ == "__main__":
    if not os.access(VDB, os.X_OK):
        sys.exit(f"{VDB}: no program: build it by .ci/run --proofs, or name it by the variable VDB")
    unittest.main()
