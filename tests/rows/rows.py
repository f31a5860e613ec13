#!/usr/bin/env python3
# SPDX-License-Identifier: Apache-2.0
"""Reads rows, which are scripts with their answers as text, and plays them through the program `vdb`. tests/rows/README.md describes
the form.

A row passes if the program gives its answers, its line on standard error and its exit status, and saves its bytes. Each row that
fails is told by the place in its file of the first line that differs. The last line is 'N passed, M failed'.
"""
import argparse
import os
import re
import subprocess
import sys
import tempfile
from dataclasses import dataclass, field
from pathlib import Path
from typing import List, NamedTuple, Optional

TOP = Path(__file__).resolve().parents[2]
FOLDER = TOP / "tests" / "rows"
DATA = sorted(FOLDER.glob("*.rows"))
PROGRAM = TOP / "crates" / "vdb" / "out" / "vdb"
PATIENCE = 280  # seconds for one row
HEAD = re.compile(r"(load|saved|status|stderr|fault):(?: (.*))?\Z")
ESCAPE = re.compile(r"\\(n|r|t|\\|x[0-9a-f]{2})|\\")
ESCAPED = {"n": "\n", "r": "\r", "t": "\t", "\\": "\\"}
EPILOG = "Example: tests/rows/rows.py tests/rows/boxes.rows examples/ball.rows"


class Malformed(Exception):
    """A file that has not the form of rows: FILE:LINE: reason."""


class Answer(NamedTuple):
    """A line of an answer, and its line in the file."""

    text: str
    line: int


@dataclass
class Command:
    """Bytes of a script, mostly one line, with the answers below them, and whether no allocation of them may fail."""

    text: bytes
    answers: List[Answer] = field(default_factory=list)
    allocates_nothing: bool = False

    @property
    def answered(self) -> bytes:
        """The answers as the program writes them."""
        return "".join(f"{it.text}\n" for it in self.answers).encode()


@dataclass
class Row:
    """A row: where it stands, the scene file before it, the file that it saves, its end, and its commands."""

    file: Path
    line: int
    name: str
    load: Optional[bytes] = None
    #: whether the session saves; `saved` is None if it must write nothing
    saves: bool = False
    saved: Optional[bytes] = None
    given_status: Optional[int] = None
    stderr: bytes = b""
    commands: List[Command] = field(default_factory=list)

    @property
    def place(self) -> str:
        return f"{self.file}:{self.line}: {self.name}"

    @property
    def script(self) -> bytes:
        return b"".join(it.text for it in self.commands)

    @property
    def answers(self) -> List[Answer]:
        return [answer for it in self.commands for answer in it.answers]

    @property
    def answered(self) -> bytes:
        return b"".join(it.answered for it in self.commands)

    @property
    def status(self) -> int:
        if self.given_status is not None:
            return self.given_status
        return int(any(it.text.startswith("error ") for it in self.answers))


class Reader:
    """Reads the lines of a file one after another."""

    def __init__(self, file: Path) -> None:
        self.file, self.line, self.rows, self.heads = file, 0, [], set()

    def need(self, holds: object, reason: str) -> None:
        """Raises Malformed unless the condition holds."""
        if not holds:
            raise Malformed(f"{self.file}:{self.line}: {reason}")

    def read(self, text: bytes) -> List[Row]:
        """Returns the rows of a file's bytes."""
        self.line = 1
        self.need(text.startswith(b"# "), "the first line must say in a comment what the rows show")
        for self.line, line in enumerate(text.removesuffix(b"\n").split(b"\n"), 1):
            self.need(all(0x20 <= byte <= 0x7E for byte in line), "a byte is not printable ASCII")
            if line:
                self.take(line.decode())
        self.need(text.endswith(b"\n"), "the last line must end with a newline")
        self.need(self.rows, "the file has no row")
        return self.rows

    def take(self, line: str) -> None:
        """Takes in a line that isn't empty."""
        if line.startswith("=="):
            self.begin(line)
        elif line.startswith("#"):
            self.need(not (self.rows and self.rows[-1].commands), "a comment must stand before the first command of its row")
        else:
            self.need(self.rows, "a line stands before the first row")
            head = HEAD.match(line)
            if head:
                self.need(not self.rows[-1].commands, "a head must stand before the first command of its row")
                self.head(self.rows[-1], head[1], head[2] or "")
                self.heads.add(head[1])
            elif line.startswith((">", "+ ")):
                ok = [Answer("ok", self.line)] if line[0] == "+" else []
                self.rows[-1].commands.append(Command(self.bytes_of(">" + line[1:] if ok else line), ok))
            else:
                self.answer(line)

    def begin(self, line: str) -> None:
        """Begins a row."""
        name = line[3:]
        self.need(line.startswith("== ") and name and name == name.strip(), "a row must begin with '== NAME'")
        self.need(name not in (row.name for row in self.rows), f"a row above has the name {name!r}")
        self.rows.append(Row(self.file, self.line, name))
        self.heads = set()

    def head(self, row: Row, word: str, text: str) -> None:
        """Takes in a head of a row."""
        more = word in self.heads
        if word == "load":
            self.need("saved" not in self.heads, "'load:' must stand above 'saved:'")
            row.load = (row.load or b"") + (self.saved_by(text[6:]) if text.startswith("saved ") else self.hexadecimal(text))
        elif word == "saved":
            self.need(not more or (row.saved and text not in ("none", "empty", "same")), "'saved:' stands twice")
            self.need(text != "same" or row.load is not None, "'saved: same' without 'load:' above it")
            known = {"none": None, "empty": b"", "same": row.load}
            row.saves, row.saved = True, known[text] if text in known else (row.saved or b"") + self.hexadecimal(text)
        else:
            self.need(not more and text, f"'{word}:' stands twice, or has no text")
            if word == "fault":
                row.saves, row.given_status, row.stderr = True, 3, f"vdb: load: {text}\n".encode()
            elif word == "stderr":
                row.stderr = text.encode() + b"\n"
            else:
                self.need(re.fullmatch("[0-9]|[1-9][0-9]{1,2}", text), f"{text!r} is no exit status")
                row.given_status = int(text)

    def hexadecimal(self, text: str) -> bytes:
        self.need(re.fullmatch("([0-9a-f]{2})+", text), "the bytes must be pairs of hexadecimal digits in small letters")
        return bytes.fromhex(text)

    def saved_by(self, name: str) -> bytes:
        """Returns the bytes that a row above saves."""
        found = [row.saved for row in self.rows[:-1] if row.name == name]
        self.need(found and found[0] is not None, f"no row above saves a file under the name {name!r}")
        return found[0]

    def bytes_of(self, line: str) -> bytes:
        """Returns the bytes of a script's line, or those that stand behind `>>`."""
        if line.startswith(">> "):
            return ESCAPE.sub(self.escaped, line[3:]).encode("latin-1")
        self.need(line == ">" or line.startswith("> "), "a command must stand behind '> ' or '>> '")
        return line[2:].encode() + b"\n"

    def escaped(self, found: "re.Match[str]") -> str:
        self.need(found[1], "a backslash must begin \\n, \\r, \\t, \\\\ or \\xHH")
        return ESCAPED.get(found[1]) or chr(int(found[1][1:], 16))

    def answer(self, line: str) -> None:
        """Takes in an answer to the last command, or its mark."""
        commands = self.rows[-1].commands
        self.need(commands, "an answer stands before the first command of its row")
        if line == "(allocates nothing)":
            commands[-1].allocates_nothing = True
        else:
            commands[-1].answers.append(Answer(line, self.line))


def files() -> List[Path]:
    """Returns all files of rows."""
    return DATA + sorted(TOP.glob("examples/*.rows"))


def read(file: Path) -> List[Row]:
    """Returns the rows of a file. Raises Malformed if it hasn't their form, or OSError."""
    return Reader(file).read(file.read_bytes())


def words_of(row: Row, script: str, load: Path, saved: Path) -> List[str]:
    """Returns the words of a row's command line. Its script is on standard input if `script` is empty."""
    loads = ["--load", str(load)] if row.load is not None else []
    return [*(["--save", str(saved)] if row.saves else []), *([script] if script else []), *loads]


def played(row: Row, program: str, folder: Path, named: bool) -> str:
    """Plays a row in this folder, with its script as a file, on the command line if `named`, else on standard input. Returns what
    differs, or an empty text."""
    load, saved, script = folder / "load", folder / "saved", folder / "script"
    saved.unlink(missing_ok=True)
    script.write_bytes(row.script)
    load.write_bytes(row.load or b"")
    words = [program, *words_of(row, str(script) if named else "", load, saved)]
    with open(os.devnull if named else script, "rb") as given:
        try:
            ran = subprocess.run(words, stdin=given, capture_output=True, timeout=PATIENCE)
        except (OSError, subprocess.TimeoutExpired) as error:
            return f"{row.place}: {error}"
    return difference(row, ran.stdout, ran.stderr, ran.returncode, saved)


def difference(row: Row, answers: bytes, errors: bytes, status: int, saved: Path) -> str:
    """Returns what differs first between a row and its run, or an empty text."""
    if answers != row.answered:
        return different_answer(row, answers.decode("latin-1").split("\n"))
    found = saved.read_bytes() if row.saves and saved.exists() else None
    ends = [("standard error", row.stderr, errors), ("the exit status", row.status, status), ("the saved file", row.saved, found)]
    return next((f"{row.place}: {what} is {found!r}, not {wanted!r}" for what, wanted, found in ends if wanted != found), "")


def different_answer(row: Row, found: List[str]) -> str:
    """Returns the first answer that differs, by its line in the file."""
    for answer, text in zip(row.answers, found):
        if answer.text != text and text:
            return f"{row.file}:{answer.line}: {row.name}: the answer is {text!r}, not {answer.text!r}"
    if len(found) <= len(row.answers) and not found[-1]:
        return f"{row.place}: there is no answer {row.answers[len(found) - 1].text!r}"
    return f"{row.place}: " + (f"there is a further answer {found[len(row.answers)]!r}" if found[len(row.answers):] else "the last answer has no newline")


def main() -> None:
    parser = argparse.ArgumentParser(description="Plays rows through the program vdb.", epilog=EPILOG)
    parser.add_argument("--program", default=str(PROGRAM), help="the program, crates/vdb/out/vdb by default")
    parser.add_argument("files", nargs="*", metavar="FILE", help="a file of rows; by default those of tests/rows and examples")
    words = parser.parse_args()
    chosen = [Path(name) for name in words.files] or files()
    try:
        rows = [row for file in chosen for row in read(file)]
    except (Malformed, OSError) as error:
        sys.exit(f"rows.py: {error}")
    with tempfile.TemporaryDirectory() as folder:
        results = [played(row, words.program, Path(folder), number % 3 > 0) for number, row in enumerate(rows)]
    failed = [result for result in results if result]
    print("".join(f"{result}\n" for result in failed) + f"{len(rows) - len(failed)} passed, {len(failed)} failed")
    sys.exit(bool(failed) or not rows)


if __name__ == "__main__":
    main()
