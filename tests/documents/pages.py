# SPDX-License-Identifier: Apache-2.0
"""The pages that a reader follows: README, the tutorials and the how-tos. Each of their code blocks is run, and prints what the page shows.

A block's language says what it is: `sh` and `python` are run, each in one session per page; a language and a file's name, as in
`cpp loop.cpp`, is the content of that file; `text` is exactly what the block before it prints, on both streams. A block without one prints
nothing. README runs in a folder of links to what is at the top, and its exports hold in all pages; every other page begins in an empty
folder. The converters of tools/openvdb are on the PATH. Each page is run twice there, as by a reader who pastes it again.
"""
import difflib
import glob
import os
import re
import shutil
import subprocess
import sys
import tempfile
import threading
from typing import Dict, List, NamedTuple

from definitions import TOP, text

SECONDS = 300
END = "-- the end of a block --"
BASH = f'set -e -o pipefail; while IFS= read -r block; do . "$block" </dev/null; echo "{END}"; done'
PYTHON = f"""import sys
names = {{"__name__": "__main__"}}
for line in sys.stdin:
    with open(line[:-1], encoding="utf-8") as block:
        exec(compile(block.read(), "page", "exec"), names)
    print("{END}")
"""
SESSIONS = {"sh": ["bash", "-c", BASH], "python": ["python3", "-u", "-c", PYTHON]}
README = "README.md"


class Block(NamedTuple):
    line: int
    words: List[str]
    text: str


class Failed(Exception):
    """A block that fails, or prints something else than its page shows."""


def pages():
    """The pages, README first."""
    found = glob.glob(f"{TOP}/docs/tutorial-*.md") + glob.glob(f"{TOP}/docs/how-to/*.md")
    return [README, *sorted(os.path.relpath(it, TOP) for it in found)]


def blocks(name, section=""):
    """The fenced blocks of a page in order, or those from a section on."""
    page = text(name)
    first = page.index(f"\n## {section}\n") if section else 0
    found = re.finditer(r"(?ms)^```(.*?)\n(.*?)^```$", page)
    return [Block(page.count("\n", 0, it.start()) + 1, it[1].split(), it[2]) for it in found if it.start() >= first]


def bad_blocks(name):
    """Yields the blocks of a page that aren't of its form: code by indentation, another language, an output of nothing."""
    before = None
    for block in blocks(name):
        kind = block.words[0] if block.words else ""
        if len(block.words) == 1 and kind not in (*SESSIONS, "text") or len(block.words) not in (1, 2):
            yield f"{name}:{block.line}: a block of '{' '.join(block.words)}'"
        elif block.words == ["text"] and before not in SESSIONS:
            yield f"{name}:{block.line}: an output after no command"
        before = kind if len(block.words) == 1 else None
    for line in re.findall(r"(?m)(?:\A|^\n)^ {4}(?![-*]|\d+\.)\S.*", re.sub(r"(?ms)^```.*?^```$", "", text(name))):
        yield f"{name}: indented code, which isn't run: {line.strip()}"


class Session:
    """A process that runs one block after another, and keeps its variables and its folder."""

    def __init__(self, words, folder, environment):
        how = {"stdin": subprocess.PIPE, "stdout": subprocess.PIPE, "stderr": subprocess.STDOUT, "text": True, "errors": "replace"}
        self.process = subprocess.Popen(words, cwd=folder, env=environment, **how)

    def run(self, code):
        """Returns what a block prints. Raises Failed if it fails."""
        said, clock = [], threading.Timer(SECONDS, self.process.kill)
        with tempfile.NamedTemporaryFile("w", encoding="utf-8") as file:
            file.write(code)
            file.flush()
            clock.start()
            try:
                self.process.stdin.write(f"{file.name}\n")
                self.process.stdin.flush()
                for line in self.process.stdout:
                    said.append(line)
                    if line.endswith(f"{END}\n"):
                        return "".join(said)[: -len(END) - 1]
            finally:
                clock.cancel()
        raise Failed(f"{''.join(said)}it ended with status {self.process.wait()}")

    def close(self):
        self.process.stdin.close()
        self.process.wait()
        self.process.stdout.close()


def environment_of(shell):
    """Returns the variables that a session of bash exports."""
    with tempfile.NamedTemporaryFile("r", encoding="utf-8") as file:
        shell.run(f"env -0 > {file.name}")
        return dict(it.split("=", 1) for it in file.read().split("\0") if it)


def play(name, folder, environment, section=""):
    """Runs the blocks of a page, or those from a section on, in a folder. Returns how many it ran, and the variables at the end. Raises
    Failed."""
    sessions: Dict[str, Session] = {"sh": Session(SESSIONS["sh"], folder, environment)}
    found, ran = blocks(name, section), 0
    try:
        for block, after in zip(found, [*found[1:], None]):
            if len(block.words) == 2:
                with open(f"{folder}/{block.words[1]}", "w", encoding="utf-8") as file:
                    file.write(block.text)
                continue
            if block.words == ["text"]:
                continue
            kind, ran = block.words[0], ran + 1
            if kind not in sessions:
                sessions[kind] = Session(SESSIONS[kind], folder, environment_of(sessions["sh"]))
            shown = after.text if after and after.words == ["text"] else ""
            try:
                said = sessions[kind].run(block.text)
            except Failed as failure:
                raise Failed(f"{name}:{block.line}: {failure}") from None
            if said != shown:
                lines = difflib.unified_diff(shown.splitlines(), said.splitlines(), "the page", "the run", lineterm="")
                raise Failed("\n".join([f"{name}:{block.line}: it prints something else than the page shows", *lines]))
        return ran, environment_of(sessions["sh"])
    finally:
        for session in sessions.values():
            session.close()


def run(asked):
    """Runs README and the pages asked for, or all. Prints what failed and the numbers of blocks, and returns the status."""
    passed, failed = 0, 0
    unknown = {*asked} - {*pages()}
    if unknown:
        sys.exit(f"documents.py: {', '.join(unknown)}: no page of {', '.join(pages())}")
    with tempfile.TemporaryDirectory() as home:
        os.mkdir(f"{home}/bin")
        os.symlink(shutil.which(sys.executable), f"{home}/bin/python3")  # the one with NumPy
        environment = {**os.environ, "HOME": home, "PATH": f"{home}/bin:{os.environ['PATH']}:{TOP}/tools/openvdb", "LC_ALL": "C.UTF-8"}
        for name in (it for it in pages() if not asked or it in (README, *asked)):
            folder = tempfile.mkdtemp(dir=home)
            for it in os.listdir(TOP) if name == README else ():
                os.symlink(f"{TOP}/{it}", f"{folder}/{it}")
            try:
                for _ in range(2):
                    ran, after = play(name, folder, environment)
                    passed += ran
                print(f"{name}: {ran} blocks, twice", flush=True)
            except Failed as failure:
                print(failure, flush=True)
                failed += 1
            if name == README:
                if failed:
                    break
                environment = {**after, "PWD": home}
    print(f"{passed} passed, {failed} failed")
    return int(failed > 0)
