# SPDX-License-Identifier: Apache-2.0
"""Plays cases by their seed and number, minimises those that fail, and writes them as rows."""
import concurrent.futures
import random
import resource
import time

from cases import Cases, vetted
from mutating import Files, Scripts, corpus, encoding

MIX = ["script", "file", "file", "memory", "file", "script", "file", "file", "script", "file"]
PATIENCE = 60  # seconds to minimise one case


def used():
    """Returns the seconds of a processor that this process and its ended children used."""
    return sum(it.ru_utime + it.ru_stime for it in map(resource.getrusage, (resource.RUSAGE_SELF, resource.RUSAGE_CHILDREN)))


class Case:
    """One case: its name SEED:KIND:NUMBER, from which its input and the chances of its play come."""

    def __init__(self, seed, kind, number, maker):
        self.name, self.kind = f"{seed}:{kind}:{number}", kind
        self.input = maker.make(random.Random(f"make {self.name}"))

    def fault(self, cases, given=None):
        """Plays the case, or the same with another input."""
        return getattr(cases, self.kind)(self.input if given is None else given, random.Random(f"play {self.name}"))

    def minimised(self, cases):
        """Returns the smallest input found that still has a fault: parts are left out, ever smaller ones."""
        best, size, end = self.input, max(1, len(self.input) // 2), time.monotonic() + PATIENCE
        while size:
            at = 0
            while at < len(best) and time.monotonic() < end:
                less = best[:at] + best[at + size :]
                if less and self.fault(cases, less):
                    best = less
                else:
                    at += size
            size //= 2
        return best


def as_row(name, comment, text, kind):
    """Returns the row of a script's lines, with the answers of the model, or of a file's bytes."""
    head = f"== {name}\n# {comment.encode('ascii', 'backslashreplace').decode()[:120]}\n"
    if kind == "file":
        digits = text.hex()
        wanted = encoding.verdict(text)
        lines = [f"load: {digits[at : at + 120]}" for at in range(0, len(digits), 120)] or ["load: 00"]
        if isinstance(wanted, str):
            lines.append(f"fault: {wanted}")
        else:
            saved = wanted.hex()
            lines += [f"saved: {saved[at : at + 120]}" for at in range(0, len(saved), 120)]
        return head + "\n".join(lines) + "\n"
    made = []
    for line, answer in vetted(text)[0]:
        printable = all(0x20 <= byte <= 0x7E for byte in line)
        mark = "+" if printable and answer == ["ok"] else ">"
        made.append(f"{mark} {line.decode()}".rstrip(" ") if printable else ">> " + repr(line)[2:-1].replace("\\'", "'") + "\\n")
        made += answer if mark == ">" else []
    return head + "\n".join(made) + "\n"


def side_by_side(work, arguments, notes):
    """Calls a function with each of these tuples of arguments in processes of their own. Returns the results of those that ended, and a
    text for each that died: the case that it noted in the file beside."""
    results, died = [], []
    with concurrent.futures.ProcessPoolExecutor(len(arguments)) as pool:
        for running, note in [(pool.submit(work, *it), note) for it, note in zip(arguments, notes)]:
            try:
                results.append(running.result())
            except concurrent.futures.process.BrokenProcessPool:
                died.append(f"a worker died, perhaps of {note.read_text().partition(chr(10))[0] if note.exists() else 'its start'}")
    return results, died


class Player:
    """Plays cases, and counts them by their kind. `failed` has a text for each that fails."""

    def __init__(self, told=print, note=None):
        """`note` is a file that always has the name of the case that is played, in case this process dies of it."""
        self.rows, self.note = corpus(), note and open(note, "wb", buffering=0)
        self.cases, self.makers = Cases(), {"file": Files(self.rows)}
        self.makers["script"] = self.makers["memory"] = Scripts(self.rows)
        self.counts, self.failed, self.told = {"row": 0, "script": 0, "memory": 0, "file": 0}, [], told

    def play(self, seed, kind, number):
        """Plays one case. Returns its row if it fails, or an empty text."""
        self.begin(f"{seed}:{kind}:{number}", kind)
        case = Case(seed, kind, number, self.makers[kind])
        fault = case.fault(self.cases)
        return self.found(case, fault) if fault else ""

    def begin(self, name, kind):
        """Counts a case, and notes its name."""
        self.counts[kind] += 1
        if self.note:
            self.note.seek(0)
            self.note.write(f"{name}\n".encode())

    def end(self):
        """Removes the files of the drivers."""
        self.cases.place.holder.cleanup()

    def found(self, case, fault):
        what = f"{case.name}: {fault[:400]}"
        self.failed.append(what)
        self.told(f"FAILED {what}", flush=True)
        least = case.minimised(self.cases) if len(self.failed) <= 3 else case.input
        fault = case.fault(self.cases, least)
        return as_row(case.name, fault, least, case.kind)

    def play_corpus(self, part=0, parts=1):
        """Plays each row, or one part of them."""
        for row in self.rows[part::parts]:
            self.begin(row.place, "row")
            fault = self.cases.row(row, random.Random(row.name))
            if fault:
                self.failed.append(f"{row.place}: {fault}")
                self.told(f"FAILED {row.place}: {fault}", flush=True)

    def play_fixed(self, counts, part=0, parts=1):
        """Plays the first cases of seed 0."""
        for kind, count in counts.items():
            for number in range(part, count, parts):
                self.told(self.play(0, kind, number), end="")

    def play_until(self, seed, seconds, part=0, parts=1, keep=None):
        """Plays cases until this process has used so many seconds of a processor. `keep` gets the row of each that fails."""
        number = part
        while used() < seconds:
            row = self.play(seed, MIX[number // parts % len(MIX)], number)
            if row:
                (keep or self.told)(row)
            number += parts
