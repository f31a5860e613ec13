# SPDX-License-Identifier: Apache-2.0
"""Tries must-fail edits: applies them to a copy of their crate, checks the functions meant, and reads which goals are left open.

An edit of one function's body shows only in that function's proof, since other proofs see its contract alone. So one check tries many edits of
different functions, and each is judged by the open goals of its own function. For the same reason the proofs of all functions that are not tried are
left out of the copy: a hole stands in place of each, and nothing that they rest on is checked.
"""
import dataclasses
import os
import pathlib
import re
import shutil
import signal
import subprocess
import sys
import tempfile

from reading import Edit, function_at, functions_of, spans_of, spliced

sys.path.insert(0, next(f"{it}/.ci" for it in pathlib.Path(__file__).resolve().parents if (it / "crates.txt").exists()))
from crates import TOP, command_of, crates_below, library_of, named_by  # noqa: E402

# a refused answer of a goal, and a goal for which the search found no answer; the folder in proofs/ is the function's path
REFUSED = re.compile(r"(?:\./)?proofs/(\S+)/(?:Answers|Proof)\.antt:\d+:\d+: error: `([^`]+)`: (.*)")
OPEN = re.compile(r"note: `([^`]+)` of (?:\./)?proofs/(\S+)/Answers\.antt must prove")

# the most edits of one check: with more, one lane would work on while the others have nothing left
BATCH = 8

# what refuses an answer that names something which the edit took away: it says nothing of a clause
LOST = re.compile(r"is not in scope|has no field|is no name|has no `")

# what the check says of a function: whether it is proved, or what its proof lacks; of many open goals it prints no note
SAID = re.compile(r"fn \w+::(\S+): (.*)")
UNPROVED = re.compile(r"`search` did not prove (`[^`]+`(?:, `[^`]+`)*)")

# what the front end says of a text that it cannot read
UNREAD = re.compile(r"(?:\./)?(?:src|specs)/\S+:\d+:\d+: error: .*")

# the goals of a function that are no clause of its own: a callee's requires, a loop's invariant or measure, a type's invariant, safety
GOAL = re.compile(r"returns|\S+-(requires|init|preserved|smaller)(-\S+)?|(invariant_of|overflow_\w+|nonzero_\w+|bounds|\w+_bounds|prove)-\S+")


@dataclasses.dataclass
class Tried:
    """How an edit ended: the open goal that refused it, or a fault, and its share of the processor seconds."""

    edit: Edit
    goal: str
    fault: str
    seconds: float

    def __str__(self):
        heads = self.edit.heads
        return f"{self.edit}: {'FAILED: ' + self.fault if self.fault else 'refused by ' + self.goal} of {heads['function']}, {self.seconds:.0f} s"


def folder_of(crate):
    """The folder of a crate."""
    return f"{TOP}/crates/{crate}"


def texts_of(crate, spans):
    """The texts of the files of a crate that these spans change."""
    places = {path: open(f"{folder_of(crate)}/{path}", encoding="utf-8").read() for path, *_ in spans}
    return {path: spliced(text, [it for it in spans if it[0] == path]) for path, text in places.items()}


def changed_by(spans, functions):
    """The paths of the functions whose bodies or proofs hold these spans, with None for a span in no body."""
    proofs = {"::".join(path.split("/")[1:-1]) for path, *_ in spans if path.startswith("proofs/")}
    around = [function_at(functions.get(path, []), start, end) for path, start, end, _ in spans if not path.startswith("proofs/")]
    return proofs | {it and it.path for it in around}


def fault_of(edit, functions):
    """What is wrong with the text of an edit, or an empty text; functions are those of its crate."""
    name, clause = edit.heads["function"], edit.heads["clause"]
    try:
        spans = spans_of(edit, folder_of(edit.crate))
    except ValueError as error:
        return str(error)
    if name in changed_by(spans, functions):
        functions = {path: functions.get(path, []) for path, *_ in spans}
    else:
        functions = functions_of(folder_of(edit.crate), texts_of(edit.crate, spans))
    found = [it for several in functions.values() for it in several if it.path == name]
    if not found:
        return f"there is no function {name}"
    if clause in found[0].clauses or GOAL.fullmatch(clause) and (clause != "returns" or not any(found[0].clauses)):
        return ""
    return f"{name} has no clause {clause}" if found[0].clauses else ""


def faults_of(crate, edits):
    """Each edit of a crate with what is wrong with its text."""
    functions = functions_of(folder_of(crate))
    return [(it, fault_of(it, functions)) for it in edits]


def batches_of(crate, edits):
    """The edits of a crate in batches: in a batch each changes the body of another function, or one edit changes something else."""
    functions, rounds, alone = functions_of(folder_of(crate)), [], []
    for edit in edits:
        if changed_by(spans_of(edit, folder_of(crate)), functions) != {edit.heads["function"]}:
            alone.append([edit])
            continue
        batch = next((it for it in rounds if len(it) < BATCH and all(other.heads["function"] != edit.heads["function"] for other in it)), None)
        if batch:
            batch.append(edit)
        else:
            rounds.append([edit])
    return rounds + alone


def missing_below(crate):
    """The crates below a crate whose libraries are not built."""
    return [it for it in crates_below(crate, named_by(TOP)) if not os.path.isfile(f"{library_of(it)}/format")]


def try_batch(crate, batch, kept, most=None):
    """Tries a batch by one check, and each half of it by itself if the front end rejects the whole. The folder `kept` keeps what is proved.

    A check that takes the most processor seconds ends without a result.
    """
    spans = [it for edit in batch for it in spans_of(edit, folder_of(crate))]
    output, seconds = check(crate, texts_of(crate, spans), sorted({it.heads["function"] for it in batch}), kept, most)
    if output is None:
        return []
    if re.match(r"only=\d+ ", output.rstrip().rpartition("\n")[2]):
        return [judged(it, *goals_of(crate, output), seconds / len(batch)) for it in batch]
    if len(batch) > 1:
        most = most and max(1, int(most - seconds))
        return [it for part in (batch[: len(batch) // 2], batch[len(batch) // 2 :]) for it in try_batch(crate, part, kept, most)]
    unread = UNREAD.search(output)
    return [Tried(batch[0], "", f"the check did not reach its proof: {unread[0] if unread else output[-300:].strip()}", seconds)]


def check(crate, texts, names, kept, most):
    """Checks functions of a crate with other texts in place of some files; returns the output, or None if it took the most processor seconds, and
    these seconds."""
    os.makedirs(kept, exist_ok=True)
    named = named_by(TOP)
    built = {it: library_of(it) for it in crates_below(crate, named)}
    words = [*command_of(crate, named, built), "--incremental", kept, "--allow-holes", "--short-goals"]
    with tempfile.TemporaryDirectory(prefix="edit-") as room:
        for part in ("src", "specs", "proofs"):
            if os.path.isdir(f"{folder_of(crate)}/{part}"):
                shutil.copytree(f"{folder_of(crate)}/{part}", f"{room}/{part}")
        for path, text in texts.items():
            with open(f"{room}/{path}", "w", encoding="utf-8") as file:
                file.write(text)
        for several in functions_of(folder_of(crate)).values():
            for path in (it.path for it in several if it.is_named and it.path not in names):
                leave_out(crate, path, f"{room}/proofs")
        with open(f"{room}/output", "w+", encoding="utf-8", errors="replace") as output:
            words += [word for name in names for word in ("--only", name)]
            words = ["prlimit", f"--cpu={most}:", *words] if most else words
            ran = subprocess.Popen(words, cwd=room, stdin=subprocess.DEVNULL, stdout=output, stderr=subprocess.STDOUT)
            _, status, used = os.wait4(ran.pid, 0)
            output.seek(0)
            return None if os.waitstatus_to_exitcode(status) == -signal.SIGXCPU else output.read(), used.ru_utime + used.ru_stime


def cycles_in(folder):
    """The names of the functions in each cycle of calls of a module, by the folder of their measures, which begins with +."""
    found = {}
    for name in os.listdir(folder) if os.path.isdir(folder) else []:
        file = f"{folder}/{name}/Invariants.antt"
        if name.startswith("+") and os.path.exists(file):
            found[name] = re.findall(r"^abbrev pub decreases-(\w+) :", open(file, encoding="utf-8").read(), re.M)
    return found


def leave_out(crate, path, proofs):
    """Puts a hole in place of the proof of a function, but for one in a cycle of calls."""
    words = path.split("::")
    folder = "/".join([proofs, *words])
    if any(words[-1] in it for it in cycles_in("/".join([proofs, *words[:-1]])).values()):
        return
    os.makedirs(folder, exist_ok=True)
    for name in ("Answers.antt", "Invariants.antt"):
        if os.path.exists(f"{folder}/{name}"):
            os.remove(f"{folder}/{name}")
    with open(f"{folder}/Proof.antt", "w", encoding="utf-8") as file:
        file.write(f"use Rattle.{crate}.proofs.{'.'.join(words)}.Statement.{{statement}}\n\n")
        file.write(f"pub {words[-1]}_spec : {{M : Type 1}} → statement M\n{words[-1]}_spec = ?\n")


def goal_of(crate, folder, goal):
    """The path of the function of a goal, by the folder of its proof, and the goal's name in that function. In a cycle the name begins with
    the function's."""
    module, _, last = folder.rpartition("/")
    name, _, rest = goal.partition("-")
    if last.startswith("+"):
        inside = name in cycles_in(f"{folder_of(crate)}/proofs/{module}").get(last, [])
        last, goal = (name, rest) if inside else (last[1:], goal)
    return f"{module}/{last}".lstrip("/").replace("/", "::"), goal


def goals_of(crate, output):
    """The open goals of each function that a check names, those whose answer only names what is gone, and what the check says of the function."""
    goals, lost, said = {}, {}, {}
    for line in output.splitlines():
        refused, opened, told = REFUSED.match(line), OPEN.match(line), SAID.match(line)
        if told:
            said[told[1]] = told[2]
            unproved = UNPROVED.search(told[2])
            goals.setdefault(told[1], []).extend(unproved[1].strip("`").split("`, `") if unproved else [])
        if refused or opened:
            path, goal = goal_of(crate, *(refused.group(1, 2) if refused else opened.group(2, 1)))
            (lost if refused and LOST.search(refused[3]) else goals).setdefault(path, []).append(goal)
    return goals, lost, said


def is_meant(goal, clause):
    """Whether a goal is of this clause: one of the function's own, or the first parts of a goal's name.

    A goal of what the function ensures ends in `-clause-NAME`, unless it has one clause alone, or the prover cannot part them.
    """
    if GOAL.fullmatch(clause):
        return goal == clause or goal.startswith(f"{clause}-")
    return re.match(r"returns\b", goal) and goal.partition("-clause-")[2] in ("", clause)


def judged(edit, goals, lost, said, seconds):
    """How an edit ended, from the open goals of each function and what the check says of it."""
    name, clause = edit.heads["function"], edit.heads["clause"]
    found, gone = goals.get(name, []), lost.get(name, [])
    goal = next((it for it in found if is_meant(it, clause)), "")
    if goal:
        fault = ""
    elif found or gone:
        told = [*dict.fromkeys(found), *(f"{it} (its answer only names what is gone)" for it in gone)]
        fault = f"{clause} is not among the open goals: {', '.join(told)}"
    else:
        fault = f"no goal is open, and the check says: {said.get(name, 'nothing')[:300]}"
    return Tried(edit, goal, fault, seconds)
