# SPDX-License-Identifier: Apache-2.0
"""The tables of docs/PROOFS.md: the definitions on which the contract of `session` is built, and how much is stated of each crate."""
import glob
import os
import re
import sys

TOP = os.path.dirname(os.path.dirname(os.path.dirname(os.path.abspath(__file__))))
sys.path.insert(0, f"{TOP}/.ci")
from crates import lowest_first  # noqa: E402

SESSION = "crates/vdb_shell/src/sessions.rt"
IMPORT = re.compile(r"^(?:ghost )?use Rattle\.(vdb_\w+)\.specs\.(\w+)\.\{(.*)\};?$", re.M)
FUNCTION = re.compile(r"^ *(?:[\w()\"]+ )*fn \w+", re.M)
BEGIN = re.compile(r"( *)(?:infixl \d+|(?:abbrev|unfoldable)(?: pub)?|(?:pub )?(?:record|data)) +◌?([^\s◌]+)")


def text(name):
    with open(f"{TOP}/{name}", encoding="utf-8") as file:
        return file.read()


def imported(source):
    """The names of definitions that a text imports, each with its file and its own name."""
    found = {}
    for crate, file, names in IMPORT.findall(source):
        for old, _, new in (it.partition(" as ") for it in names.split(", ")):
            found[new or old] = f"crates/{crate}/specs/{file}.antt", old
    return found


def definitions(source):
    """The lines of each definition of a file, without comments and blank lines. A constructor stands for its type, and `do` for its operator."""
    found, lines, depth = {}, None, 0
    for line in source.split("\n"):
        begun, bare = BEGIN.match(line), line.strip()
        if begun and (lines is None or len(begun[1]) <= depth):
            lines, depth = found.setdefault(begun[2], []), len(begun[1])
        elif re.match("(use|module|pub mod) ", bare):
            lines = None
        if lines is not None and bare and not bare.startswith("--"):
            lines.append(bare)
            constructor = re.match(r"(\w+) : ", bare)
            found.update({constructor[1]: lines} if constructor and "data " in lines[0] else {})
    return {**found, **({"do": found[">>="]} if ">>=" in found else {})}


def reached():
    """The files of the definitions that the contract of `session` is built on, each with how many of its lines it reaches."""
    source = text(SESSION)
    contract = re.sub("//.*", "", source[source.index("pub fn session") :].partition("\n{\n")[0])
    files, seen, todo = {}, {}, [it for name, it in imported(source).items() if re.search(rf"\b{name}\b", contract)]
    while todo:
        file, name = todo.pop()
        if file not in files:
            files[file] = definitions(text(file)), imported(text(file))
        own, others = files[file]
        lines = own[name]
        if id(lines) not in seen.setdefault(file, {}):
            seen[file][id(lines)] = len(lines)
            words = {*re.findall(r"\w+|[^\w\s]+", " ".join(lines))}
            todo += [(file, it) for it in words & own.keys()] + [others[it] for it in words & others.keys()]
    return {file: sum(counts.values()) for file, counts in seen.items()}


def linked(file):
    """The name of a file of definitions, as a link from docs."""
    return f"[{os.path.basename(file).removesuffix('.antt')}](../{file})"


def specs_of(crate):
    """The files of a crate's definitions, without those of private functions and of proofs."""
    folder = f"crates/{crate}/specs"
    names = sorted(os.listdir(f"{TOP}/{folder}")) if os.path.isdir(f"{TOP}/{folder}") else []
    return [f"{folder}/{it}" for it in names if it.endswith(".antt") and it not in ("Lib.antt", "internal.antt")]


def edits_of(crate):
    """The number of must-fail edits of a crate."""
    file = f"tests/edits/{crate}.edits"
    return len(re.findall("(?m)^== ", text(file))) if os.path.exists(f"{TOP}/{file}") else 0


def tables():
    """Both tables, each as its lines, and the sums of the first: the lines of its files, and those reached."""
    counts, crates = reached(), lowest_first(TOP)
    rows, sums = ["| File | What it defines | Lines | Reached |", "|---|---|---|---|"], [0, 0]
    more = ["| Crate | Functions | Clauses | Must-fail edits | Further definitions |", "|---|---|---|---|---|"]
    for crate in crates:
        for file in (it for it in specs_of(crate) if it in counts):
            first, lines = re.match(r"-- (.*)", text(file))[1], text(file).count("\n")
            rows.append(f"| {crate} {linked(file)} | {re.split('[.:;]', first)[0]} | {lines} | {counts[file]} |")
            sums = [sums[0] + lines, sums[1] + counts[file]]
        sources = "".join(text(os.path.relpath(it, TOP)) for it in glob.glob(f"{TOP}/crates/{crate}/src/**/*.rt", recursive=True))
        numbers = len(FUNCTION.findall(sources)), len(re.findall(r"(?m)^ *ensures\b", sources)), edits_of(crate)
        if numbers[2]:
            others = ", ".join(linked(it) for it in specs_of(crate) if it not in counts)
            more.append(f"| {crate} | {' | '.join(f'{it:,}' for it in numbers)} | {others} |")
    return ["\n".join(rows), "\n".join(more)], sums
