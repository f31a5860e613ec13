#!/usr/bin/env python3
# SPDX-License-Identifier: Apache-2.0
"""Tells which rows, calls of C and library tests reach each public function of the proved crates: called.py [--rows] [WORD..]

The lists of calls are those of the compiled crates, crates/NAME/out, which `.ci/run --proofs` makes. They say what a function may call, so a row
reaches what its commands may reach. The call of a method of a trait may reach each type's. Library tests and the C library, of which there is
no list, are read as text: one calls a function if it uses its crate and calls its name, and reaches what that may call. A line names the
function and what reaches it; with WORDs only the functions whose names have one. --rows tells of each row how many functions it reaches. A
function that nothing reaches fails. The last line is 'N passed, M failed'."""
import collections
import json
import re
import sys
from pathlib import Path

TOP = Path(__file__).resolve().parent.parent
CRATES = TOP / "crates"
sys.path.insert(0, str(TOP / "tests" / "rows"))
import rows  # noqa: E402

# the C library, the library tests, and the proved programs over the libraries
TEXTS = ("crates/vdb_c/src/**/*.rt", "tests/library/**/*.txt", "crates/library_*/src/**/*.rt")
COMMANDS = CRATES / "vdb_scene" / "src" / "carry_out.rt"
STEP = "::Scene::carry_out"  # from here on, what is called depends on the command
FUNCTION = re.compile(r'(    )?pub (?:const )?(?:extern "C" )?fn (\w+)')
COMMAND = re.compile(r"Command::(\w+) \{[^}]*\} => (?:\{\s*)?self\.(\w+)\(")


def libraries():
    """Returns the crates that are libraries, each with the list of its compiled functions."""
    found = {}
    for crate in sorted(it.name for it in CRATES.iterdir()):
        file = CRATES / crate / "out" / "rlib" / f"{crate}.rlib" / "toolchain" / "mir.json"
        if file.exists():
            found[crate] = json.loads(file.read_text(encoding="utf-8"))
    return found


def public(crate):
    """Yields the public functions of a crate: the module, the type or None, and the name. Laws aren't among them: nobody calls a theorem."""
    for file in sorted((CRATES / crate / "src").rglob("*.rt")):
        module, of = "::".join(file.relative_to(CRATES / crate / "src").with_suffix("").parts), None
        text = file.read_text(encoding="utf-8")
        heads = iter(re.findall(r"^impl\b(.*?)\{", text, re.M | re.S))
        for line in text.splitlines() if module != "laws" else []:
            if re.match(r"impl\b", line):
                of = type_of(next(heads))
            elif line.startswith("}"):
                of = None
            found = FUNCTION.match(line)
            if found:
                yield module, of if found[1] else None, found[2]


def type_of(head):
    """Returns the type of an `impl`, by what follows that word."""
    depth = 0
    for at, sign in enumerate(head):
        depth += (sign == "<") - (sign == ">" and head[at - 1] != "-")
        if depth == 0:
            break
    return re.search(r"[A-Za-z_]\w*", head[at + 1 :].split(" for ")[-1])[0]


def compiled_name(names, crate, module, of, function):
    """Returns the name that the compiled function has."""
    if of:
        found = [it for it in names if it.startswith(f"{crate}::") and it.endswith(f"::{of}::{function}")]
    else:
        found = [it for it in (f"{crate}::{module}::{function}", f"{crate}::{function}") if it in names]
    if len(found) != 1:
        sys.exit(f"called.py: {crate}, {module}: {function} is compiled as {found or 'nothing'}")
    return found[0]


def named_in(body):
    """Yields the functions and the impls of traits that a function's code names."""
    if isinstance(body, dict):
        for key, value in body.items():
            if key in ("Fn", "Impl") and isinstance(value, list) and isinstance(value[0], str):
                yield value[0]
            yield from named_in(value)
    elif isinstance(body, list):
        for value in body:
            yield from named_in(value)


def graph(lists):
    """Returns what each function names. An impl names its methods."""
    calls = collections.defaultdict(set)
    for functions in lists.values():
        for name, code in functions:
            calls[name] |= {*named_in(code)}
            calls[name.rpartition("::")[0]].add(name)
    return calls


def reached(calls, begin):
    """Returns what may be reached from some functions, other than by the step of a scene."""
    seen, left = set(), [*begin]
    while left:
        name = left.pop()
        if name not in seen and not name.endswith(STEP):
            seen.add(name)
            left += calls.get(name, ())
    return seen


def is_called(text, crate, of, function):
    """Returns whether a text uses a crate and calls a function of this name."""
    call = rf"\b{of}(::<.*?>)?::{function}\(|\.{function}\(" if of else rf"\b{function}(::<.*?>)?\("
    return function in text and re.search(rf"\b{crate}\b", text) and re.search(call, text)


def called_in(file, public_of):
    """Returns the public functions that a module calls: by its text, in which `use super::*` stands for the `use` lines of the module above."""
    text, above = file.read_text(encoding="utf-8"), file.parent.with_suffix(file.suffix)
    if "\nuse super::*;" in text:
        text += "".join(re.findall(r"^use .*\n", above.read_text(encoding="utf-8"), re.M))
    return [name for name, (crate, _, of, function) in public_of.items() if is_called(text, crate, of, function)]


def main():
    words = [it for it in sys.argv[1:] if it != "--rows"]
    lists = libraries()
    calls, names = graph(lists), {name for functions in lists.values() for name, _ in functions}
    if not lists:
        sys.exit("called.py: there are no lists of calls: build the crates by .ci/run --proofs, with a kit that keeps them")
    public_of = {compiled_name(names, crate, *it): (crate, *it) for crate in lists for it in public(crate)}
    session = reached(calls, called_in(CRATES / "vdb" / "src" / "main.rt", public_of))
    scene = next(it for it in names if it.endswith(STEP)).rpartition("::")[0]
    by = {word.lower(): reached(calls, [f"{scene}::{method}"]) - session for word, method in COMMAND.findall(COMMANDS.read_text(encoding="utf-8"))}
    for file in (it for pattern in TEXTS for it in sorted(TOP.glob(pattern))):
        by[str(file.relative_to(TOP).with_suffix(""))] = reached(calls, called_in(file, public_of))
    failed = 0
    for name in public_of:
        found = ["each row"] * (name in session) + [it for it, functions in by.items() if name in functions]
        failed += not found
        if not found or not words or any(it in name for it in words):
            print(f"{name}: {', '.join(found) or 'NOTHING reaches it'}")
    if "--rows" in sys.argv:
        for row in (row for file in rows.DATA for row in rows.read(file)):
            played = {it.text.split()[0].decode("latin-1") for it in row.commands if it.answers and it.text.split()}
            found = session.union(*(by.get(it, ()) for it in played)) & public_of.keys()
            print(f"{row.file.name}: {row.name}: {len(found)} of {len(public_of)}")
    print(f"{len(public_of) - failed} passed, {failed} failed")
    sys.exit(failed > 0)


if __name__ == "__main__":
    main()
