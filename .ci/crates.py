# SPDX-License-Identifier: Apache-2.0
"""Reads crates.txt, and makes the words of a `rattle check` of one crate. The libraries of the crates below it stand in out/rlib, or they
are read as source."""
import os
import shutil

TOP = os.path.dirname(os.path.dirname(os.path.abspath(__file__)))
KIT = os.path.dirname(os.path.dirname(os.path.realpath(shutil.which("rt") or "bin/rt")))


def named_by(root):
    """The names in crates.txt, and for each what it names: crates, and libraries of the kit."""
    named = {}
    for line in open(f"{root}/crates.txt", encoding="utf-8"):
        name, _, deps = line.partition("#")[0].partition(":")
        if name.strip():
            named[name.split()[0]] = deps.split()
    return named


def crates_below(name, named):
    """The crates below a crate, each after those that it names."""
    found = []
    for dep in named[name]:
        if dep in named:
            found += [it for it in [*crates_below(dep, named), dep] if it not in found]
    return found


def lowest_first(root):
    """The names in crates.txt, each after the crates below it."""
    named = named_by(root)
    return sorted(named, key=lambda name: len(crates_below(name, named)))


def library_of(crate):
    """The folder of a crate's library, if it is built."""
    return f"{TOP}/crates/{crate}/out/rlib/{crate}.rlib"


def built_of(below, named):
    """The libraries of those of these crates that are up to date, by name: each newer than the files of its crate and than the libraries below."""
    made, built = {}, {}
    for crate in below:
        folder = f"{TOP}/crates/{crate}"
        library = library_of(crate)
        if not os.path.isfile(f"{library}/format") or any(it in named and it not in built for it in named[crate]):
            continue
        files = [f"{at}/{it}" for part in ("src", "specs", "proofs") for at, _, names in os.walk(f"{folder}/{part}") for it in (".", *names)]
        made[crate] = os.path.getmtime(f"{library}/format")
        if all(os.path.getmtime(it) <= made[crate] for it in files) and all(made[it] <= made[crate] for it in named[crate] if it in named):
            built[crate] = library
    return built


def command_of(name, named, built):
    """The words that check a crate, with those below it as libraries where `built` has their folders, and else as source."""
    folder, below = f"{TOP}/crates/{name}", crates_below(name, named)
    root = next(it for it in ("src/main.rt", "src/lib.rt") if os.path.exists(f"{folder}/{it}"))
    words = [f"{KIT}/bin/rattle", "check", "--crate-name", name, root, "-L", f"dependency={KIT}/rlibs"]
    for library in sorted({"core", "std", *(it for crate in [name, *below] for it in named[crate] if it not in named)}):
        words += ["--extern", f"{library}={KIT}/rlibs/{library}.rlib"]
    for crate in below:
        if crate in built:
            words += ["--extern", f"{crate}={built[crate]}", "-L", f"dependency={os.path.dirname(built[crate])}"]
        else:
            words += ["--lib", f"{crate}:{','.join(dict.fromkeys(['core', 'std', *named[crate]]))}={TOP}/crates/{crate}/src/lib.rt"]
    return [*words, "--antt-project", f"{KIT}/rattle/logic/antt-project.json", "--logic-built", f"{KIT}/logic_built"]
