#!/usr/bin/env python3
# SPDX-License-Identifier: Apache-2.0
"""Checks the documents: documents.py [--write | --run [PAGE..]]

With --run it runs the code blocks of README and of the other pages for users, or of README and those named (pages.py). Otherwise it
reports and exits with status 1 if

- a relative link of a Markdown file names no file or no heading,
- a sentence outside tables and code has more than 30 words,
- two documents share ten words in a row, or three lines of code,
- the example in docs/LIBRARY.md differs from `fill_and_count` of library_examples, which CI proves,
- a file has another version than VERSION (tools/set-version),
- the tables of docs/PROOFS.md differ from those of definitions.py, or those of speed in README and docs/BENCHMARKS.md from those of
  bench/measure/readers.py; --write renews them,
- README has no link to a page for users, or a code block of one isn't of the form that --run needs,
- a number in a document differs from its source: of commands, crates, edits, checks, definitions, limits, minutes of CI,
- docs/TESTING.md tells another least number of results of a suite than CI asks for.
"""
import os
import re
import subprocess
import sys

import pages
from definitions import TOP, edits_of, tables, text
from crates import lowest_first

sys.path.append(f"{TOP}/bench")
from measure import readers  # noqa: E402

WORDS = 30
SHARED_WORDS, SHARED_LINES = 10, 3
LINK = re.compile(r"\]\(([^)\s]+)\)")
ITEM = re.compile(r"^\s*(?:[-*]|\d+\.)\s")
END = re.compile(r"(?<=[.!?])[\"')*_`]*\s+")


def documents():
    """The Markdown files of the repository that git knows or that are new."""
    found = subprocess.run(
        ["git", "ls-files", "--cached", "--others", "--exclude-standard", "*.md"], cwd=TOP, check=True, stdout=subprocess.PIPE, text=True
    ).stdout.split()
    return sorted(name for name in found if os.path.exists(f"{TOP}/{name}"))


def prose(document):
    """The document without code, in which a link could be anything."""
    fenced = re.sub(r"(?ms)^```.*?^```$", "", document)
    return "\n".join("" if line.startswith("    ") and not ITEM.match(line) else line for line in fenced.split("\n"))


def anchors(name):
    """The anchors of a document's headings, as code forges make them."""
    made = set()
    for title in re.findall(r"(?m)^#+ (.*)$", prose(text(name))):
        plain = re.sub(r"\[([^\]]*)\]\([^)]*\)", r"\1", title).replace("`", "").lower()
        made.add(re.sub(r"[^\w\- ]", "", plain).replace(" ", "-"))
    return made


def broken_links(name):
    """Yields the relative links of a document that lead nowhere."""
    for target in LINK.findall(re.sub(r"`[^`\n]*`", "", prose(text(name)))):
        if re.match(r"[a-z]+:", target):
            continue
        path, _, anchor = target.partition("#")
        there = os.path.normpath(os.path.join(os.path.dirname(name), path)) if path else name
        if not os.path.exists(f"{TOP}/{there}"):
            yield f"{name}: the link {target} names no file"
        elif anchor and anchor not in anchors(there):
            yield f"{name}: the link {target} names no heading"


def long_sentences(name):
    """Yields the sentences of a document with too many words."""
    part = []
    for line in [*prose(text(name)).split("\n"), ""]:
        starts = not line.strip() or ITEM.match(line) or line.startswith(("|", "#"))
        if starts and part:
            for sentence in END.split(" ".join(part)):
                count = len(sentence.split())
                if count > WORDS:
                    yield f"{name}: a sentence of {count} words: {' '.join(sentence.split()[:10])} .."
            part = []
        if line.strip() and not line.startswith(("|", "#")):
            part.append(ITEM.sub("", line))


def parts(name):
    """Yields the paragraphs, items and rows of a document as their words, and its blocks of code as their lines, each with the shared number."""
    document = re.sub(rf"(?m)^\| (?:{'|'.join(readers.GROUPS.values())}) \|.*(?:\n\|.*)*", "", text(name))  # two documents have these tables
    for part in re.split(r"\n\s*\n|\n(?=\s*(?:[-*|#]|\d+\.)\s?)", prose(document)):
        yield SHARED_WORDS, re.findall(r"[\w'./-]+", re.sub(r"\]\([^)]*\)", "]", part).lower())
    fenced = [it[1] for it in re.finditer(r"(?ms)^```.*?\n(.*?)^```$", document)]
    indented = re.findall(r"(?m)(?:^ {4}(?! *(?:[-*]|\d+\.)\s).*\n)+", re.sub(r"(?ms)^```.*?^```$", "", document))
    for block in fenced + indented:
        yield SHARED_LINES, [line.strip() for line in block.split("\n") if len(line.strip()) > 3]


def repeats(names):
    """Yields what a document repeats of another one: a fact has one document, and others link to it. CHANGELOG tells of all."""
    seen = {}
    for name in names:
        told = set()
        for length, items in parts(name) if name != "CHANGELOG.md" else ():
            for first in range(len(items) - length + 1):
                run = tuple(items[first : first + length])
                other = seen.setdefault(run, name)
                if other not in (name, *told):
                    told.add(other)
                    yield f"{name}: repeats {other}: {' '.join(run)}"


# for each limit a word of its row in README's table, and where it is defined
LIMITS = [
    ("script", "vdb_script/src/source.rt", r"SCRIPT_LIMIT: usize = ([\d_]+)"),
    ("scene file", "vdb_file/specs/Spelling.antt", r"file_limit = (\d+)"),
    ("line", "vdb_script/src/line_text.rt", r"LINE_LIMIT: usize = (\d+)"),
    ("grids", "vdb_scene/specs/Refusals.antt", r"nat_le (\d+) \(length s\)"),
    ("grids", "vdb_scene/specs/Metas.antt", r"nat_lt \(length pairs\) (\d+)"),
    ("list", "vdb_scene/specs/Arguments.antt", r"is_limit n = .*\(pos (\d+)\)"),
    ("slice", "vdb_scene/specs/Step.antt", r"too_wide (\d+)"),
    ("voxelise", "vdb_scene/specs/Step.antt", r"too_large (\d+)"),
    ("iterations", "vdb_scene/specs/Arguments.antt", r"is_iteration_count n = .*\(pos (\d+)\)"),
    ("cubes", "vdb_scene/specs/Arguments.antt", r"is_root_limit \(Some n\) = .*\(pos (\d+)\)"),
    ("cubes", "vdb_scene/specs/Arguments.antt", r"root_limit_of None = (\d+)"),
]


def wrong_limits():
    """Yields the limits that the table in README.md lacks."""
    for row, file, pattern in LIMITS:
        limit = int(re.search(pattern, text(f"crates/{file}"))[1])
        digits = f"{limit >> 20} MiB" if limit >= 2**24 else f"{limit:,}"
        if not re.search(rf"\| [^|\n]*{row}[^|\n]*\|[^|\n]*(?<![\d,]){digits}(?!,?\d)", text("README.md")):
            yield f"README.md: no limit {digits} in a row of {row}"


def counts(sums):
    """What documents count: a pattern of each count, or of its least and its greatest number, and the number."""
    commands = re.search(r"pub enum Command \{(.*?)\n\}", text("crates/vdb_scene/src/command.rt"), re.S)[1]
    run = re.search(r"^([\d.]+) minutes.*\n(\d+) passed", text(".ci/times"), re.M) if os.path.exists(f"{TOP}/.ci/times") else None
    return [
        (r"(twenty-\w+|\d\d) commands", len(re.findall(r"^    [A-Z]", commands, re.M))),
        (r"(\d+) crates", len(re.findall(r"^\w", text("crates.txt"), re.M))),
        (r"(\d+) must-fail edits", sum(map(edits_of, lowest_first(TOP)))),
        (r"(\d+) wrong\s+engines", len(re.findall(r"^\w\S+ +\S", text("tests/edits/wrong-bodies.txt"), re.M))),
        (r"([\d,]+) lines of definitions", sums[1]),
        (r"definitions, in files of ([\d,]+)", sums[0]),
        *([(r"took (\d+)\s+minutes on", round(float(run[1]))), (r"([\d,]+) checks", int(run[2]))] if run else []),
    ]


def untold_suites():
    """Yields the suites of CI whose least number of results docs/TESTING.md doesn't tell."""
    for name, least in re.findall(r'Suite\("(.*?)", .*?, ([\d_]+)\),', text(".ci/suites.py")):
        if not re.search(rf"[|,] {re.escape(name)}: {int(least):,}(?![\d,]*\d)", text("docs/TESTING.md")):
            yield f"docs/TESTING.md: not '{name}: {int(least):,}'"


def wrong_counts(name, expected):
    """Yields the counts of a document that are wrong."""
    tens = ["twenty", *(f"twenty-{it}" for it in "one two three four five six seven eight nine".split())]
    for pattern, count in expected if name != "CHANGELOG.md" else ():
        for found in re.finditer(pattern, text(name)):
            numbers = [tens.index(it) + 20 if it in tens else int(it.replace(",", "")) for it in found.groups()]
            if not numbers[0] <= count <= numbers[-1]:
                yield f"{name}: '{found[0]}', where {count:,} are counted"


def stale_numbers():
    """Yields the numbers and copies that are out of date."""
    program = text("crates/library_examples/src/main.rt")
    function = re.search(r"(?ms)^fn fill_and_count.*?^}\n", program)[0]
    if "".join(f"    {line}" for line in function.splitlines(True)) not in text("docs/LIBRARY.md"):
        yield "docs/LIBRARY.md: another example than `fill_and_count` of library_examples"
    yield from subprocess.run([f"{TOP}/tools/set-version", "--check"], stdout=subprocess.PIPE, text=True).stdout.splitlines()


def renewed(name, made):
    """The document with its tables as they are made, each in place of the one with the same head."""
    document = text(name)
    for table in made:
        document, count = re.subn(rf"(?m)^{re.escape(table.split(chr(10))[0])}(?:\n\|.*)*", lambda _, it=table: it, document)
        if count != 1:
            sys.exit(f"{name}: {count} tables with the head {table.split(chr(10))[0]}")
    return document


def main():
    if sys.argv[1:2] == ["--run"]:
        sys.exit(pages.run([os.path.relpath(os.path.abspath(it), TOP) for it in sys.argv[2:]]))
    (results,) = re.findall(r"\]\(\.\./(bench/results/[^)]*/results\.txt)\)", text("docs/BENCHMARKS.md"))
    made, sums = tables()
    of_speed = {"README.md": readers.calls(text(results), False), "docs/BENCHMARKS.md": readers.made(text(results))}
    names, found = documents(), []
    for name, its in {"docs/PROOFS.md": made, **of_speed}.items():
        whole = renewed(name, its)
        if sys.argv[1:] == ["--write"]:
            with open(f"{TOP}/{name}", "w", encoding="utf-8") as file:
                file.write(whole)
        if whole != text(name):
            found.append(f"{name}: the tables are out of date; tests/documents/documents.py --write renews them")
    found += [*stale_numbers(), *wrong_limits(), *untold_suites()]
    expected = counts(sums)
    for name in names:
        found += [*broken_links(name), *long_sentences(name), *wrong_counts(name, expected)]
    found += repeats(names)
    for name in pages.pages():
        found += pages.bad_blocks(name)
        if name != pages.README and f"({name})" not in text(pages.README):
            found.append(f"README.md: no link to {name}")
    print("\n".join(found), end="\n" * bool(found))
    sys.exit(bool(found))


if __name__ == "__main__":
    main()
