# SPDX-License-Identifier: Apache-2.0
"""Reads must-fail edits, finds the functions of a crate's sources, and says where an edit changes them."""
import dataclasses
import os
import re

# the words before the colons of an edit's lines, without `and`, and the first line
FORM, HEAD = re.compile(r"(without )?(tried )?((file )?(old new )+)+"), re.compile(r"(\S+): (\S+) (\S+)")

FUNCTION = re.compile(r"( *)(?:pub(?:\([a-z]+\))? )?(?:const |unsafe |extern \"C\" )*fn (\w+)")

CONSTANT = re.compile(r" *(?:pub(?:\([a-z]+\))? )?const (\w+): .*;$")

TYPE = re.compile(r"^(?:pub(?:\([a-z]+\))? )?(?:struct|enum|union) (\w+)", re.M)


@dataclasses.dataclass
class Edit:
    """A must-fail edit: its crate, its name, its head lines, and for each file the pairs of old and new text."""

    crate: str
    name: str
    heads: dict
    changes: list

    def __str__(self):
        return f"{self.crate}/{self.name}"


@dataclasses.dataclass
class Function:
    """A function or a constant of a source: its path below the crate, the names of what it ensures, and where its body begins and ends in the text.

    `is_named` says that other functions can call it by this path: it is no constant, and in no other function.
    """

    path: str
    clauses: list
    start: int
    end: int
    is_named: bool


def read_edits(crate, file, folder):
    """Reads the edits of a crate in a folder; raises ValueError, with the first line of the edit, if its lines are none of an edit's."""
    edits, places = [], {it.path: path for path, several in functions_of(folder).items() for it in several}
    for part in re.split(r"(?m)^== ", open(file, encoding="utf-8").read())[1:]:
        first, _, lines = part.partition("\n")
        head, pairs = HEAD.fullmatch(first), re.findall(r"(?m)^([^:\n]+):? ?(.*)$", re.sub(r"\nand: ?", "\0", lines))
        if not head or not FORM.fullmatch("".join(f"{word} " for word, _ in pairs)):
            raise ValueError(f"{first}: its lines are not those of an edit")
        edit, path, texts = Edit(crate, head[1], {"function": head[2], "clause": head[3]}, []), places.get(head[2], ""), []
        for word, text in pairs:
            if word == "file":
                path = text
            elif word in ("old", "new"):
                texts.append(text.replace("\0", "\n"))
                edit.changes += [(path, *texts[-2:])] if word == "new" else []
            else:
                edit.heads[word] = text
        edits.append(edit)
    return edits


def changes_of(edit, folder):
    """Yields the pairs of an edit, after those that leave answers out: each is a paragraph of the file of answers of the edit's function."""
    path = f"proofs/{edit.heads['function'].replace('::', '/')}/Answers.antt"
    for goal in edit.heads.get("without", "").split():
        answers = open(f"{folder}/{path}", encoding="utf-8").read() if os.path.isfile(f"{folder}/{path}") else ""
        yield path, next(iter(re.findall(rf"(?m)^pub {re.escape(goal)} :.*\n(?:.+\n)*", answers)), f"pub {goal} :"), ""
    yield from edit.changes


def spans_of(edit, folder):
    """Where an edit changes a crate: (file, start, end, new text) for each pair, in the file's own text.

    Raises ValueError if an old text does not occur exactly once in what the pairs before it leave.
    """
    texts, spans = {}, []
    for path, old, new in changes_of(edit, folder):
        if not os.path.isfile(f"{folder}/{path}"):
            raise ValueError(f"there is no file {path}")
        text = texts.get(path) or open(f"{folder}/{path}", encoding="utf-8").read()
        if text.count(old) != 1:
            raise ValueError(f"an old text occurs {text.count(old)} times in {path}, not once")
        texts[path] = text.replace(old, new)
        before = len(os.path.commonprefix([old, new]))
        after = len(os.path.commonprefix([old[before:][::-1], new[before:][::-1]]))
        start, length = text.index(old) + before, len(old) - before - after
        for _, begin, end, put in sorted(it for it in spans if it[0] == path):
            start += end - begin - len(put) if begin <= start else 0
        spans.append((path, start, start + length, new[before : len(new) - after]))
    return spans


def spliced(text, spans):
    """The text with each part replaced: spans are (file, start, end, new text) and do not overlap."""
    for _, start, end, new in sorted(spans, reverse=True):
        text = text[:start] + new + text[end:]
    return text


def module_of(path):
    """The module of a source file, as a list of names."""
    names = path.removeprefix("src/").removesuffix(".rt").split("/")
    return names[:-1] if names[-1] in ("lib", "main", "mod") else names


def sources_of(folder):
    """The source files of a crate, by their path in it, without its tests."""
    files = [os.path.relpath(f"{at}/{name}", folder) for at, _, names in os.walk(f"{folder}/src") for name in names]
    return sorted(it for it in files if it.endswith(".rt") and "tests" not in module_of(it))


def without_generics(text):
    """The text without what stands in angle brackets."""
    while re.search(r"<[^<>]*>", text):
        text = re.sub(r"<[^<>]*>", "", text)
    return text


def holder_of(header, module, types):
    """The names before a method's in its path, from the header of its impl."""
    words = without_generics(header.removeprefix("impl").replace("->", "")).split()
    name = lambda word: word.split("::")[-1].strip("&")
    if "for" not in words[:3]:
        return [*types.get(name(words[0]), module), name(words[0])]
    trait, held = name(words[0]), name(words[2])
    if trait == "From":
        trait += name(without_generics(re.search(r"From<(.*)> for", header)[1]))
    return [*module, held[0].upper() + held[1:] + (trait if trait != "Drop" else "")]


def functions_of(folder, texts=()):
    """The functions of a crate by file, with other texts in place of some of its files."""
    texts = {path: open(f"{folder}/{path}", encoding="utf-8").read() for path in sources_of(folder)} | dict(texts)
    types = {name: module_of(path) for path, text in texts.items() for name in TYPE.findall(text)}
    return {path: functions_in(text, module_of(path), types) for path, text in texts.items()}


def functions_in(text, module, types):
    """The functions of one file."""
    found, at, header, opened = [], 0, "", []
    for line in text.splitlines(keepends=True):
        indent, bare = len(line) - len(line.lstrip(" ")), line.rstrip()
        if bare and not indent:
            goes_on = f"{header} {bare}" if header and not header.endswith("{") else ""
            header = bare if re.match(r"(unsafe )?impl|(pub )?trait", bare) else goes_on
        elif header and not header.endswith("{"):
            header += " " + bare.strip()
        begun, constant = FUNCTION.match(line), CONSTANT.match(bare)
        holder = holder_of(header.removesuffix("{"), module, types) if header.startswith("impl") and indent else module
        if begun:
            opened.append([begun[2], indent, at, None])
        elif constant and not opened:
            found.append(Function("::".join([*holder, constant[1]]), [], at, at + len(bare), False))
        if opened and opened[-1][3] is None and indent == opened[-1][1] and bare.endswith("{"):
            opened[-1][3] = at + len(bare)
        elif opened and opened[-1][3] is None and (bare.endswith((";", "{}")) and indent <= opened[-1][1] + 4 or bare.endswith("};")):
            opened.pop()
        elif opened and bare == " " * opened[-1][1] + "}":
            name, _, start, body = opened.pop()
            outer = [it[0] for it in opened]
            path = "::".join([*holder, *(["fn", *outer] if outer else []), name])
            clauses = re.findall(r"\bensures\*? (\w*) ?\{", text[start:body])
            found.append(Function(path, clauses, body, at, not outer and "trait " not in header))
        at += len(line)
    return found


def function_at(functions, start, end):
    """The innermost function whose body holds this part of its file, or None."""
    around = [it for it in functions if it.start <= start and end <= it.end]
    return min(around, key=lambda it: it.end - it.start, default=None)
