#!/usr/bin/env python3
"""Brings the names of definitions, lemmas, fields and variables to today's spelling: words in snake case.

usage: tools/respell.py [--list]      at the top of a repository that /opt/rattle/port/port.py has just turned

A name is turned where it is written as a whole word in the .antt files, in the clauses and ghost items of the .rt files,
in the must-fail edits and in the code spans of README.md and docs/. Turned are words that begin in lower case and go on
in camel case, and words with dashes that a file of specs/ or proofs/ declares. Functions of src/, what Rattle makes for
them and what stands in strings keep their names. `--list` prints each row and writes nothing.
"""

import collections
import pathlib
import re
import sys

KIT = pathlib.Path("/opt/rattle/rattle")
WORD = r"[^\s(){}.;,@\"«»`]+"
CAMEL = re.compile(r"(?<![\w'-])[a-z][a-z0-9]*[A-Z]\w*'*(?![\w-])")
DECLARED = re.compile(r"(?m)^[ \t]*(?:(?:abbrev|unfoldable|package|pub|let) )*(" + WORD + r")(?:[ \t]*\{[^{}\n]*\})*[ \t]*:(?=\s)")
# Lemmas that port.py had already turned to a name that a definition gets here.
FALLEN = {"key_expansion": {"next_word": "next_word_lem"}, "header_claims": {"one_bit": "one_bit_lem", "one_holds": "one_holds_lem"}}


def snake(name):
    return re.sub(r"(?<=[a-z0-9])[A-Z]", lambda m: "_" + m[0].lower(), name).replace("-", "_")


def files(pattern):
    return sorted(p for p in pathlib.Path("crates").glob(pattern) if "out" not in p.parts)


def is_function_file(path):
    """A file that is written for one function: what it declares beside its lemmas is named by Rattle."""
    parts = path.parts
    return "proofs" in parts and len(parts) > parts.index("proofs") + 2


def uncommented(text):
    return re.sub(r"--[^\n]*", "", text)


def theirs():
    """The words with dashes that the kit's libraries declare."""
    words = set()
    for path in KIT.rglob("*.antt"):
        words.update(w for w in DECLARED.findall(path.read_text(errors="replace")) if "-" in w)
    return words


def table():
    rust = set()
    for path in files("*/src/**/*.rt"):
        clauses(path.read_text(), lambda ghost: "", rust)
    rows = {}
    library = theirs()
    for path in files("**/*.antt"):
        text = uncommented(path.read_text())
        for word in CAMEL.findall(text):
            if word not in rust:
                rows[word] = snake(word)
        for word in DECLARED.findall(text):
            if "-" not in word or not re.fullmatch(r"[\w'-]+", word) or not word[0].islower():
                continue
            if is_function_file(path):
                if word.endswith("-spec"):
                    rows[word] = snake(word)
                continue
            if word not in library:
                rows[word] = snake(word)
    return rows


def turner(rows):
    """What turns the rows' words in a text."""
    word = re.compile(r"(?<![\w'-])(?:" + "|".join(sorted(map(re.escape, rows), key=len, reverse=True)) + r")(?![\w'-])")
    return lambda text: word.sub(lambda m: rows[m[0]], text)


def clauses(text, turn, rust=None):
    """A .rt file with its clauses and ghost items turned. The words of the rest go into `rust`."""
    out = []
    at = 0
    for found in re.finditer(r"(?:\brequires\b|\bensures\b)[^\n{]*\{|\bghost use\b", text):
        if found.start() < at:
            continue
        out.append(text[at : found.start()])
        if text.startswith("ghost use", found.start()):
            end = text.index(";", found.start()) + 1
        else:
            end, depth = found.end(), 1
            while depth:
                depth += {"{": 1, "}": -1}.get(text[end], 0)
                end += 1
        out.append(turn(text[found.start() : end]))
        at = end
    out.append(text[at:])
    if rust is not None:
        rust.update(re.findall(r"\w+", re.sub(r"//[^\n]*", "", "".join(out))))
    return "".join(out)


def spans(text, turn):
    fenced = re.split(r"(^```.*?^```)", text, flags=re.S | re.M)
    for i in range(0, len(fenced), 2):
        fenced[i] = re.sub(r"`[^`\n]+`", lambda m: turn(m[0]), fenced[i])
    for i in range(1, len(fenced), 2):
        fenced[i] = turn(fenced[i])
    return "".join(fenced)


def proof_text(text, turn, camel):
    """An .antt file: code wholly, a comment in its code spans, and for camel case in its words."""
    out = []
    for line in text.split("\n"):
        code, dashes, comment = line.partition("--") if re.search(r"(^|\s)--", line) else (line, "", "")
        out.append(turn(code) + dashes + re.sub(r"`[^`]+`", lambda m: turn(m[0]), camel(comment)))
    return "\n".join(out)


def edit_text(text, turn, camel):
    """A must-fail edit: each text as the file that it changes."""
    out, antt = [], False
    for line in text.split("\n"):
        if line.startswith("file:"):
            antt = line.strip().endswith(".antt")
            out.append(line)
        elif line.startswith(("old:", "new:")):
            is_clause = antt or re.search(r"≡|≤|→|\bensures\b|\brequires\b|ghost use|use Rattle", line)
            out.append(turn(line) if is_clause else line)
        else:
            out.append(camel(line))
    return "\n".join(out)


def main():
    rows = table()
    by_new = collections.defaultdict(set)
    for old, new in rows.items():
        by_new[new].add(old)
    # A lemma that would have the name of its definition gets `_lem`.
    for new, olds in sorted(by_new.items()):
        for old in olds if len(olds) > 1 else ():
            if "-" in old:
                rows[old] = new + "_lem"
    if "--list" in sys.argv:
        for old, new in sorted(rows.items()):
            print(f"{old}\t{new}")
        return
    turn = turner(rows)
    camel = turner({old: new for old, new in rows.items() if "-" not in old})
    for path in files("**/*.antt"):
        fallen = FALLEN.get(path.parts[1])
        text = turner(fallen)(path.read_text()) if fallen else path.read_text()
        path.write_text(proof_text(text, turn, camel))
    for path in files("*/src/**/*.rt"):
        path.write_text(clauses(path.read_text(), turn))
    for path in files("*/must-fail/*.edit"):
        path.write_text(edit_text(path.read_text(), turn, camel))
    for path in [pathlib.Path("README.md"), *sorted(pathlib.Path("docs").glob("*.md"))]:
        if path.name not in ("CHANGELOG.md", "PORT.md"):
            path.write_text(spans(path.read_text(), turn))


main()
