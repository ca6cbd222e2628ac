#!/usr/bin/env python3
"""Spells the repository's own definitions and lemmas as today's Rattle spells them: words in snake case.

usage: python3 tools/respell.py            at the top, once, after the kit's port.py

It reads tools/respelled_names.tsv: the old name, the new one, and the one after a dot, where that is a function's step and not a field. A name that
would fall together with a definition ends in _lem. It rewrites specs/ and proofs/, the clauses of src/ and the must-fail edits. Comments are
rewritten where they quote a name in backticks. Strings and the code of src/ stay.
"""
import os
import re
import sys

HERE = os.path.dirname(os.path.realpath(__file__))
TOP = os.path.dirname(HERE) if len(sys.argv) < 2 else sys.argv[1]
ROWS = [line.rstrip("\n").split("\t") for line in open(os.path.join(HERE, "respelled_names.tsv"), encoding="utf-8")]
NAMES = {old: (new, dotted) for old, new, dotted in ROWS}
# Names that the kit's script put into snake case, of lemmas beside a definition that takes the name now.
HERE_ALONE = {
    "pmn_converter/specs/ConversionLaws.antt": ["as_written"],
    "guarantees/specs/JournalLaws.antt": ["entered_all"],
    "pmn_format/specs/AtLaws.antt": ["int_at"],
    "pmn_format/specs/PartLaws.antt": ["part_by"],
    "pmn_reader/proofs/PartFiles.antt": ["part_by"],
    "question_theory/specs/LineLaws.antt": ["last_line"],
    "question_lines/specs/NumberLaws.antt": ["last_line"],
}
TOKEN = re.compile(r'"(?:[^"\\]|\\.)*"|[^\s(){}.;,@"«»\[\]]+')
STEP = re.compile(r"\.(ensures|result|new|type_inv|auto)\b")


def respelled(code, alone=()):
    """The code with each of its names in the new spelling."""

    def one(m):
        word = m[0]
        if word in alone and code[m.start() - 1 : m.start()] != ".":
            return word + "_lem"
        if word not in NAMES:
            return word
        new, dotted = NAMES[word]
        if code[m.start() - 1 : m.start()] != ".":
            return new
        return dotted if not STEP.match(code, m.end()) else new.removesuffix("_lem") if new != dotted or new.endswith("_lem") else new

    return TOKEN.sub(one, code)


def quoted(comment):
    """The comment with the names in backticks in the new spelling."""
    return re.sub(r"`[^`\n]+`", lambda m: respelled(m[0].strip("`")).join("``"), comment)


def antt(text, alone):
    lines = []
    for line in text.split("\n"):
        at = re.search(r"(^|\s)--(\s|$)", line)
        code, comment = (line, "") if not at else (line[: at.start()], line[at.start() :])
        lines.append(respelled(code, alone) + quoted(comment))
    return "\n".join(lines)


def source(text):
    """A source file: what stands in `ghost use` lines, in clauses and in backticks of comments. A clause ends where its brace closes."""
    lines, depth = [], 0
    for line in text.split("\n"):
        if depth == 0 and line.lstrip().startswith("//"):
            lines.append(quoted(line))
            continue
        clause = re.match(r"\s*(requires|ensures|invariant|decreases|ghost)\b", line)
        if depth > 0 or clause:
            depth += line.count("{") - line.count("}")
            line = respelled(line)
        lines.append(line)
    return "\n".join(lines)


def edit(text):
    return "\n".join(respelled(line) if re.match(r"(old|new):", line) else quoted(line) for line in text.split("\n"))


def main():
    crates = os.path.join(TOP, "crates")
    for folder, dirs, files in os.walk(crates):
        dirs[:] = sorted(d for d in dirs if d != "out")
        for name in sorted(files):
            path = os.path.join(folder, name)
            turn = {".antt": lambda t: antt(t, HERE_ALONE.get(os.path.relpath(path, crates), ())), ".rt": source, ".edit": edit}.get(os.path.splitext(name)[1])
            if not turn:
                continue
            with open(path, encoding="utf-8", newline="") as f:
                old = f.read()
            new = turn(old)
            if new != old:
                with open(path, "w", encoding="utf-8", newline="") as f:
                    f.write(new)


main()
