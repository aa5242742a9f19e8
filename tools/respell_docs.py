#!/usr/bin/env python3
"""Brings the names of definitions and lemmas that the documents and the comments cite to today's spelling.

usage: python3 tools/respell_docs.py MAP     at the top of the repository, after tools/respell.py; MAP has its renamings, a line `old new` each

A name is one only where it is cited as one: in backticks, or in a comment with a capital inside. It is renamed where no file declares it any
more and some file declares what it is called now: by MAP, or else in snake case. What stands in quotes stays.
"""
import glob
import os
import re
import sys

NAME = re.compile(r"(?<![\w'′-])[a-z][\w'′]*(?:-[\w'′]+)*(?![\w'′-])")
DECLARED = re.compile(r"(?m)^\s*(?:(?:pub|abbrev|unfoldable|opaque|private|record|data|ruleset) )*([^\s(){}\[\];.,\"]+)(?: [^:\n]*)? :(?: |$)")
CONSTRUCTOR = re.compile(r"(?m)^\s+pub ([^\s(){}\[\];.,\"]+)\s*$")
CODE = re.compile(r"\b(?:fn|struct|enum|mod|const|let|type|trait|static) (?:mut )?(\w+)|(?m:^)\s*(?:pub )?(\w+)(?:\(|,|:| =)")
# `suite: a test` cites a test by its own name.
TEST = re.compile(r"`(?:model|port|beside|list|getres|replay|c|rust|recorded): ")
COMMENTS = {".rt": "//", ".rs": "//", ".antt": "--", ".h": None, ".c": None, "": "#", ".bash": "#", ".awk": "#"}


def snake(name):
    name = re.sub(r"(?<=[a-z0-9])([A-Z])", lambda m: "_" + m.group(1).lower(), name)
    return name.replace("-", "_").replace("′", "'")


def read(path):
    with open(path, encoding="utf-8") as it:
        return it.read()


def declared():
    logic, code = set(), set()
    for f in glob.glob("crates/*/specs/**/*.antt", recursive=True) + glob.glob("crates/*/proofs/**/*.antt", recursive=True):
        text = read(f)
        logic |= {m.group(1) for m in DECLARED.finditer(text)} | {m.group(1) for m in CONSTRUCTOR.finditer(text)}
    for pattern in ("crates/*/src/**/*.rt", "rust/**/*.rs", "tests/**/*.rs", "include/*.h", "examples/**/*.c", "tests/c/*.c"):
        for f in glob.glob(pattern, recursive=True):
            code |= {n for m in CODE.finditer(read(f)) for n in m.groups() if n}
    return logic, code


def main(given):
    renamed = dict(line.split() for line in read(given).splitlines() if len(line.split()) == 2)
    logic, code = declared()

    def today(name, is_bare=False):
        if name in logic or name in code or is_bare and not re.search(r"[a-z0-9][A-Z]", name):
            return name
        return next((it for it in (renamed.get(name), snake(name)) if it and it in logic), name)

    def in_span(span):
        if TEST.match(span):
            return span
        # what is quoted is text of an example
        pieces = re.split(r'("(?:[^"\\]|\\.)*")', span)
        return "".join(it if i % 2 else NAME.sub(lambda m: today(m.group(0)), it) for i, it in enumerate(pieces))

    def in_text(text, bare):
        pieces = re.split(r"(`[^`\n]*`)", text)
        return "".join(in_span(it) if i % 2 else NAME.sub(lambda m: today(m.group(0), True), it) if bare else it for i, it in enumerate(pieces))

    def in_comments(path, text):
        mark = COMMENTS[os.path.splitext(path)[1]]
        if mark is None:
            return re.sub(r"(?s)/\*.*?\*/", lambda m: in_text(m.group(0), True), text)
        lines = []
        for line in text.split("\n"):
            at = re.search(r"(?:^|\s)" + re.escape(mark), line)
            lines.append(line[: at.start()] + in_text(line[at.start() :], True) if at else line)
        return "\n".join(lines)

    documents = [f for f in ["README.md", "rust/README.md", *glob.glob("docs/*.md"), *glob.glob("crates/*/data/README.md")] if os.path.isfile(f)]
    sources = [f for top in ("crates", "rust", "tests", "include", "examples") for f in glob.glob(f"{top}/**/*", recursive=True)]
    sources = [f for f in sources if os.path.isfile(f) and "/out/" not in f and "/target/" not in f and os.path.splitext(f)[1] in COMMENTS]
    changed = 0
    for f in documents + sources:
        try:
            was = read(f)
        except UnicodeDecodeError:
            continue
        text = in_text(was, False) if f in documents else in_comments(f, was)
        if text != was:
            changed += 1
            with open(f, "w", encoding="utf-8") as it:
                it.write(text)
    print(f"{changed} files")


if __name__ == "__main__":
    main(sys.argv[1])
