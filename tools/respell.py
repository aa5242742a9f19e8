#!/usr/bin/env python3
"""Brings the names of this repository's own definitions and lemmas to snake case.

usage: python3 tools/respell.py     at the top of the repository, once, right after the port's own script

Renamed is what a file of specs/ or proofs/ declares with a capital or a hyphen inside its name (`keyOf`, `key-back`). Types, modules, the
functions of src/, exported names and strings keep theirs, and so do the names that a proof of one function declares for itself. Where a
lemma would fall together with a definition or an older lemma in one file, it gets `_lem`.
"""
import collections
import glob
import os
import re

SEPARATORS = r"[\s(){}\[\];.,\"]+"
TOKEN = re.compile(r"[^\s(){}\[\];.,\"]+")
DECLARED = re.compile(r"\s*(?:(?:pub|abbrev|unfoldable|record|data) )*([^\s(){}\[\];.,\"]+) (?:\{[^}]*\} |\([^)]*\) )*:(?: |$)")
RULESET = re.compile(r"\s*(?:(?:pub|abbrev|unfoldable) )*ruleset (?:pub )?([^\s(){}\[\];.,\"]+)")


def snake(name):
    name = re.sub(r"(?<=[a-z0-9])[A-Z]|(?<=[A-Z])[A-Z](?=[a-z])", lambda m: "_" + m.group(0).lower(), name)
    return name.replace("-", "_").replace("′", "'")


def antt_files():
    return sorted(glob.glob("crates/*/specs/**/*.antt", recursive=True) + glob.glob("crates/*/proofs/**/*.antt", recursive=True))


def rt_files():
    return sorted(glob.glob("crates/*/src/**/*.rt", recursive=True))


def edit_files():
    return sorted(glob.glob("crates/*/must-fail/*.edit"))


def own_crates():
    return {os.path.basename(d) for d in glob.glob("crates/*") if os.path.isdir(d)}


def of_a_function(path):
    return path.endswith("/Proof.antt")


def borrowed(text, crates):
    """The names that a file imports from a library."""
    found = set()
    for m in re.finditer(r"(?ms)^\s*(?:ghost )?use (\S+?)\.\{([^}]*)\}", text):
        head = m.group(1).split(".")
        if not (len(head) > 1 and head[0] == "Rattle" and head[1] in crates):
            found |= {t for n in m.group(2).split(",") for t in n.split(" as ")[:1] for t in [t.strip()]}
    return found


def main():
    crates = own_crates()
    declared = collections.defaultdict(set)
    for f in antt_files():
        if of_a_function(f):
            continue
        for line in open(f, encoding="utf-8"):
            for form in (DECLARED, RULESET):
                m = form.match(line)
                if m:
                    declared[m.group(1)].add(f)
    wanted = {n: snake(n) for n in declared if not n[0].isupper() and snake(n) != n}

    texts = {f: open(f, encoding="utf-8").read() for f in antt_files() + rt_files() + edit_files()}
    tokens = {f: set(TOKEN.findall(t)) for f, t in texts.items()}
    meet = collections.defaultdict(set)
    for n, s in wanted.items():
        meet[s].add(n)
    antt = [f for f in texts if f.endswith(".antt")]
    lemmas = set()
    for s, ns in meet.items():
        alike = ns | ({s} if s in declared else set())
        for f in antt:
            here = alike & tokens[f]
            if len(here) > 1:
                hyphened = {n for n in here if "-" in n}
                lemmas |= hyphened if hyphened else {s}
    names = {n: s + ("_lem" if n in lemmas else "") for n, s in wanted.items()}
    for n in lemmas - set(wanted):
        names[n] = n + "_lem"

    changed = 0
    for f, text in texts.items():
        # a lemma that has the new spelling already goes by it only where proofs are
        mine = {n: s for n, s in names.items() if n not in borrowed(text, crates) and ("/proofs/" in f or n in wanted)}

        def turn(m):
            return mine.get(m.group(0), m.group(0))

        if f.endswith(".rt"):
            parts = re.split(r"""("(?:[^"\\]|\\.)*"|b'"')""", text)
            out = "".join(p if '"' in p and p[0] in "b\"" else TOKEN.sub(turn, p) for p in parts if p)
        else:
            out = TOKEN.sub(turn, text)
        if out != text:
            changed += 1
            with open(f, "w", encoding="utf-8") as to:
                to.write(out)
    print(f"respell: {len(names)} names, {changed} files")
    with open(os.environ.get("RESPELLED", os.devnull), "w", encoding="utf-8") as to:
        to.writelines(f"{n} {s}\n" for n, s in sorted(names.items()))
    for n in sorted(lemmas):
        print("respell: would fall together:", n, "->", names[n])


if __name__ == "__main__":
    main()
