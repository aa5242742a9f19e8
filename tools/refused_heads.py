#!/usr/bin/env python3
"""Lists wrong programs whose edit names a declaration that a proof no longer has, each with those that the prover refuses there.

usage: python3 tools/refused_heads.py [--write]     at the top of the repository, after tests/edit_logs. --write puts the first of them into the edit,
one at the function's return if there is one: read each, for it is to be the one that the wrong program breaks.
"""
import glob
import os
import re
import subprocess
import sys

HEAD = re.compile(r"(?m)^(# [a-z0-9_]+, )([^ :]+) ([^ :]+)(?=: )")


def main(is_write):
    for edit in sorted(glob.glob("crates/*/must-fail/*.edit")):
        log = f"target/must-fail/{edit.split('/')[1]}/{os.path.basename(edit)[: -len('.edit')]}.log"
        if not os.path.isfile(log):
            continue
        said = subprocess.run(["awk", "-f", "tests/text/refusals.awk", log], stdout=subprocess.PIPE, text=True, check=True).stdout
        refused = [line.split() for line in said.splitlines()]
        text = open(edit, encoding="utf-8").read()

        def head(found):
            there = [declaration for proof, declaration in refused if proof == found[2]]
            if found[3] in there:
                return found[0]
            print(f"{edit}: {found[2]} {found[3]}: {' '.join(there) or 'nothing is refused there'}")
            there.sort(key=lambda it: not it.startswith("returns"))
            return f"{found[1]}{found[2]} {there[0]}" if there else found[0]

        new = HEAD.sub(head, text)
        if is_write and new != text:
            with open(edit, "w", encoding="utf-8") as it:
                it.write(new)


if __name__ == "__main__":
    main("--write" in sys.argv[1:])
