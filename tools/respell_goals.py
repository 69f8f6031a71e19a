#!/usr/bin/env python3
"""Respells in proofs/F/ the names that Rattle makes of the code's own: a name of src/ keeps its `_`, and so do Rattle's words.

usage: python3 tools/respell_goals.py [CRATE..]   at the top of the repository
"""

import os
import re
import sys

WORDS = ["in_default", "in_ok", "in_err", "type_inv", "invariant_of", "slice_bounds", "offset_bounds", "from_residual", "copy_from_slice", "copy_from"]
WORDS += [f"overflow_{w}" for w in ("add", "sub", "mul", "cast", "step", "shl", "shr")] + ["nonzero_div", "nonzero_rem"]
IDENT = re.compile(r"\b[a-z][a-z0-9]*(?:_[a-z0-9]+)+\b")
TOKEN = re.compile(r"[^\s(){}\[\],.;:\"`⌜⌝«»]*-[^\s(){}\[\],.;:\"`⌜⌝«»]*")


def idents(crate):
    found = set(WORDS)
    for folder, _, names in os.walk(os.path.join(crate, "src")):
        for f in names:
            with open(os.path.join(folder, f), encoding="utf-8") as t:
                text = re.sub(r"//.*", "", t.read())
            found.update(IDENT.findall(re.sub(r"(?m)^\s*ghost use.*$", "", text)))
    return found


def main(argv):
    for name in argv[1:] or sorted(os.listdir("crates")):
        crate = os.path.join("crates", name)
        words = sorted(idents(crate), key=lambda w: -len(w))
        rules = [(re.compile(r"(?<![\w'])" + w.replace("_", "-") + r"(?![\w'])"), w) for w in words]

        def turn(m):
            text = m[0]
            for rule, w in rules:
                text = rule.sub(w, text)
            return text

        for folder, _, files in os.walk(os.path.join(crate, "proofs")):
            for f in files:
                if f not in ("Answers.antt", "Invariants.antt"):
                    continue
                path = os.path.join(folder, f)
                with open(path, encoding="utf-8") as t:
                    old = t.read()
                new = "\n".join(l if l.lstrip().startswith("--") else TOKEN.sub(turn, l) for l in old.split("\n"))
                if new != old:
                    with open(path, "w", encoding="utf-8") as t:
                        t.write(new)
                    print(path)


if __name__ == "__main__":
    main(sys.argv)
