#!/usr/bin/env python3
"""Respells the repository's own definitions and lemmas as the installed Rattle does: words joined by `_`, facts and types in camel case.

usage: python3 tools/respell.py [ROOT]
Files below ROOT/crates are rewritten in place. A name is ours if a file of specs/ or proofs/ defines it: a definition, a lemma, a field, a constructor.
The names of goals, which Rattle makes, and names that the kit's library has keep their spelling. Stops before it writes where two names would fall together.
"""

import collections
import os
import re
import sys

KIT = os.environ.get("RATTLE_KIT", "/opt/rattle")
HEAD = re.compile(r"^(?P<indent> *)(?:(?:abbrev|unfoldable) +)?(?:pub +)?(?:(?P<kind>record|data|ruleset) +)?(?P<name>[^\s(){}:;,.«»]+) *(?=[({:])")
TOKEN = re.compile(r"[^\s(){}\[\],.;:\"`⌜⌝«»]+")
# Names that would fall together with a word of the library or a variant of src/.
CHOSEN = {"If-some": "WhenSome", "Miss-counted": "IsMissCounted"}
# Names that the library has too, in modules that nothing here imports them from.
OURS = {"count-le", "first-is", "or-none", "seen-is"}
# Words at the head of an indented line that is no definition.
NOT = {"use", "mod", "pub", "let", "in", "elim", "where", "module", "record", "data", "abbrev", "unfoldable", "unfolding", "--", "λ"}


def files(root, *ends):
    for folder, dirs, names in os.walk(os.path.join(root, "crates")):
        dirs[:] = sorted(d for d in dirs if d not in ("out", ".git"))
        for f in sorted(names):
            if f.endswith(ends):
                yield os.path.join(folder, f)


def defined(path):
    """The names that a file defines, without the answers to goals."""
    with open(path, encoding="utf-8") as f:
        lines = f.read().split("\n")
    for line in lines:
        m = HEAD.match(line)
        if not m or m["name"] in NOT or "goal." in line:
            continue
        head = line[m.end():]
        if m["kind"] or re.match(r"^ *:(?!:)", head) or re.search(r"[)}] *:(?!:) ", head) or head.rstrip().endswith(")"):
            if "=" in line.split(" : ")[0] and not m["kind"]:
                continue
            yield m["name"]


def spelled(name):
    if name in CHOSEN:
        return CHOSEN[name]
    if name[0].isupper():
        return "".join(w[:1].upper() + w[1:] for w in name.split("-"))
    return name.replace("-", "_")


def library_names():
    found = set()
    for lib in ("rattle/std", "rattle/core", "rattle/std_alloc", "rattle/std_collections", "rattle/antt", "rattle/logic", "rattle/io"):
        for folder, _, names in os.walk(os.path.join(KIT, lib)):
            for f in names:
                if f.endswith(".antt"):
                    found.update(defined(os.path.join(folder, f)))
    return found


def main(argv):
    root = argv[1] if len(argv) > 1 else "."
    all_names = set()
    for path in files(root, ".antt"):
        all_names.update(defined(path))
    ours = {n for n in all_names if re.search(r"[^\W\d_]-[^\W\d_]|\d-[^\W\d_]|[^\W\d_]-\d", n)}
    both = (ours & library_names()) - OURS
    ours -= both
    if both:
        print("left, since the library has the name: " + ", ".join(sorted(both)))
    turned = {n: spelled(n) for n in ours}
    together = collections.defaultdict(set)
    for n in all_names:
        together[turned.get(n, n)].add(n)
    bad = [sorted(v) for v in together.values() if len(v) > 1]
    if bad:
        print(f"names would fall together: {bad}", file=sys.stderr)
        return 1
    changed = 0
    for path in files(root, ".antt", ".rt"):
        with open(path, encoding="utf-8") as f:
            text = f.read()
        if path.endswith(".rt"):
            # Ghost text alone has dashes in names; code has them in sums, which have spaces about them, and in strings.
            new = re.sub(r"(?m)^(?P<line>.*)$", lambda m: m[0] if m[0].lstrip().startswith("//") else swap(m[0], turned), text)
        else:
            new = "\n".join(l if l.lstrip().startswith("--") else swap(l, turned) for l in text.split("\n"))
        if new != text:
            changed += 1
            with open(path, "w", encoding="utf-8") as f:
                f.write(new)
    print(f"{len(turned)} names respelled in {changed} files")
    return 0


def swap(line, turned):
    return TOKEN.sub(lambda m: turned.get(m[0], m[0]), line)


if __name__ == "__main__":
    raise SystemExit(main(sys.argv))
