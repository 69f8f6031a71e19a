#!/usr/bin/env python3
"""Counts the places in src/ that docs/DESIGN-PASS.md speaks of, point by point, and lists each with its file and line.

usage: python3 tools/places.py [POINT ..]      with no POINT: the counts of all; with POINTs (1 to 7): their places too
It reads the .rt files of crates/*/src alone, and leaves comments out.
"""
import collections
import glob
import re
import sys

# Point, name of the group, and what a line of code must match.
LINES = [
    (1, "a refusal in an Option", r"-> Option<Denial>"),
    (1, "a refusal handed on by hand", r"if let (Some|Err)\((denial|d|_)\) = "),
    (1, "an enum of the repository's own", r"^\s*(pub(\(crate\))? )?enum "),
    (1, "a number for a rule or a layer", r"fn (number|layer)\(.*-> u16"),
    (1, "a flag as a field or a parameter", r"\w+: bool\b"),
    (1, "an Option or a Result taken apart for a constant",
     r"(None|_|Err\(_\)) => (None|false|0|true|Ok\(\(\)\)|Terms::NONE|best|count)\b"),
    (3, "a loop over numbers, or one that counts", r"\bfor \w+ in [^{]*\.\.|^\s*while (?!let)|^\s*loop \{"),
    (4, "an `as` between numbers", r" as (u8|u16|u32|u64|usize)\b"),
    (4, "an order, a conversion or digits by hand", r"fn (goes_ahead|outcome_for|event_for|seen|last_digit|put_decimal|match_all|numbered)\b"),
    (6, "an array with a length or a number beside it", r"^\s*(pub(\(crate\))? )?\w+: \[[A-Za-z<>]+; *\w+\],$"),
    (6, "an array filled for a reader", r"-> \[Option<|let mut \w+ = \[.*; *\w+\];"),
    (7, "a trait that stands in for a function, and its impls", r"impl.* (Items|Rows|Key) for |^(pub )?trait (Items|Rows|Key)\b"),
]


def code(path):
    """The lines of a file with comments blanked."""
    return [re.sub(r"//.*$", "", line.rstrip("\n")) for line in open(path, encoding="utf-8")]


def files():
    return sorted(glob.glob("crates/*/src/*.rt"))


def functions(path):
    """Each function of a file: its line, its name, its parameters, its clauses and its body."""
    lines = code(path)
    at = 0
    while at < len(lines):
        head = re.match(r"\s*(pub(\(crate\))? )?fn (\w+)", lines[at])
        if not head:
            at += 1
            continue
        indent = len(lines[at]) - len(lines[at].lstrip())
        end = at
        while end < len(lines) and not re.match(r"^ {%d}\}|^ {%d}\{.*\}|.*;$" % (indent, indent), lines[end]):
            end += 1
        text = lines[at:end + 1]
        body = next((k for k, line in enumerate(text) if line == " " * indent + "{" or line.endswith(" {") and k == 0), len(text))
        signature = " ".join(text[:body])
        params = re.search(r"\((.*?)\)\s*(->|requires|ensures|$)", signature)
        yield at + 1, head.group(3), params.group(1) if params else "", signature, "\n".join(text[body:])
        at = end + 1


def shape(body):
    """A body with its names and numbers taken out."""
    body = re.sub(r'b?"[^"]*"', "S", body)
    body = re.sub(r"\b\d+\w*\b", "N", body)
    words = {"if", "else", "for", "in", "while", "let", "mut", "return", "match", "Some", "None", "Ok", "Err", "self"}
    return re.sub(r"[A-Za-z_]\w*", lambda m: m.group(0) if m.group(0) in words else "x", re.sub(r"\s+", " ", body)).strip()


def twins():
    """Functions of one shape, of at least 30 signs; those of one trait's impls that only hand on are counted too."""
    by_shape = collections.defaultdict(list)
    for path in files():
        if path.endswith("tests.rt") or "_tests/" in path:
            continue
        for line, name, _, _, body in functions(path):
            if len(shape(body)) >= 60:
                by_shape[shape(body)].append(f"{path}:{line}: {name}")
    return [" = ".join(group) for group in by_shape.values() if len(group) > 1]


def kinds_apart():
    """Functions and types of one crate whose names differ only in the kind of row, or that stand twice by one name in two crates' tests."""
    where = collections.defaultdict(dict)
    for path in files():
        crate = path.split("/")[1]
        for n, line in enumerate(code(path), 1):
            item = re.match(r"\s*(?:pub(?:\(crate\))? )?(fn|struct|enum|type) (\w+)|impl (\w+) for (\w+)|impl(?:<[^>]*>)? (\w+)", line)
            if not item:
                continue
            name = item.group(2) or (f"{item.group(3)} for {item.group(4)}" if item.group(3) else f"impl {item.group(5)}")
            plain = re.sub(r"(?i)miss_?counted|counted|framed|frames|frame", "*", name)
            if plain != name:
                where[(crate, plain.lower())].setdefault(name, f"{path}:{n}")
            if path.endswith("/tests.rt") or crate.endswith("_tests"):
                where[("tests", name)].setdefault(path, f"{path}:{n}")
    return [f"{crate}: {plain}: " + ", ".join(f"{name} ({at})" for name, at in sorted(names.items()))
            for (crate, plain), names in sorted(where.items()) if len(names) >= 2]


def facts():
    """Facts that stand in the requires of three or more functions."""
    where = collections.defaultdict(set)
    for path in files():
        for _, name, _, signature, _ in functions(path):
            for clause in re.findall(r"requires(?: \w+)? \{ (.*?) \}(?= requires| ensures|$|\s)", signature):
                for fact in re.split(r" × ", clause):
                    fact = re.sub(r"^\(+|\)+$", "", fact.strip())
                    fact = re.sub(r"\.(old|new|entry)\b", ".now", fact)
                    where[(path.split("/")[1], fact)].add(name)
    return [f"crates/{crate}: `{fact}` in {', '.join(sorted(names))}"
            for (crate, fact), names in sorted(where.items()) if len(names) >= 3]


def together():
    """Pairs of parameters, by name and type, that stand side by side in three or more functions."""
    where = collections.defaultdict(set)
    for path in files():
        for _, name, params, _, _ in functions(path):
            parts = [part.strip() for part in params.split(",") if ":" in part]
            for first, second in zip(parts, parts[1:]):
                where[(path.split("/")[1], first, second)].add(name)
    return [f"crates/{crate}: `{first}, {second}` in {', '.join(sorted(names))}"
            for (crate, first, second), names in sorted(where.items()) if len(names) >= 3]


def main():
    wanted = {int(word) for word in sys.argv[1:]}
    found = collections.OrderedDict()
    for point, name, pattern in LINES:
        found[(point, name)] = [f"{path}:{n}: {line.strip()}" for path in files()
                                for n, line in enumerate(code(path), 1) if re.search(pattern, line)]
    found[(2, "functions of one shape")] = twins()
    found[(2, "names that differ in the kind alone, or tests that stand twice")] = kinds_apart()
    found[(5, "a fact in three or more functions' requires")] = facts()
    found[(5, "parameters side by side in three or more functions")] = together()
    for (point, name), places in sorted(found.items(), key=lambda item: item[0][0]):
        print(f"{point}  {len(places):3}  {name}")
        if point in wanted:
            for place in places:
                print(f"        {place}")


main()
