#!/usr/bin/env python3
"""Brings the repository's own definitions and lemmas to one spelling: words in snake case, types in upper camel case.

usage: python3 tools/respell.py [--list]      at the top of the repository; --list only prints what would be renamed

It collects the names that specs/ and proofs/ declare and the ghost members and fields of src/, and renames them in every .antt and .rt
file, in the must-fail edits and in the pages. Names that Rattle makes (the goals of a function) keep their spelling, and so do the
functions of src/ and all strings, inputs and outputs. It stops where two names would fall together in one file.
"""

import collections
import pathlib
import re
import sys

TOP = pathlib.Path(__file__).resolve().parent.parent
WORD = r"[^\s(){}.,;:|«»`\"@∷·]"
DECLARED = re.compile(r"^ *(?:abbrev pub|unfoldable pub|abbrev|unfoldable|pub data|pub record|data|record|pub|)\s*(" + WORD + r"+(?:, *" + WORD + r"+)*)\s*(?:\([^)]*\)|\{[^}]*\}|\s)*:(?!=)")
GOAL = re.compile(r"^(?:abbrev )?pub (" + WORD + r"+) *: *goal\.")
GHOST = re.compile(r"^\s*ghost (" + WORD + r"+) *[:=]", re.M)
# Names that would fall together with another, or whose new spelling would say something else.
BY_HAND = {
    "bit-and": "bit_of_and",
    "bit-or": "bit_of_or",
    "bit-xor": "bit_of_xor",
    "letterCodes": "codes_of_letter",
    "tileCodes": "codes_of_tile",
    "rangeCodes": "codes_of_range",
    "letter-codes": "codes_of_letter_lem",
    "tile-codes": "codes_of_tile_lem",
    "range-codes": "codes_of_range_lem",
    "other-codes": "other_codes_lem",
    "tile-code": "tile_code_told",
    "mark-at": "mark_at_lem",
    "sum-behind": "sum_behind_lem",
    "frontOf": "front_pairs",
    "is-letter": "is_letter_lem",
    "bodyBounds": "bounds_of_body",
    "lowAt": "low_of",
    "lowOr0": "low_or_zero",
    "widthOr0": "width_or_zero",
    "getD-start": "get_or_start",
    "getD-zeros": "get_or_zeros",
    "completions-by-paths": "completions_by_paths_lem",
    "language-by-fronts": "language_by_fronts_lem",
}
# Names that a file gives to what it imports.
IMPORTED_AS = {
    "isWithin": "is_within",
    "isNext": "is_next",
    "isCross": "is_cross",
    "withinLink": "within_link",
    "nextLink": "next_link",
    "crossLink": "cross_link",
}
# A ghost member may have the name of the method that gives its value.
SHARED = {"unit_length"}


def files():
    for end in ("*.antt", "*.rt"):
        yield from sorted(p for p in (TOP / "crates").rglob(end) if "out" not in p.parts)


def declared():
    """The names declared, with the files that declare them, and the names of goals."""
    names, goals = collections.defaultdict(set), set()
    for path in files():
        text = path.read_text()
        if path.suffix == ".rt":
            for name in GHOST.findall(text):
                names[name].add(path)
            continue
        for line in text.splitlines():
            if line.lstrip().startswith(("--", "use ")):
                continue
            goal = GOAL.match(line)
            if goal:
                goals.add(goal.group(1))
                continue
            found = DECLARED.match(line)
            if found:
                for name in re.split(r", *", found.group(1)):
                    names[name].add(path)
    return names, goals


def respelled(name):
    """The name in today's spelling: upper camel case for what begins with a capital, else snake case."""
    if name in BY_HAND:
        return BY_HAND[name]
    if name[0].isupper() and not re.match(r"[A-Z][-_]", name):
        return re.sub(r"-(\w)", lambda m: m.group(1).upper(), name)
    snake = re.sub(r"(?<=[a-z0-9])([A-Z])(?=[a-z]|$)", lambda m: "_" + m.group(1).lower(), name)
    return snake.replace("-", "_")


def renames():
    names, goals = declared()
    table = {n: respelled(n) for n in names if n not in goals and respelled(n) != n}
    table.update(IMPORTED_AS)
    return table, names, goals


def clashes(table):
    """Files in which two names that differ today would have one spelling."""
    tokens = re.compile("(?:" + WORD + ")+")
    found = []
    for path in files():
        seen = collections.defaultdict(set)
        for word in tokens.findall(path.read_text()):
            seen[table.get(word, word)].add(word)
        found += [(path, new, old) for new, old in seen.items() if len(old) > 1 and new not in SHARED]
    return found


def replaced(text, pattern, table):
    """The text with the names respelled, strings left out. Behind a dot a name of BY_HAND is a step of a function's own name."""

    def one(m):
        behind_dot = m.start() > 0 and m.string[m.start() - 1] == "."
        return m.group(0).replace("-", "_") if behind_dot and m.group(0) in BY_HAND else table[m.group(0)]

    parts = re.split(r'("(?:[^"\\\n]|\\.)*")', text)
    return "".join(part if part.startswith('"') else pattern.sub(one, part) for part in parts)


def replaced_page(text, pattern, table):
    """A page with the names between backticks respelled."""
    return re.sub(r"`[^`\n]+`", lambda m: pattern.sub(lambda n: table[n.group(0)], m.group(0)), text)


def main():
    table, names, goals = renames()
    if "--list" in sys.argv:
        for old, new in sorted(table.items()):
            print(f"{old} -> {new}")
    bad = clashes(table)
    for path, new, old in bad:
        print(f"would fall together as {new}: {sorted(old)} in {path.relative_to(TOP)}", file=sys.stderr)
    back = collections.defaultdict(set)
    for name in names:
        if name not in goals:
            back[table.get(name, name)].add(name)
    for new, old in sorted(back.items()):
        if len(old) > 1:
            print(f"one name for {sorted(old)}: {new}", file=sys.stderr)
    if "--list" in sys.argv:
        return
    if bad:
        sys.exit(1)
    words = "|".join(re.escape(n) for n in sorted(table, key=len, reverse=True))
    pattern = re.compile(r"(?<!" + WORD + r")(?:" + words + r")(?!" + WORD + r")")
    pages = [TOP / "README.md"] + sorted((TOP / "docs").glob("*.md"))
    edits = sorted((TOP / "crates").glob("*/must-fail/*.edit"))
    for path in list(files()) + edits + pages:
        text = path.read_text()
        new = (replaced_page if path.suffix == ".md" else replaced)(text, pattern, table)
        if new != text:
            path.write_text(new)


main()
