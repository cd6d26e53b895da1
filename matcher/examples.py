#!/usr/bin/env python3
"""Say what the program examples must print.

Usage: python3 matcher/examples.py < crates/examples/stdin > crates/examples/stdout

Each line is a kind, a pattern and a row. The pattern is read by the rules, the row
laid by derivatives (see compare.py); nothing of the engine is used. Which rows the
list bank cannot hold is worked by hand: see FULL.
"""

import sys

import compare
from compare import DIGITS, HIGHEST, PATTERN_BYTES, PLACES, WIDTHS
from compare import Reader, Refusal, Unit, inner_braces, refuse_leftmost, say, shortest, widths

COLOURS = "RGBY"
TILES = frozenset(range(40))
SHOWN = 80

def where_lists_are_full(said, list_said, mask_list_said):
    return (f"bit bank {said}, list bank {list_said}, "
            f"mask layer over the bit bank {said}, over the list bank {mask_list_said}")


# What the list bank, which holds 256 pairs, cannot hold, by hand.
# .*.{1000}: after n letters n + 1 pairs stand, n of them at the wider place; a mask layer
# keeps the other one itself.
# (a|aa){500}: after n letters the first two places have the counts from n // 2 + 1 to n,
# the third those from (n - 1) // 2 + 1 to n - 1. That is 255 pairs for 170 letters, and
# 257 for 171; all places are wide, so a mask layer changes nothing.
FULL = {
    "letters .*.{1000} " + 256 * "a": where_lists_are_full("no 744", "refused 20 at 255", "no 744"),
    "letters (a|aa){500} " + 499 * "a": where_lists_are_full("no 1", "refused 20 at 170", "refused 20 at 170"),
    "letters (a|aa){500} " + 1000 * "a": where_lists_are_full("yes 0", "refused 20 at 170", "refused 20 at 170"),
}


class TileReader(Reader):
    """Patterns whose units have two bytes, a colour and a face."""

    def branch(self):
        parts = []
        while self.next() and self.next() in COLOURS + ".[(":
            parts.append(self.piece())
        return compare.Cat(parts)

    def unit(self):
        colour = self.take(frozenset(COLOURS + "."))
        face = self.take(DIGITS | {"."})
        return frozenset(10 * c + f for c in range(4) for f in range(10)
                         if colour in (".", COLOURS[c]) and face in (".", str(f)))

    def atom(self):
        if self.next() == "(":
            return super().atom()
        at = self.at
        self.places.append(at)
        return Unit(self.body() if self.next() == "[" else self.unit(), at)

    def body(self):
        at = self.at
        self.take({"["})
        negated = self.next() == "^"
        self.at += negated
        codes = frozenset()
        while self.next() and self.next() in COLOURS + ".":
            codes |= self.unit()
        self.take({"]"})
        codes = TILES - codes if negated else codes
        self.classes.append((codes, at))
        return codes


def read_tile_pattern(text):
    """The tree of a tiles pattern, or a Refusal."""
    if len(text) > PATTERN_BYTES:
        raise Refusal(1, PATTERN_BYTES)
    reader = TileReader(text)
    tree = reader.whole()
    refuse_leftmost(5, [at for codes, at in reader.classes if not codes])
    refuse_leftmost(6, [at for low, high, at in reader.counts
                        if high == 0 or high > HIGHEST or low > high])
    refuse_leftmost(7, inner_braces(tree))
    refuse_leftmost(8, reader.places[PLACES:])
    if 1 + widths(tree) > WIDTHS:
        raise Refusal(9, 0)
    return tree


def read_tile_row(row):
    """The codes of the tiles that spell a row, or a Refusal."""
    codes = []
    for i in range(0, len(row), 2):
        unit = row[i:i + 2]
        if len(unit) < 2 or unit[0] not in COLOURS or unit[1] not in DIGITS:
            raise Refusal(10, len(codes))
        codes.append(10 * COLOURS.index(unit[0]) + int(unit[1]))
    return codes


def answer(kind, pattern, row):
    try:
        if kind == "tiles":
            tree, row = read_tile_pattern(pattern), read_tile_row(row)
        else:
            tree = compare.read_pattern(pattern)
            compare.read_row(row)
    except Refusal as refusal:
        return str(refusal)
    derivatives = compare.Derivatives()
    derivatives.work = float("inf")
    return say(shortest(derivatives.lay(tree, row)))


def main():
    for line in sys.stdin.read().split("\n")[:-1]:
        kind, pattern, row = line.split(" ")
        shown = line if len(line) <= SHOWN else line[:SHOWN] + ".."
        print(f"{shown}: {FULL.get(line) or answer(kind, pattern, row)}")


main()
