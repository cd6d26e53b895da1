#!/usr/bin/env python3
"""Check par against a second reading of the rules.

Usage: python3 compare.py PATH_TO_PAR [CASES] [SEED]     (2000 cases, seed 1)

Makes random patterns and rows, runs par on each and compares its answer with
  - a parser written from the rules: which patterns and rows are refused, where;
  - Python's re on a translation of the pattern: yes or no;
  - short completions tried one by one with re: the need, as far as they reach;
  - derivatives of the pattern: the exact need, or stuck.
The same seed makes the same cases.  Exits 1 if anything differs.
"""

import itertools
import os
import random
import re
import signal
import subprocess
import sys
from collections import Counter, namedtuple

INPUT_BYTES = 8192
PATTERN_BYTES = 512
PLACES = 64
WIDTHS = 4096
HIGHEST = 1000

RE_SECONDS = 0.02       # processor time for one question to re
RE_NESTING = 20         # repeats in repeats; re takes much memory on more
TRIES = 800             # completions tried by re for one case
LAY_WORK = 1000000      # terms looked at while laying one row
SEARCH_WORK = 50000     # terms looked at in one search
NEW_TERM = 5            # what the first look at a term counts
KEPT_STATE = 50         # terms in the largest state kept for another look
SEARCH_STATES = 400     # states visited by one search
PAR_SECONDS = 30        # time for one run of par
SHOWN = 10              # differing cases printed

ALPHABET = "abcdefghijklmnopqrstuvwxyz"
LETTERS = frozenset(ALPHABET)
DIGITS = frozenset("0123456789")
ATOM_STARTS = LETTERS | frozenset(".[(")
STUCK = float("inf")


# ---- the rules: input, grammar, refusals --------------------------------

Unit = namedtuple("Unit", "letters at")
Cat = namedtuple("Cat", "parts")
Alt = namedtuple("Alt", "branches")
# high is None without a bound; brace is None when the repeat is not counted
Repeat = namedtuple("Repeat", "body low high brace")


class Refusal(Exception):
    def __init__(self, number, place):
        super().__init__(f"refused {number} at {place}")
        self.number = number


def split_input(data):
    """The pattern and the row in the bytes that par reads."""
    lines = data[:INPUT_BYTES].split(b"\n") + [b""]
    return lines[0].decode("latin-1"), lines[1].decode("latin-1")


class Reader:
    """Recursive descent: stops at the first byte that cannot go on."""

    def __init__(self, text):
        self.text = text
        self.at = 0
        self.ranges = []    # (first, last, place)
        self.classes = []   # (letters, place)
        self.counts = []    # (low, high, place)
        self.places = []

    def next(self):
        return self.text[self.at:self.at + 1]

    def take(self, wanted):
        """Take one byte out of wanted, or refuse."""
        byte = self.next()
        if byte not in wanted:
            self.refuse()
        self.at += 1
        return byte

    def refuse(self):
        raise Refusal(2 if self.at < len(self.text) else 3, self.at)

    def whole(self):
        tree = self.pattern()
        if self.at < len(self.text):
            self.refuse()
        return tree

    def pattern(self):
        branches = [self.branch()]
        while self.next() == "|":
            self.at += 1
            branches.append(self.branch())
        return Alt(branches) if len(branches) > 1 else branches[0]

    def branch(self):
        parts = []
        while self.next() in ATOM_STARTS:
            parts.append(self.piece())
        return Cat(parts)

    def piece(self):
        body = self.atom()
        sign = self.next()
        if sign == "{":
            return self.counted(body)
        if sign not in {"*", "+", "?"}:
            return body
        self.at += 1
        return Repeat(body, int(sign == "+"), 1 if sign == "?" else None, None)

    def atom(self):
        sign = self.next()
        if sign == "(":
            self.at += 1
            body = self.pattern()
            self.take({")"})
            return body
        at = self.at
        self.places.append(at)
        if sign == "[":
            return Unit(self.body(), at)
        self.at += 1
        return Unit(LETTERS if sign == "." else frozenset(sign), at)

    def body(self):
        at = self.at
        self.take({"["})
        negated = self.next() == "^"
        self.at += negated
        letters = set()
        while self.next() in LETTERS:
            letters |= self.range()
        self.take({"]"})
        letters = LETTERS - letters if negated else frozenset(letters)
        self.classes.append((letters, at))
        return letters

    def range(self):
        at = self.at
        first = last = self.take(LETTERS)
        if self.next() == "-":
            self.at += 1
            last = self.take(LETTERS)
            self.ranges.append((first, last, at))
        return {c for c in ALPHABET if first <= c <= last}

    def counted(self, body):
        brace = self.at
        self.take({"{"})
        low = high = self.number()
        if self.next() == ",":
            self.at += 1
            high = self.number()
        self.take({"}"})
        self.counts.append((low, high, brace))
        return Repeat(body, low, high, brace)

    def number(self):
        digits = self.take(DIGITS)
        while len(digits) < 4 and self.next() in DIGITS:
            digits += self.take(DIGITS)
        return int(digits)


def children(tree):
    if isinstance(tree, Cat):
        return tree.parts
    if isinstance(tree, Alt):
        return tree.branches
    return [tree.body] if isinstance(tree, Repeat) else []


def units(tree):
    if isinstance(tree, Unit):
        return [tree]
    return [unit for child in children(tree) for unit in units(child)]


def inner_braces(tree, inside=False):
    """Places of the counted repeats inside a counted repeat."""
    counted = isinstance(tree, Repeat) and tree.brace is not None
    found = [tree.brace] if counted and inside else []
    for child in children(tree):
        found += inner_braces(child, inside or counted)
    return found


def widths(tree, width=1):
    if isinstance(tree, Unit):
        return width
    if isinstance(tree, Repeat) and tree.brace is not None:
        width = tree.high
    return sum(widths(child, width) for child in children(tree))


def refuse_leftmost(number, places):
    if places:
        raise Refusal(number, min(places))


def read_pattern(text):
    """The tree of the pattern, or a Refusal."""
    if len(text) > PATTERN_BYTES:
        raise Refusal(1, PATTERN_BYTES)
    reader = Reader(text)
    tree = reader.whole()
    refuse_leftmost(4, [at for first, last, at in reader.ranges if first > last])
    refuse_leftmost(5, [at for letters, at in reader.classes if not letters])
    refuse_leftmost(6, [at for low, high, at in reader.counts
                        if high == 0 or high > HIGHEST or low > high])
    refuse_leftmost(7, inner_braces(tree))
    refuse_leftmost(8, reader.places[PLACES:])
    if 1 + widths(tree) > WIDTHS:
        raise Refusal(9, 0)
    return tree


def read_row(row):
    refuse_leftmost(10, [i for i, c in enumerate(row) if c not in LETTERS])


# ---- yes or no, and short completions, with re --------------------------

def translate(tree):
    if isinstance(tree, Unit):
        return "[" + "".join(sorted(tree.letters)) + "]"
    if isinstance(tree, Cat):
        return "".join(map(translate, tree.parts))
    if isinstance(tree, Alt):
        return "(?:" + "|".join(map(translate, tree.branches)) + ")"
    high = "" if tree.high is None else tree.high
    return f"(?:{translate(tree.body)}){{{tree.low},{high}}}"


def nesting(tree):
    inner = max(map(nesting, children(tree)), default=0)
    return inner + isinstance(tree, Repeat)


class OutOfTime(Exception):
    pass


def out_of_time(signum, frame):
    raise OutOfTime


def within_time(question):
    """The answer to the question, or None when it takes too long."""
    try:
        signal.setitimer(signal.ITIMER_VIRTUAL, RE_SECONDS)
        try:
            return question()
        finally:
            signal.setitimer(signal.ITIMER_VIRTUAL, 0)
    except OutOfTime:
        return None


def representatives(tree):
    """One letter for each sort of letters that the pattern tells apart."""
    sets = {unit.letters for unit in units(tree)}
    sorts = {}
    for c in ALPHABET:
        key = tuple(c in letters for letters in sets)
        if any(key):
            sorts.setdefault(key, c)
    return list(sorts.values())


def complete(matcher, row, letters):
    """(length, True) of the shortest completion found, or (length, False)
    when none of up to that length exists."""
    tries = 0
    for length in itertools.count():
        tries += len(letters) ** length
        if tries > TRIES or length > 60:
            return length - 1, False
        for end in itertools.product(letters, repeat=length):
            if matcher.fullmatch(row + "".join(end)):
                return length, True


# ---- the exact need, with derivatives -----------------------------------

class TooMuch(Exception):
    pass


class Term:
    """An expression, made once for each form; short is its shortest length."""
    __slots__ = ("kind", "parts", "short")

    def __init__(self, kind, parts, short):
        self.kind = kind
        self.parts = parts
        self.short = short


class Derivatives:
    """A state is a set of terms: what may still follow the row so far."""

    def __init__(self):
        self.terms = {}
        self.derived = {}
        self.steps = {}
        self.work = LAY_WORK
        self.empty = self.term("empty", (), 0)

    def term(self, kind, parts, short):
        key = (kind, parts)
        if key not in self.terms:
            self.terms[key] = Term(kind, parts, short)
        return self.terms[key]

    def build(self, tree):
        if isinstance(tree, Unit):
            return self.term("unit", (tree.letters,), 1)
        if isinstance(tree, Repeat):
            return self.repeat(self.build(tree.body), tree.low, tree.high)
        parts = [self.build(child) for child in children(tree)]
        if isinstance(tree, Alt):
            return self.either(parts)
        whole = self.empty
        for part in reversed(parts):
            whole = self.then(part, whole)
        return whole

    def either(self, parts):
        return self.term("either", (frozenset(parts),), min(p.short for p in parts))

    def then(self, first, rest):
        if first is self.empty:
            return rest
        if rest is self.empty:
            return first
        if first.kind == "then":
            head, tail = first.parts
            return self.then(head, self.then(tail, rest))
        return self.term("then", (first, rest), first.short + rest.short)

    def repeat(self, body, low, high):
        if high == 0 or body is self.empty:
            return self.empty
        low = 0 if body.short == 0 else max(low, 0)
        return self.term("repeat", (body, low, high), low * body.short)

    def spend(self, work):
        self.work -= work
        if self.work < 0:
            raise TooMuch

    def derive(self, term, letter):
        key = (term, letter)
        if key not in self.derived:
            self.spend(NEW_TERM)
            self.derived[key] = tuple(self.derivative(term, letter))
        return self.derived[key]

    def derivative(self, term, letter):
        if term.kind == "unit":
            return {self.empty} if letter in term.parts[0] else set()
        if term.kind == "either":
            return set().union(*(self.derive(p, letter) for p in term.parts[0]))
        if term.kind == "then":
            first, rest = term.parts
            found = {self.then(d, rest) for d in self.derive(first, letter)}
            if first.short == 0:
                found.update(self.derive(rest, letter))
            return found
        if term.kind == "repeat":
            body, low, high = term.parts
            rest = self.repeat(body, low - 1, high if high is None else high - 1)
            return {self.then(d, rest) for d in self.derive(body, letter)}
        return set()

    def step(self, state, letter):
        key = (state, letter)
        if key in self.steps:
            return self.steps[key]
        self.spend(len(state))
        after = frozenset().union(*(self.derive(term, letter) for term in state))
        if len(state) <= KEPT_STATE:
            self.steps[key] = after
        return after

    def lay(self, tree, row):
        state = frozenset([self.build(tree)])
        for letter in row:
            state = self.step(state, letter)
        return state

    def search(self, state, letters):
        """The need by a breadth-first search over states."""
        self.work = SEARCH_WORK
        seen = {state}
        level = [state] if state else []
        for need in itertools.count():
            if not level:
                return STUCK
            if any(term.short == 0 for state in level for term in state):
                return need
            level = self.next_level(level, letters, seen)

    def next_level(self, level, letters, seen):
        found = []
        for state in level:
            for letter in letters:
                after = self.step(state, letter)
                if after and after not in seen:
                    seen.add(after)
                    found.append(after)
            if len(seen) > SEARCH_STATES:
                raise TooMuch
        return found


def shortest(state):
    """The need by the lengths of the terms."""
    return min((term.short for term in state), default=STUCK)


# ---- comparing one case -------------------------------------------------

def run(par, data):
    try:
        done = subprocess.run([par], input=data, stdout=subprocess.PIPE,
                              stderr=subprocess.STDOUT, timeout=PAR_SECONDS)
    except subprocess.TimeoutExpired:
        return f"(no answer in {PAR_SECONDS} s)"
    text = done.stdout.decode("latin-1")
    if done.returncode < 0:
        text += f"(ended by signal {-done.returncode})"
    return text


def read_answer(got):
    """The need in an answer, or None when it is not an answer."""
    if got == "yes 0\n":
        return 0
    if got == "no stuck\n":
        return STUCK
    found = re.fullmatch(r"no ([1-9][0-9]*)\n", got)
    return int(found[1]) if found else None


def say(need):
    if need == 0:
        return "yes 0"
    return "no stuck" if need == STUCK else f"no {need}"


def sort_of(need):
    if need == 0:
        return "yes 0"
    return "no stuck" if need == STUCK else "no, need > 0"


def judge(data, got, tally):
    """What par should have said, one line for each method that differs."""
    pattern, row = split_input(data)
    try:
        tree = read_pattern(pattern)
        read_row(row)
    except Refusal as refusal:
        tally[f"refused {refusal.number}"] += 1
        return [] if got == f"{refusal}\n" else [f"{refusal} (rules)"]
    said = read_answer(got)
    if said is None:
        return ["yes or no (rules)"] + (judge_need(tree, row, said, tally) or [])
    tally[sort_of(said)] += 1
    fit = judge_fit(tree, row, said, tally)
    need = judge_need(tree, row, said, tally)
    tally["undecided"] += fit is None and need is None
    return (fit or []) + (need or [])


def judge_fit(tree, row, said, tally):
    """The differences found with re, or None when it gave up."""
    matcher = re.compile(translate(tree))
    fits = None
    if nesting(tree) <= RE_NESTING:
        fits = within_time(lambda: bool(matcher.fullmatch(row)))
    if fits is None:
        tally["re: gave up"] += 1
        return None
    tally["re: yes or no"] += 1
    if fits != (said == 0):
        return ["yes (re)" if fits else "no (re)"]
    return [] if fits else judge_completion(matcher, tree, row, said, tally)


def judge_completion(matcher, tree, row, said, tally):
    tried = within_time(lambda: complete(matcher, row, representatives(tree)))
    if tried is None:
        return []
    length, found = tried
    if found:
        tally["re: shortest completion"] += 1
        return [] if said == length else [f"no {length} (completions)"]
    tally["re: no short completion"] += 1
    return [] if said > length else [f"need above {length} (completions)"]


def judge_need(tree, row, said, tally):
    """The differences found with derivatives, or None when they gave up."""
    derivatives = Derivatives()
    try:
        state = derivatives.lay(tree, row)
    except TooMuch:
        tally["derivatives: gave up"] += 1
        return None
    tally["derivatives: lengths"] += 1
    needs = {"lengths": shortest(state)}
    try:
        needs["search"] = derivatives.search(state, representatives(tree))
        tally["derivatives: search"] += 1
    except TooMuch:
        pass
    return [f"{say(need)} (derivatives, {how})"
            for how, need in needs.items() if need != said]


# ---- making patterns ----------------------------------------------------

META = "|*+?{}[]()^-.,"
FAULTS = ["[f-b]", "[ac-b]", "[^z-a]", "[]", "[^a-z]", "[^a-mn-z]", "a{0}",
          "b{0,0}", "a{1001}", "c{9999}", "a{3,2}", "b{1,1001}", "(a{2}){3}",
          "(b(a{2}|c)*){1,3}", "(([a-c]{2}b{3})+a){2}", "((a{1}){2}){3}"]


def letter(rng):
    return rng.choice("aaabbbccd" if rng.random() < 0.9 else ALPHABET)


def char_class(rng):
    if rng.random() < 0.05:
        return "[^]"
    body = ""
    for _ in range(rng.randint(1, 3)):
        first, last = sorted([letter(rng), letter(rng)])
        body += f"{first}-{last}" if rng.random() < 0.5 else first
    return ("[^" if rng.random() < 0.3 else "[") + body + "]"


def unit(rng):
    roll = rng.random()
    if roll < 0.7:
        return letter(rng)
    return "." if roll < 0.8 else char_class(rng)


def number(rng, value):
    text = str(value)
    return text.zfill(rng.randint(1, 4)) if rng.random() < 0.1 else text


def count(rng, top):
    high = rng.randint(1, top)
    if rng.random() < 0.4:
        return "{" + number(rng, high) + "}"
    low = rng.choice([0, high, rng.randint(0, high)])
    return "{" + number(rng, low) + "," + number(rng, high) + "}"


def random_piece(rng, depth, top):
    """top is the highest count, 0 where no count may stand."""
    sign = ""
    if rng.random() < 0.45:
        sign = rng.choice("*+?{{" if top else "*+?")
    inner = 0 if sign == "{" else top
    if depth and rng.random() < 0.35:
        atom = "(" + random_pattern(rng, depth - 1, inner) + ")"
    else:
        atom = unit(rng)
    return atom + (count(rng, top) if sign == "{" else sign)


def random_pattern(rng, depth=3, top=5):
    branches = []
    for _ in range(rng.choice([1, 1, 1, 2, 2, 3])):
        pieces = rng.choice([0, 1, 1, 2, 2, 3, 4])
        branches.append("".join(random_piece(rng, depth, top) for _ in range(pieces)))
    return "|".join(branches)


def tail_pattern(rng):
    """Many places of one row may stand in the repeat at once."""
    return rng.choice([".*", "(a|b)*", "[ab]+"]) + letter(rng) + \
        rng.choice([".", "[a-c]", "(a|b)", "(a|aa)"]) + count(rng, 12) + unit(rng)


def big_count(rng):
    return random_pattern(rng, 2, rng.choice([30, 300, 1000]))


def count_limit(rng):
    high = rng.choice([0, 1, 998, 999, 1000, 1001, 1002, 9999])
    low = rng.choice([0, 1, max(high - 1, 0), high, min(high + 1, 9999)])
    text = rng.choice(["{%d}" % high, "{%d,%d}" % (low, high)])
    return rng.choice(["", "a", "(a|b)*"]) + rng.choice(["a", "(ab?)", "[a-c]"]) + text


def wide(rng):
    """Widths that add to about the limit."""
    left = WIDTHS - 1 + rng.choice([-2, -1, 0, 0, 1, 1, 2])
    text = ""
    while left > 1000:
        size = rng.randint(1, 5)
        high = min(1000, left // size)
        low = rng.choice([high, high, high - 1, 1, 0])
        text += "(" + "".join(unit(rng) for _ in range(size)) + ")"
        text += "{%d,%d}" % (low, high) if low < high else "{%d}" % high
        left -= size * high
    return text + (unit(rng) + "{%d}" % left if left else "")


def many_places(rng):
    text = ""
    for _ in range(rng.randint(61, 68)):
        text += unit(rng) + rng.choice(["", "", "", "", "?", "*", "|", "{2}"])
    cut = text.find("|") + 1
    return text[:cut] + "(" + text[cut:] + ")" + rng.choice(["", "*", "?"])


def deep(rng):
    depth = rng.choice([5, 20, 60, 120, 200, 254, 255, 256, 257])
    signs = rng.choice([[""], [""], ["", "?"], ["", "", "", "*", "+"]])
    room = PATTERN_BYTES - 2 * depth - 1
    text = unit(rng) if rng.random() < 0.9 else ""
    for _ in range(depth):
        sign = rng.choice(signs) if room > 0 else ""
        room -= len(sign)
        text = "(" + text + ")" + sign
    return text[:len(text) - rng.choice([0, 0, 0, 0, 1, 3])]


def over_long(rng):
    length = rng.choice([510, 511, 512, 513, 514, 600, 3000, 8191, 8192, 8193, 9000])
    base = rng.choice(["a", "()", "|", "(|a*)", "[abc]", "*", "()?|"])
    return (base * length)[:length]


def faulty(rng):
    """Several faults at once, to see which one is named."""
    parts = [rng.choice(FAULTS) for _ in range(rng.randint(1, 3))]
    parts += [random_pattern(rng, 1) for _ in range(rng.randint(0, 2))]
    if rng.random() < 0.1:
        parts.append("a" * rng.randint(60, 66))
    if rng.random() < 0.1:
        parts.append(wide(rng))
    rng.shuffle(parts)
    return rng.choice(["", "|", ""]).join(parts)


def raw(rng):
    pool = rng.choice([range(256), META.encode(), (META + "aabb0123").encode()])
    return bytes(rng.choice(pool) for _ in range(rng.randint(1, 12))).decode("latin-1")


def edit(rng, text):
    i = rng.randint(0, len(text))
    new = rng.choice([rng.choice(META), rng.choice(META), rng.choice("abz019"),
                      chr(rng.randrange(256))])
    return rng.choice([
        text[:i] + new + text[i:],
        text[:i] + new + text[i + 1:],
        text[:i] + text[i + 1:],
        text[:i] + text[i - 3:],
        text[:i]])


def mangled(rng):
    text = rng.choice([random_pattern, random_pattern, tail_pattern, faulty,
                       count_limit])(rng)
    for _ in range(rng.choice([1, 1, 1, 2, 3])):
        text = edit(rng, text)
    return text


MAKERS = [(random_pattern, 40), (tail_pattern, 6), (big_count, 5),
          (count_limit, 3), (wide, 4), (many_places, 3), (deep, 3),
          (over_long, 2), (faulty, 6), (raw, 4), (mangled, 24)]


# ---- making rows and inputs ---------------------------------------------

def member(rng, tree, extra=3):
    """A row that fits; only the outer repeats go round more than they must."""
    if isinstance(tree, Unit):
        return rng.choice(sorted(tree.letters))
    if isinstance(tree, Cat):
        return "".join(member(rng, part, extra) for part in tree.parts)
    if isinstance(tree, Alt):
        return member(rng, rng.choice(tree.branches), extra)
    times = rounds(rng, tree.low, tree.high, extra)
    return "".join(member(rng, tree.body, extra - 1) for _ in range(times))


def rounds(rng, low, high, extra):
    if extra <= 0:
        return rng.randint(low, max(low, 1))
    if high is None:
        return low + rng.randint(0, 2)
    return rng.randint(low, high if rng.random() < 0.2 else min(low + 2, high))


def random_row(rng):
    pool = rng.choice(["ab", "abc", "abcd", ALPHABET])
    return "".join(rng.choice(pool) for _ in range(rng.randint(0, 10)))


def near_row(rng, tree):
    """A member, a start of one, or one with a letter changed."""
    row = member(rng, tree)
    roll = rng.random()
    if roll < 0.25:
        return row
    if roll < 0.75:
        return row[:rng.randint(0, len(row))]
    i = rng.randint(0, len(row))
    return row[:i] + letter(rng) + row[i + rng.randint(0, 1):]


def spoil(rng, row):
    for _ in range(rng.randint(1, 2)):
        i = rng.randint(0, len(row))
        row = row[:i] + rng.choice(["A", " ", "\r", "\0", "`", "{", "\n", "0",
                                    chr(rng.randrange(256))]) + row[i:]
    return row


def make_row(rng, pattern):
    try:
        tree = read_pattern(pattern)
        row = near_row(rng, tree) if rng.random() < 0.75 else random_row(rng)
    except Refusal:
        row = random_row(rng)
    return spoil(rng, row) if rng.random() < 0.06 else row


def make_long_input(rng):
    """An input about as long as par reads."""
    pattern = "(" + random_pattern(rng, 1, 0) + rng.choice([")*", "|[a-d])*"])
    room = INPUT_BYTES - len(pattern) - 1 + rng.choice([-1, 0, 0, 1, 2])
    row = "".join(rng.choice("abcd") for _ in range(room))
    end = rng.choice(["", "", "A", "\n", "\nA"])
    return pattern + "\n" + row[:room - len(end)] + end + rng.choice(["", "0"])


def make_input(rng):
    if rng.random() < 0.01:
        return make_long_input(rng).encode("latin-1")
    makers, weights = zip(*MAKERS)
    pattern = rng.choices(makers, weights)[0](rng)
    row = make_row(rng, pattern)
    if not row and rng.random() < 0.3:
        return pattern.encode("latin-1")
    end = rng.choice(["", "\n", "\n", "\nmore", "\n\nmore\n", "\n\xff\0"])
    return (pattern + "\n" + row + end).encode("latin-1")


# ---- known answers ------------------------------------------------------

KNOWN = [
    ("", "yes 0"), ("\n", "yes 0"), ("\na", "no stuck"),
    (".*a.{3}b\naa", "no 3"), (".*a.{3}b\naaxxb", "yes 0"),
    ("(a|aa){5}\n" + "a" * 11, "no stuck"),
    ("(aaaa){1000}a{95}", "no 4095"), ("(aaaa){1000}a{96}", "refused 9 at 0"),
    ("[^]\nq", "yes 0"), ("a" * 64, "no 64"), ("a" * 65, "refused 8 at 64"),
    ("a" * 513, "refused 1 at 512"), ("a**", "refused 2 at 2"),
    ("a{3,}", "refused 2 at 4"), ("a{12345}", "refused 2 at 6"),
    ("(a", "refused 3 at 2"), ("a{3", "refused 3 at 3"), ("[a-", "refused 3 at 3"),
    ("a[f-b]", "refused 4 at 2"), ("[]", "refused 5 at 0"),
    ("[^a-z]", "refused 5 at 0"), ("a{1001}", "refused 6 at 1"),
    ("a{0}", "refused 6 at 1"), ("a{3,2}", "refused 6 at 1"),
    ("(a{2}){3}", "refused 7 at 2"), ("a*\naaBa", "refused 10 at 2"),
]


def check_known(data, known):
    """The second reading itself must give the known answers."""
    wrong = judge(data, known + "\n", Counter())
    if wrong:
        sys.exit(f"compare.py: {data!r} is {known}, not {wrong}")


# ---- the whole run ------------------------------------------------------

SORTS = ["yes 0", "no, need > 0", "no stuck"] + [f"refused {n}" for n in range(1, 11)]
METHODS = ["re: yes or no", "re: gave up", "re: shortest completion",
           "re: no short completion", "derivatives: lengths",
           "derivatives: gave up", "derivatives: search", "undecided"]


def inputs(cases, seed):
    rng = random.Random(seed)
    known = [data.encode() for data, _ in KNOWN]
    yield from known[:cases]
    for _ in range(cases - len(known)):
        yield make_input(rng)


def show(data, wrong, got):
    pattern, row = split_input(data)
    print("pattern ", pattern.encode("latin-1"))
    print("row     ", row.encode("latin-1"))
    print("expected", "; ".join(wrong))
    print("got     ", got.rstrip("\n"))
    print()


def summary(tally):
    for name in SORTS + METHODS:
        print(f"{tally[name]:7} {name}")


def main(par, cases=2000, seed=1):
    sys.setrecursionlimit(20000)
    signal.signal(signal.SIGVTALRM, out_of_time)
    for data, known in KNOWN:
        check_known(data.encode(), known)
    par = os.path.abspath(par)
    tally = Counter()
    differ = 0
    for data in inputs(cases, seed):
        got = run(par, data)
        wrong = judge(data, got, tally)
        if wrong:
            differ += 1
            if differ <= SHOWN:
                show(data, wrong, got)
    summary(tally)
    if differ:
        print(f"{differ} of {cases} cases differ")
        return 1
    print(f"{cases - tally['undecided']} cases agree")
    return 0


if __name__ == "__main__":
    if not 2 <= len(sys.argv) <= 4 or not os.path.isfile(sys.argv[1]):
        sys.exit("usage: python3 compare.py PATH_TO_PAR [CASES] [SEED]")
    sys.exit(main(sys.argv[1], *map(int, sys.argv[2:])))
