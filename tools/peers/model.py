#!/usr/bin/env python3
"""A small model of docs/FORMAT.md, written from that document alone, by definition and without care for speed.

usage: tools/peers/model.py < TEXTS        the number or the refusal of each line on one sheet of 1,024 rows of each kind
       tools/peers/model.py --check        compares the fault places with a search through all short valid texts

Validity: a text is read into trees with no limit, and the depths are then computed from the trees.
Fault place: the longest start p of the text for which some ending c makes p + c valid. The ending tried is the shortest
one; --check compares this with the definition, on all texts of at most 5 bytes and small depth limits.
Numbers: a dictionary of printed forms, parts before wholes and left before right; a set of the texts of the tails.
"""
import sys

BASIC = b"ybnqiuxtdsgovh"
LIMIT = 32
ROWS = 1024


# --- Trees. A tree is ('y',) or ('a', t) or ('{', k, v) or ('(', t, ..) or ('m', t).

class NoType(Exception):
    pass


def read_type(text, i):
    """The tree of the one complete type that begins at i, and where it ends."""
    if i == len(text):
        raise NoType
    c = text[i:i + 1]
    if c in (b"a", b"m") and not (c == b"a" and text[i + 1:i + 2] == b"{"):
        child, end = read_type(text, i + 1)
        return (c.decode(), child), end
    if c == b"a":
        key, j = read_type(text, i + 2)
        value, j = read_type(text, j)
        if text[j:j + 1] != b"}":
            raise NoType
        return ("{", key, value), j + 1
    if c == b"(":
        fields, j = [], i + 1
        while text[j:j + 1] != b")":
            field, j = read_type(text, j)
            fields.append(field)
        if not fields:
            raise NoType
        return ("(", *fields), j + 1
    if c in [bytes([b]) for b in BASIC]:
        return (c.decode(),), i + 1
    raise NoType


def read_row(text):
    """The trees of a text of complete types in a row, or None; no depth limit."""
    trees, i = [], 0
    try:
        while i < len(text):
            tree, i = read_type(text, i)
            trees.append(tree)
    except NoType:
        return None
    return trees


def depth(tree, kinds):
    """The greatest number of nodes of these kinds from the whole down to any part."""
    below = max((depth(t, kinds) for t in tree[1:]), default=0)
    return below + (tree[0] in kinds)


def printed(tree):
    kind, *parts = tree
    inner = "".join(printed(t) for t in parts)
    if kind == "(":
        return "(" + inner + ")"
    if kind == "{":
        return "a{" + inner + "}"
    return kind + inner


# --- Valid texts and faults.

def valid(text, limit=LIMIT):
    trees = read_row(text)
    return trees is not None and all(depth(t, "(") <= limit and depth(t, "a{") <= limit for t in trees)


def ending(start):
    """The shortest bytes that complete this start of a text, if it is one: what is still open is closed, innermost
    first, with a `y` for each type that is due."""
    due = []  # what has to come, the last first: 'T' a type, ')' fields or the end, '}' the end of a dictionary
    i = 0
    while i < len(start):
        token = start[i:i + 2] if start[i:i + 2] == b"a{" else start[i:i + 1]
        i += len(token)
        closes = due and due[-1].encode() == token
        if due and (due[-1] == "T" or closes):
            due.pop()
        if not closes:
            due += {b"a": "T", b"m": "T", b"(": ")T", b"a{": "}TT"}.get(token, "")
    return "".join("y" if d == "T" else d for d in reversed(due)).encode()


def is_start(start, limit=LIMIT):
    return valid(start + ending(start), limit)


def fault(text, limit=LIMIT):
    """None for a valid text, else cause and place."""
    if valid(text, limit):
        return None
    place = max(n for n in range(len(text) + 1) if is_start(text[:n], limit))
    if place == len(text):
        return "E", place
    p, b = text[:place], text[place:place + 1]
    if b in (b"a", b"(") and is_start(p + b"y", limit) and is_start(p + b, 10 ** 9):
        return "D", place
    return "U", place


# --- The sheet.

class Sheet:
    def __init__(self, rows=ROWS):
        self.rows = rows
        self.types = {}     # printed form -> number
        self.tails = set()  # the text of each tail

    def file(self, text):
        """What `whole_lines` says of this text before the figures."""
        if len(text) > 65535:
            return "no 1"
        wrong = fault(text)
        if wrong:
            return "no 2 %s %d" % wrong
        trees = read_row(text)
        if not trees:
            return "ok 0"
        tree = trees[0] if len(trees) == 1 else ("(", *trees)
        if len(printed(tree)) > 65535:
            return "no 7"
        types, tails = dict(self.types), set(self.tails)
        number = add(tree, types, tails)
        if len(types) > self.rows or len(tails) > self.rows:
            return "no 8"
        self.types, self.tails = types, tails
        return "ok %d" % number


def add(tree, types, tails):
    if tree[0].encode() in [bytes([b]) for b in BASIC]:
        return BASIC.index(tree[0].encode()) + 1
    for part in tree[1:]:
        add(part, types, tails)
    if tree[0] == "(":
        fields = [printed(t) for t in tree[1:]]
        for i in range(len(fields)):
            tails.add("".join(fields[i:]))
    return types.setdefault(printed(tree), 15 + len(types))


# --- The fault places by the definition, for small limits.

def all_valid_types(length, structures, arrays, memo):
    """All complete types of this many bytes over a few codes, of these depths at most."""
    key = length, structures, arrays
    if key not in memo:
        found = {b"y"} if length == 1 else set()
        if length > 1:
            found |= {b"m" + t for t in all_valid_types(length - 1, structures, arrays, memo)}
        if length > 1 and arrays:
            found |= {b"a" + t for t in all_valid_types(length - 1, structures, arrays - 1, memo)}
        if length > 4 and arrays:
            for n in range(1, length - 3):
                for k in all_valid_types(n, structures, arrays - 1, memo):
                    for v in all_valid_types(length - 3 - n, structures, arrays - 1, memo):
                        found.add(b"a{" + k + v + b"}")
        if length > 2 and structures:
            found |= {b"(" + r + b")" for r in all_valid_rows(length - 2, structures - 1, arrays, memo)}
        memo[key] = found
    return memo[key]


def all_valid_rows(length, structures, arrays, memo):
    if length == 0:
        return {b""}
    key = "row", length, structures, arrays
    if key not in memo:
        memo[key] = {t + r for n in range(1, length + 1) for t in all_valid_types(n, structures, arrays, memo)
                     for r in all_valid_rows(length - n, structures, arrays, memo) if n == length or r}
    return memo[key]


def check():
    codes = [b"y", b"a", b"(", b")", b"{", b"}", b"m"]
    count = 0
    for limit in (1, 2):
        memo, valid_texts = {}, set()
        for n in range(0, 12):
            valid_texts |= all_valid_rows(n, limit, limit, memo)
        starts = {t[:n] for t in valid_texts for n in range(0, 6)}
        texts = [b""]
        for n in range(5):
            texts += [t + c for t in texts if len(t) == n for c in codes]
        for t in texts:
            assert valid(t, limit) == (t in valid_texts), t
            if t not in valid_texts:
                place = max(n for n in range(len(t) + 1) if t[:n] in starts)
                assert fault(t, limit)[1] == place, (t, place, fault(t, limit))
            count += 1
        print("limit %d: %d valid texts searched" % (limit, len(valid_texts)))
    for text, wrong in [(b"()", ("U", 1)), (b"a{", ("E", 2)), (b"a{s}", ("U", 3)), (b"a{svs}", ("U", 4)),
                        (b"a" * 33 + b"y", ("D", 32))]:
        assert fault(text) == wrong, text
    print("%d texts agree with the definition" % count)


if __name__ == "__main__":
    sys.setrecursionlimit(10000)
    if sys.argv[1:] == ["--check"]:
        check()
    else:
        sheet = Sheet()
        data = sys.stdin.buffer.read()
        lines = data.split(b"\n")
        if lines and lines[-1] == b"":
            lines.pop()
        for line in lines:
            print(sheet.file(line))
