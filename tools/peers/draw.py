#!/usr/bin/env python3
"""Draws texts, always the same ones: valid, deep, damaged and random; one per line, with no byte 0, 9, 10 or 39 in them.

usage: tools/peers/draw.py > TEXTS
"""
import sys

BASIC = "ybnqiuxtdsgovh"
KEYS = "ybnqiuxtdsgoh"
CODES = b"ybnqiuxtdsgovh" + b"a(){}m" * 2
OTHER = b" r*?ezZ0&[]<>-\\\x01\x7f\x80\xc3\xa9\xff"


class Draws:
    """Marsaglia's xorshift of 64 bits, so that the texts hang on no library's generator."""

    def __init__(self, seed):
        self.state = seed

    def below(self, n):
        x = self.state
        x ^= (x << 13) & 0xFFFFFFFFFFFFFFFF
        x ^= x >> 7
        x ^= (x << 17) & 0xFFFFFFFFFFFFFFFF
        self.state = x
        return (x >> 11) % n

    def one(self, items):
        return items[self.below(len(items))]


def a_type(d, depth, flavour):
    """A complete type, of at most this many containers in one another. Flavours: 'dbus' has no `m` and basic keys,
    'gvariant' has `m` and basic keys, 'all' has any keys."""
    k = d.below(10)
    if depth == 0 or k < 4:
        return d.one(BASIC)
    if k < 6:
        return "a" + a_type(d, depth - 1, flavour)
    if k == 6:
        key = a_type(d, depth - 1, flavour) if flavour == "all" and d.below(2) else d.one(KEYS)
        return "a{" + key + a_type(d, depth - 1, flavour) + "}"
    if k == 7 and flavour != "dbus":
        return "m" + a_type(d, depth - 1, flavour)
    return "(" + "".join(a_type(d, depth - 1, flavour) for _ in range(1 + d.below(4))) + ")"


def a_row(d, depth, flavour):
    count = 1 if d.below(3) else 2 + d.below(4)
    return "".join(a_type(d, depth, flavour) for _ in range(count))


def a_deep_type(d, structures, arrays, maybes):
    """One chain of containers with exactly so many of each, in a drawn order, around basic types."""
    order = ["("] * structures + ["a"] * arrays + ["m"] * maybes
    for i in range(len(order) - 1, 0, -1):
        j = d.below(i + 1)
        order[i], order[j] = order[j], order[i]
    text = d.one(BASIC)
    for kind in order:
        if kind == "(":
            k = d.below(4)
            text = "(" + (d.one(BASIC) if k == 1 else "") + text + (d.one(BASIC) if k == 2 else "") + ")"
        elif kind == "m":
            text = "m" + text
        else:
            k = d.below(4)
            text = "a{" + d.one(KEYS) + text + "}" if k == 0 else "a{" + text + d.one(BASIC) + "}" if k == 1 else "a" + text
    return text


def damaged(d, text):
    """The text with one byte deleted, inserted or replaced, cut short, or with two neighbours swapped."""
    t = bytearray(text)
    k, i = d.below(6), d.below(len(text) + 1)
    new = d.one(OTHER) if d.below(8) == 0 else d.one(CODES)
    if k == 0 or i == len(t):
        t.insert(i, new)
    elif k == 1:
        del t[i]
    elif k in (2, 3):
        t[i] = new
    elif k == 4:
        del t[i:]
    elif i + 1 < len(t):
        t[i], t[i + 1] = t[i + 1], t[i]
    return bytes(t)


def several(count, make):
    """So many different texts, each drawn by `make` from its place in the list."""
    found = {}
    while len(found) < count:
        text = make(len(found))
        if len(text) <= 300:
            found[text] = None
    return list(found)


def texts():
    d = Draws(0x5369676E61747572)
    valid = [b""] + [c.encode() for c in BASIC]
    valid += several(1100, lambda n: a_row(d, 1 + d.below(7), ("dbus", "gvariant", "all")[n % 3]).encode())
    for n in (254, 255, 256, 300):
        valid.append(b"y" * n)
        valid.append(b"at" * (n // 2) + b"x" * (n % 2))
    deep = []
    for n in (31, 32, 33, 34):
        deep += [b"a" * n + b"y", b"(" * n + b"s" + b")" * n, b"a{s" * n + b"v" + b"}" * n, b"a{" * n + b"y" + b"y}" * n,
                 b"a(" * n + b"x" + b")" * n, b"m" * n + b"y", b"am" * n + b"y", b"m(" * n + b"y" + b")" * n,
                 b"y" + b"(" * n + b"s" + b")" * n, b"a" * n + b"{sv}", b"a" * n, b"(" * n, b"(y" * n, b"a{s" * n]
    depths = (0, 3, 16, 31, 32, 32, 33)
    deep += several(160, lambda n: a_deep_type(d, d.one(depths), d.one(depths), d.one((0, 0, 1, 5, 40))).encode())
    wrong = several(1300, lambda n: damaged(d, d.one(deep if n % 6 == 0 else valid)))
    plain = several(420, lambda n: bytes(d.one((CODES + OTHER, b"yysai(){}m", CODES)[n % 3]) for _ in range(d.below(14))))
    return list(dict.fromkeys(valid + deep + wrong + plain))


if __name__ == "__main__":
    sys.stdout.buffer.write(b"".join(t + b"\n" for t in texts()))
