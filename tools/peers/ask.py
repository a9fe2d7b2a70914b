#!/usr/bin/env python3
"""Asks libdbus, GLib and the crate about the drawn texts, and compares their answers with the model and the program.

usage: tools/peers/ask.py SRC OUT [--program PROGRAM] [--write] [--short]

SRC is the crate's directory src (see crate.sh), OUT a directory outside of the repository to build in. With --program,
PROGRAM (crates/whole_lines/out/whole_lines) is run on all texts, in parts that fit one sheet. With --write, sample.txt,
answers.txt and expected.txt are made anew in this directory. With --short, all texts of at most 5 bytes over `ysva(){}m` are
asked about instead, and no sample is made. Exit 1 if anything disagrees.
"""
import os
import subprocess
import sys

HERE = os.path.dirname(os.path.abspath(__file__))
sys.path.insert(0, HERE)
sys.dont_write_bytecode = True
import draw
import model

# How a line of `whole_lines` writes what it has no value for, and where it puts an empty form.
NO_ALIGNMENT = "-"
LINE = "ok {number} {length} {dbus} {gvariant} {fixed} {form}"


# --- On which texts the answers must agree.

def pairs_of(text):
    return [text[i:i + 2] for i in range(len(text) - 1)]


def basic_keys(text):
    """No brace is followed by the start of a type that is not basic."""
    return not any(p in (b"{a", b"{(", b"{v", b"{m") for p in pairs_of(text))


def for_libdbus(text):
    """At most 255 bytes, no `m`, basic keys, and: at most 32 `a`, or neither `(` nor `{`, or each `a` before a `{`.
    (libdbus counts arrays that follow one another directly, not all that stand in one another.)"""
    return (len(text) <= 255 and b"m" not in text and basic_keys(text)
            and (text.count(b"a") <= 32 or not (set(text) & set(b"({")) or text.count(b"a{") == text.count(b"a")))


def for_glib(text):
    """Not empty, no `r`, `*`, `?`; no `()`; each `{` right after an `a`; basic keys; at most 32 `a`, at most 32 `(`, and
    at most 100 of `a`, `(`, `{` and `m` together, since GLib has one limit of 128 for all containers."""
    return (text != b"" and not (set(text) & set(b"r*?")) and b"()" not in text
            and text.count(b"{") == text.count(b"a{") and basic_keys(text)
            and text.count(b"a") <= 32 and text.count(b"(") <= 32 and sum(text.count(c) for c in b"a({m") <= 100)


# --- Asking.

def build(src, out):
    os.makedirs(out, exist_ok=True)
    for name, package in (("dbus", "dbus-1"), ("glib", "glib-2.0")):
        flags = subprocess.run(["pkg-config", "--cflags", "--libs", package], check=True, capture_output=True, text=True)
        subprocess.run(["cc", "-O2", "-Wall", "-o", os.path.join(out, name), os.path.join(HERE, name + ".c"),
                        *flags.stdout.split()], check=True)
    subprocess.run([os.path.join(HERE, "crate.sh"), src, out], check=True)


def run(command, texts):
    data = b"".join(t + b"\n" for t in texts)
    r = subprocess.run(command, input=data, capture_output=True, check=True)
    lines = r.stdout.split(b"\n")
    assert lines.pop() == b"" and len(lines) == len(texts), command
    return lines


class Answers:
    """What each program says of each text."""

    def __init__(self, out, texts):
        tool = lambda name, *args: [os.path.join(out, name), *args]
        self.dbus = [a.decode() for a in run(tool("dbus"), texts)]
        self.glib = [a.decode().split(" ") for a in run(tool("glib"), texts)]
        self.parse = run(tool("crate", "parse"), texts)
        self.figures = [None] * len(texts)
        for i, a in enumerate(run(tool("crate", "figures"), texts)):
            if a != b"none":
                figures, form, bare = a.decode().split(" '")
                length, dbus, gvariant, fixed, maybe = figures.split(" ")
                self.figures[i] = {"length": length, "dbus": dbus, "gvariant": gvariant, "fixed": fixed, "maybe": maybe,
                                   "form": form.rstrip("'"), "bare": bare.rstrip("'")}
        forms = [(f["form"] if f else "").encode() for f in self.figures]
        self.layout = [a.decode().split(" ")[1:] for a in run(tool("glib"), forms)]


def wrong(what, text, *answers):
    print("DISAGREE %s: %r: %s" % (what, text, " / ".join(map(str, answers))))
    wrong.count += 1


wrong.count = 0


def compare(texts, answers):
    """All outside answers against the model."""
    counts = dict.fromkeys(("libdbus", "libdbus accepts", "glib", "glib accepts", "glib layout", "crate parser",
                            "crate accepts", "crate figures"), 0)
    for i, text in enumerate(texts):
        accepted = model.fault(text) is None
        says = "yes" if accepted else "no"
        trees = model.read_row(text) if accepted else None
        form = None
        if accepted:
            form = "" if not trees else model.printed(trees[0]) if len(trees) == 1 else model.printed(("(", *trees))
        if for_libdbus(text):
            counts["libdbus"] += 1
            counts["libdbus accepts"] += accepted
            if answers.dbus[i] != says:
                wrong("libdbus", text, answers.dbus[i], says)
        if for_glib(text):
            counts["glib"] += 1
            counts["glib accepts"] += accepted
            if answers.glib[i][0] != says or answers.glib[i][1] != ("yes" if accepted and len(trees) == 1 else "no"):
                wrong("glib", text, answers.glib[i], says)
        counts["crate parser"] += 1
        counts["crate accepts"] += accepted
        if answers.parse[i] != (b"yes '%s' yes" % form.encode() if accepted else b"no no"):
            wrong("crate parser", text, answers.parse[i], says)
        if accepted:
            counts["crate figures"] += 1
            f = answers.figures[i]
            if f["form"] != form or int(f["length"]) != len(form) or (f["maybe"] == "yes") != (b"m" in text):
                wrong("crate figures", text, f, form)
            bare = form[1:-1] if form.startswith("(") else form
            if f["bare"] != bare:
                wrong("crate bare form", text, f, bare)
            one, alignment, fixed = answers.layout[i]
            if one == "yes":
                counts["glib layout"] += 1
                if (alignment, fixed) != (f["gvariant"], f["fixed"]):
                    wrong("glib layout", text, (alignment, fixed), f)
    return counts


def compare_alignments(out):
    """The crate's D-Bus alignments against where libdbus writes a value of each kind; how many kinds."""
    r = subprocess.run([os.path.join(out, "dbus"), "align"], check=True, capture_output=True)
    kinds = [line.split(b" ") for line in r.stdout.splitlines()]
    for (text, place), line in zip(kinds, run([os.path.join(out, "crate"), "figures"], [k[0] for k in kinds])):
        if line.split(b" ")[1] != place:
            wrong("D-Bus alignment", text, place, line)
    return len(kinds)


def compare_equality(out, texts, answers):
    """The crate's equality, hashes and static constructors against the equality of printed forms. How many pairs; how many
    signatures are compared with their own printed form as a text, and how many of these are not equal to it."""
    forms = [(texts[i], f["form"].encode()) for i, f in enumerate(answers.figures) if f]
    pairs = [(t, u) for t, form in forms for u in dict.fromkeys((t, form))]
    pairs += [(forms[i][0], forms[i + n][0]) for n in (1, 2, 7) for i in range(len(forms) - n)]
    form_of = dict(forms)
    own = denied = 0
    for (t, u), line in zip(pairs, run([os.path.join(out, "crate"), "pairs"], [t + b"\t" + u for t, u in pairs])):
        equal, _, same_hash, static, text = line.decode().split(" ")
        if form_of[t] == u:
            own += 1
            denied += text != "yes"
        same = "yes" if form_of[t] == form_of.get(u, u) else "no"
        if equal != same or static != same or same == "yes" and same_hash != "yes":
            wrong("crate equality", (t, u), line, same)
    return len(pairs), own, denied


def short_texts():
    texts = [b""]
    for n in range(5):
        texts += [t + bytes([c]) for t in texts if len(t) == n for c in b"ysva(){}m"]
    return texts


def line_of(said, f):
    """The line of the program, from what the model says of a text and the figures that the crate gives it."""
    if not said.startswith("ok"):
        return said
    dbus = NO_ALIGNMENT if f["dbus"] == "-" else f["dbus"]
    return LINE.format(number=said[3:], length=f["length"], dbus=dbus, gvariant=f["gvariant"], fixed=f["fixed"][0],
                       form=f["form"])


def compare_program(program, texts, answers, most=20):
    """The program's lines against the model and the crate, in parts of at most 60,000 bytes for one sheet each; how many
    are refused with 8."""
    parts, part, size = [], [], 0
    figures = dict(zip(texts, answers.figures))
    for t in texts:
        if size + len(t) + 1 > 60000 or len(part) == most:
            parts.append(part)
            part, size = [], 0
        part.append(t)
        size += len(t) + 1
    parts.append(part)
    full = 0
    for part in parts:
        sheet = model.Sheet()
        for text, line in zip(part, run([program], part)):
            said = line.decode("latin-1")
            expected = line_of(sheet.file(text), figures[text])
            full += expected == "no 8"
            if said != expected:
                wrong("program", text, said, expected)
    return len(parts), full


# --- The sample.

def trial_of(sheet, text):
    """What the sheet would say, without filing the text."""
    trial = model.Sheet()
    trial.types, trial.tails = sheet.types, sheet.tails
    return trial.file(text)


def choose(texts):
    """About 600 of the texts, for one sheet: at most 56,000 bytes; the rows run out only in the last lines."""
    d = draw.Draws(0x53616D706C65)
    order = list(range(len(texts)))
    for i in range(len(order) - 1, 0, -1):
        j = d.below(i + 1)
        order[i], order[j] = order[j], order[i]
    sheet, sample, refused, size = model.Sheet(), [], 0, 0
    for i in order:
        text = texts[i]
        is_valid = model.fault(text) is None
        if not is_valid and refused > 300 or size + len(text) > 50000 or len(sample) == 570:
            continue
        if is_valid:
            trial = model.Sheet()
            trial.types, trial.tails = dict(sheet.types), set(sheet.tails)
            filed = trial.file(text).startswith("ok")
            new = len(trial.types) - len(sheet.types)
            if not filed or max(len(trial.types), len(trial.tails)) > 990 or new > 6 and d.below(8):
                continue
            sheet = trial
        else:
            refused += 1
        sample.append(text)
        size += len(text) + 1
        if is_valid and text and d.below(12) == 0:  # the same again: known, or the other form of several types
            trees = model.read_row(text)
            again = ("(" + "".join(map(model.printed, trees)) + ")").encode() if len(trees) > 1 else text
            sample.append(again)
            size += len(again) + 1
    # The rows run out, first of fields and then of types, each by one text that needs one row too many and one that
    # takes all that are left; what needs no new row is still filed, and a fault is still found first.
    known = [t for t in sample if model.fault(t) is None and t][-4:]
    for code in (lambda n: b"h" * n, lambda n: b"m" * n + b"h"):
        n = next(n for n in range(2, 2000) if trial_of(sheet, code(n)) == "no 8")
        more = [code(n), known.pop(), code(n - 1), code(n)]
        sheet = model.Sheet()
        sample += more
        for t in sample:
            sheet.file(t)
    sample += [b"(hqhqhq)", b"amhqa", b"mmhqhq)", b"a{hamh}", known.pop(), b"", known.pop(), b"mmmh"]
    return sample


def expected(sample, answers):
    sheet, lines, records = model.Sheet(), [], []
    for i, text in enumerate(sample):
        said = sheet.file(text)
        f = answers.figures[i]
        asked = [answers.dbus[i] if for_libdbus(text) else "-", answers.glib[i][0] if for_glib(text) else "-",
                 "yes" if answers.parse[i].startswith(b"yes") else "no"]
        # Acceptance is that of libdbus and GLib, where they can be asked, and of the crate's parser.
        assert len(set(asked) - {"-"}) == 1, text
        assert (asked[2] == "no") == said.startswith("no 2"), text
        layout = answers.layout[i][1:] if asked[2] == "yes" else ["-", "-"]
        records.append(" ".join(asked + layout))
        lines.append(line_of(said, f))
    return lines, records, sheet


def main():
    src, out = sys.argv[1:3]
    program = sys.argv[sys.argv.index("--program") + 1] if "--program" in sys.argv else None
    build(src, out)
    texts = short_texts() if "--short" in sys.argv else draw.texts()
    answers = Answers(out, texts)
    counts = compare(texts, answers)
    print("%d texts, %d different" % (len(texts), len(set(texts))))
    for name, n in counts.items():
        print("%s: %d" % (name, n))
    print("libdbus alignments: %d" % compare_alignments(out))
    print("crate equality: %d pairs; %d signatures compared with their own form as a text, %d not equal to it" %
          compare_equality(out, texts, answers))
    if program:
        most = 2000 if "--short" in sys.argv else 20
        print("program: %d sheets, %d texts refused with 8" % compare_program(program, texts, answers, most))
    if "--short" in sys.argv:
        print("%d disagreements" % wrong.count)
        sys.exit(wrong.count > 0)
    sample = choose(texts)
    lines, records, sheet = expected(sample, Answers(out, sample))
    size = sum(len(t) + 1 for t in sample)
    print("sample: %d lines, %d bytes, %d accepted, %d refused with 8; %d type rows, %d field rows" % (
        len(sample), size, sum(l.startswith("ok") for l in lines), lines.count("no 8"), len(sheet.types), len(sheet.tails)))
    for name, content in (("sample.txt", b"".join(t + b"\n" for t in sample)),
                          ("answers.txt", "".join(r + "\n" for r in records).encode()),
                          ("expected.txt", "".join(l + "\n" for l in lines).encode())):
        path = os.path.join(HERE, name)
        if "--write" in sys.argv:
            with open(path, "wb") as f:
                f.write(content)
        else:
            with open(path, "rb") as f:
                if f.read() != content:
                    wrong("file", name, "not what is made now")
    if program:
        for text, line, want in zip(sample, run([program], sample), lines):
            if line.decode("latin-1") != want:
                wrong("program on the sample", text, line, want)
    print("%d disagreements" % wrong.count)
    sys.exit(wrong.count > 0)


if __name__ == "__main__":
    sys.setrecursionlimit(10000)
    main()
