#!/usr/bin/env python3
# Brings the names of this repository's definitions, facts, fields and lemmas to one spelling: words in snake case, facts
# and types in upper camel case. Run once, at the top, after the toolchain's port.py; `--list` says what it would do.
import glob
import os
import re
import sys

LIST = '--list' in sys.argv

# a name, as antt reads it: anything but blanks and these
TOKEN = re.compile(r"[^\s(){}\[\],;.:λ⌜⌝]+")
DEF = re.compile(r"^(\s*)((?:(?:pub|abbrev|unfoldable|private)\s+)*)((?:data|record)\s+)?([^\s:(){}\[\],;=.]+)((?:\s*[({][^\n]*)?)\s*:(\s|$)(.*)")


def files(*patterns):
    return sorted(f for p in patterns for f in glob.glob(p, recursive=True))


def snake(name):
    s = re.sub(r'(?<=[a-z0-9])([A-Z])', lambda m: '_' + m.group(1).lower(), name)
    return s.replace('-', '_')


def upper(name):
    return ''.join(w[:1].upper() + w[1:] for w in name.split('-'))


# where a name spelled anew would fall together with another
SPECIAL = {
    'One-fault': 'ExactlyOneFault',
    'add-all-append': 'add_all_append',
    'addAll-append': 'add_all_append_tails',
    'add-tails': 'add_tails_is',
    'all-figures': 'all_figures_are',
    'array-figures': 'array_figures_are',
    'dict-figures': 'dict_figures_are',
    'maybe-figures': 'maybe_figures_are',
    'structure-figures': 'structure_figures_are',
    'node-figures': 'node_figures_are',
    'row-figures': 'row_figures_are',
    'text-figures': 'text_figures_are',
    'book-after': 'book_is_after',
    'figures-by': 'figures_by_numbers',
    'figures-in': 'figures_or',
    'if-known': 'if_known_is',
    'is-basic': 'is_code',
    'node-answer': 'node_answer_is',
    'node-fields': 'node_fields_are',
    'node-key': 'node_key_is',
    'node-text': 'node_text_is',
    'read-types': 'read_types_is',
    'same-node': 'same_node_is',
    'tail-key': 'tail_key_is',
    'tail-number': 'tail_number_is',
    'tails-at': 'tails_at_is',
    'tails-from': 'tails_from_is',
    'whole-text': 'whole_text_is',
    'fields_in': 'fields_in_are',
    'no_fields': 'no_fields_are',
    'node-by': 'node_by_is',
    'number-at': 'number_at_is',
    'parts-of': 'parts_of_are',
    'types-in': 'types_in_are',
    'getD2': 'get_or2',
    # names given by 'as'
    'structureOf': 'structure_of',
    'fromBytesOf': 'from_bytes_of',
    'dictOf': 'dict_of',
    'acceptedBy': 'accepted_by',
}


def main():
    antt = files('crates/*/specs/**/*.antt', 'crates/*/proofs/**/*.antt')
    defined = {}
    for f in antt:
        for line in open(f):
            m = DEF.match(line)
            if not m:
                continue
            name = m.group(4)
            if re.match(r'\s*goal\.', m.group(7)) or name.startswith(('invariant-', 'decreases-', '--')):
                continue
            defined.setdefault(name, set()).add(f)
    generated = set()
    for f in antt:
        if os.path.basename(f) in ('Answers.antt', 'Invariants.antt'):
            for line in open(f):
                m = re.match(r'^(?:abbrev )?pub (\S+) : goal\.', line)
                if m:
                    generated.add(m.group(1))
    tokens = {}
    for f in antt + files('crates/*/src/**/*.rt'):
        for t in TOKEN.findall(open(f).read()):
            tokens.setdefault(t, set()).add(f)
    std = set()
    for f in glob.glob('/opt/rattle/**/*.antt', recursive=True):
        try:
            for line in open(f):
                m = DEF.match(line)
                if m:
                    std.add(m.group(4))
        except UnicodeDecodeError:
            pass
    names = {}
    for n in defined:
        if n in generated:
            continue
        if n[0].isupper():
            if '-' in n:
                names[n] = upper(n)
        elif n[0].islower() and ('-' in n or re.search(r'[a-z0-9][A-Z]', n)):
            names[n] = snake(n)
    names.update({k: v for k, v in SPECIAL.items() if k in tokens})
    names = {k: v for k, v in names.items() if k != v}
    back = {}
    for n, m in names.items():
        back.setdefault(m, []).append(n)
    if LIST:
        for m, ns in sorted(back.items()):
            notes = []
            if len(ns) > 1:
                notes.append('together: ' + ' '.join(sorted(ns)))
            if m in tokens:
                notes.append('there: ' + ' '.join(sorted(tokens[m])[:6]))
            for n in ns:
                if n in std:
                    notes.append('std has ' + n)
            if notes:
                print(m, '<-', ' '.join(ns), '|', '; '.join(notes))
        print(len(names))
        return
    for f in antt + files('crates/*/src/**/*.rt'):
        old = open(f).read()
        new = TOKEN.sub(lambda t: names.get(t.group(0), t.group(0)), old)
        if new != old:
            open(f, 'w').write(new)


main()
