#!/usr/bin/env python3
"""Counts the places of docs/DESIGN-PASS.md in the crates of a folder: tools/design_places.py [FOLDER] [--list]."""
import collections
import glob
import os
import re
import sys

FOLDER = next((a for a in sys.argv[1:] if not a.startswith('-')), '.')
LIST = '--list' in sys.argv
WORDS = {'if', 'else', 'let', 'mut', 'return', 'match', 'while', 'for', 'in', 'true', 'false', 'as', 'usize', 'u64', 'u8'}


def sources():
    for path in sorted(glob.glob(os.path.join(FOLDER, 'crates/*/src/*.rt'))):
        yield os.path.relpath(path, os.path.join(FOLDER, 'crates')), open(path, encoding='utf-8').read()


def functions():
    """Each function with a body: its place, name, head (signature and clauses) and body."""
    form = re.compile(r'(?m)^( *)(?:pub )?(?:extern "C" )?fn (\w+)(.*?)\n?(?:(?<=\n)\1| )?\{\n(.*?)^\1\}', re.S)
    for path, text in sources():
        for m in form.finditer(text):
            yield path, m.group(2), m.group(3), m.group(4)


def shape(body):
    tokens = re.findall(r'[A-Za-z_]\w*|b?"[^"]*"|\d\w*|\S', re.sub(r'//[^\n]*', '', body))
    kinds = [t if t in WORDS or not re.match(r'\w|"', t) else 'N' if t[0].isdigit() else 'T' if '"' in t else 'V' for t in tokens]
    return ' '.join(kinds), len(tokens)


def lines(pattern):
    found = []
    for path, text in sources():
        for n, line in enumerate(text.split('\n'), 1):
            if re.search(pattern, line) and not re.match(r'\s*ghost use', line):
                found.append('%s:%d: %s' % (path, n, line.strip()))
    return found


def enums():
    """Enums of two or three variants, one of which has something and another has nothing or something else: the shape of Option or Result."""
    found = []
    for path, text in sources():
        for m in re.finditer(r'enum (\w+) \{\n(.*?)^\}', text, re.S | re.M):
            variants = [v.strip() for v in re.findall(r'(?m)^    ([A-Z]\w*(?:\([^)]*\))?),', m.group(2))]
            if 2 <= len(variants) <= 3 and any('(' in v for v in variants):
                found.append('%s: %s { %s }' % (path, m.group(1), ', '.join(variants)))
    return found


def twins():
    groups = collections.defaultdict(list)
    for path, name, _, body in functions():
        form, size = shape(body)
        if size >= 12:
            groups[form].append(path.replace('/src/lib.rt', '') + ' ' + name)
    return ['; '.join(g) for g in groups.values() if len(g) > 1]


def numbered():
    """Functions that bear a record type's number, by their first word."""
    found = collections.Counter()
    for path, name, _, _ in functions():
        m = re.fullmatch(r'([a-z_]+?)(10|20|30|31|40|41|49|50|88|89)', name)
        if m:
            found[m.group(1)] += 1
    return ['%s: %d' % f for f in sorted(found.items()) if f[1] > 2]


def parts(clause):
    out, depth, word = [], 0, ''
    for c in clause:
        depth += c in '({['
        depth -= c in ')}]'
        if c == '×' and depth == 0:
            out.append(word)
            word = ''
        else:
            word += c
    out.append(word)
    return [re.sub(r'^\((.*)\)$', r'\1', w.strip()) for w in out]


def facts():
    seen = collections.Counter()
    for _, _, head, _ in functions():
        for clause in re.findall(r'requires (?:\w+ )?\{ (.*) \}', head):
            seen.update(set(parts(clause)))
    return ['%d: %s' % (n, f) for f, n in seen.most_common() if n >= 3]


def travelling():
    seen = collections.Counter()
    for _, _, head, _ in functions():
        names = re.findall(r'(\w+): ', head.split(')\n')[0].split(') ->')[0])
        seen.update({tuple(names[i:i + 3]) for i in range(len(names) - 2)})
    return ['%d: %s' % (n, ', '.join(t)) for t, n in seen.most_common() if n >= 4]


def numbers():
    found = lines(r'Fault\([0-9]+|number: [0-9]+,|Refusal::(whole|at)\([0-9]+|\b(refuse|wrong|faulty|unspecified|not_made)\([0-9]+|demand\(.*, [0-9]+, [0-9a-z+ ]+\)[;?]*$|number == [0-9]+')
    for path, name, _, body in functions():
        if name in ('say_meaning', 'say_of_files', 'meaning', 'say_form', 'say_right', 'say_whole', 'remedy_for'):
            found += ['%s %s: %s' % (path, name, l.strip()) for l in body.split('\n') if re.match(r'\s*[0-9]+ =>', l)]
    return found


def copies():
    found = []
    for path in sorted(glob.glob(os.path.join(FOLDER, 'crates/*/proofs/**/*.antt'), recursive=True)):
        for line in open(path, encoding='utf-8'):
            m = re.match(r'(?:pub |abbrev )*([a-z_]+-[0-9]) :', line)
            if m and 'goal.' not in line:
                found.append(os.path.relpath(path, os.path.join(FOLDER, 'crates')) + ' ' + m.group(1))
    return found


COUNTS = [
    ('1', 'enums of the shape of Option or Result', enums),
    ('1', 'a finding or a flag beside a value', lambda: lines(r'^\s*(pub )?(finding: Finding|found: bool),')),
    ('1', 'a refusal\'s number as a literal', numbers),
    ('1', '0 or 100 for none', lambda: lines(r'//.*(\b(0|100) (if|where|stands for)|, or 100)')),
    ('2', 'groups of functions of one shape', twins),
    ('2', 'functions for each record type', numbered),
    ('3', 'loops that count by hand', lambda: lines(r'^\s*(while|loop)\b')),
    ('4', 'equality, copies and conversions by hand', lambda: lines(r'fn (equals|copied|wide|counted|numbered|is_remittance|is_draft|messages_behind|code_for|service_for|number_of|kind_for|as_in_01|field_of|is_given|is_number)\b')),
    ('4', 'functions that print', lambda: lines(r'fn (print|say|tell|underline|show)\w*\b')),
    ('5', 'facts in the requires of three functions or more', facts),
    ('5', 'three parameters that stand together in four functions or more', travelling),
    ('6', 'a length beside a slice, or a length for what is in a buffer', lambda: lines(r'\b(used|count|others): usize|fn .*buffer: &mut \[u8\]\) -> usize')),
    ('7', 'enums that only choose what to run', lambda: lines(r'enum (Detail|Class|Side)\b')),
    ('7', 'a match from a record type to a function for it', lambda: lines(r'fn (step_for|made_kind|grown|say_own_field)\b')),
    ('8', 'files of answers and invariants', lambda: glob.glob(os.path.join(FOLDER, 'crates/*/proofs/**/Answers.antt'), recursive=True) + glob.glob(os.path.join(FOLDER, 'crates/*/proofs/**/Invariants.antt'), recursive=True)),
    ('8', 'copies of a lemma within answers', copies),
]

for point, what, count in COUNTS:
    found = count()
    print('%s  %4d  %s' % (point, len(found), what))
    if LIST:
        for f in found:
            print('          ' + f)
