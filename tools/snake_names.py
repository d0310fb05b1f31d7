#!/usr/bin/env python3
"""Spells the repository's own definitions and lemmas in snake case, once, after the kit's port.py.

usage: python3 tools/snake_names.py      at the top of the repository

A name that specs/ or proofs/*.antt declares in camel case (firstFault) or with dashes (first-fault) becomes first_fault, in every .antt file, in the
clauses, ghost imports and comments of every .rt file, in must-fail edits, and in backticks in the papers. Types, modules, functions of src/, exported names
and strings keep their names. Names that would fall together are in MET: a lemma that would have its function's name gets _lem.
"""
import collections
import os
import re

TOKEN = re.compile(r"[^\s(){}\[\];,.\"|`]+")
DECLARED = re.compile(r"^\s*(?:(?:abbrev|unfoldable|pub|data|record)\s+)*([^\s(){};,.\[\]:]+(?: [^\s(){};,.\[\]:=→]+)*)\s*(?:\{[^}]*\}\s*|\([^)]*\)\s*)*:(?!=)(?:\s|$)")
STRING = re.compile(r"\"(?:[^\"\\]|\\.)*\"")
MET = {
    "on-accepted": "on_accepted_lem", "closed-figures": "closed_figures_lem", "closed-bytes": "closed_bytes_lem", "taken-by": "taken_by_lem",
    "all-empty": "all_empty_lem", "figures-of": "figures_of_lem", "keys-of": "keys_of_record", "shown-passes": "shown_passes_lem",
    "message-passes": "message_passes_lem", "message-stands": "message_stands_lem", "not-parted": "is_not_parted", "no-boundary": "no_such_boundary",
    "made-bytes": "made_bytes_lem", "joined-bytes": "joined_bytes_lem", "laid-out": "laid_out_lem", "of-places": "of_places_lem", "too-long": "too_long_value",
}
# the kit's script had brought these to snake case already, where a definition in camel case now falls together with them
MET_IN = {
    "crates/laws/proofs/Making.antt": {"laid_out": "laid_out_lem", "too_long": "too_long_value", "made_bytes": "made_bytes_lem"},
    "crates/laws/specs/Makable.antt": {"too_long": "too_long_value"},
    "crates/laws/proofs/MessageFaults.antt": {"of_places": "of_places_lem"},
    "crates/laws/proofs/FortyTwo.antt": {"of_places": "of_places_lem"},
    "crates/laws/proofs/Joining.antt": {"joined_bytes": "joined_bytes_lem"},
    "crates/laws/proofs/Saved.antt": {"joined_bytes": "joined_bytes_lem", "made_bytes": "made_bytes_lem"},
    "crates/join_files/proofs/Answers.antt": {"joined_bytes": "joined_bytes_lem"},
    "crates/make_record/proofs/Answers.antt": {"made_bytes": "made_bytes_lem"},
    "crates/run_loop/proofs/Loop.antt": {"on-next": "on_next_lem"},
}


def files(top, ends):
    for folder, dirs, names in os.walk(top):
        dirs[:] = sorted(d for d in dirs if d not in ("out", "data", "target", ".git"))
        for f in sorted(names):
            if f.endswith(ends):
                yield os.path.join(folder, f)


def snake(name):
    s = re.sub(r"(?<=[0-9A-Za-z])-(?=[0-9A-Za-z])", "_", name)
    s = re.sub(r"(?<=[a-z0-9])[A-Z]", lambda m: "_" + m.group(0).lower(), s)
    return re.sub(r"[A-Z]", lambda m: m.group(0).lower(), s)


def declared():
    own = collections.defaultdict(set)
    for p in files("crates", ".antt"):
        if p.endswith("Proof.antt"):
            continue
        for line in open(p, encoding="utf-8"):
            m = None if line.lstrip().startswith("--") else DECLARED.match(line)
            for n in m.group(1).split() if m else ():
                own[n].add(p)
    return own


def imported(text, crates):
    """Names that a file imports from the library."""
    names = set()
    for m in re.finditer(r"^\s*(?:pub |ghost )?use ([^\s{]+)\.\{([^}]*)\}", text, re.M):
        path = m.group(1).split(".")
        if path[0] != "Rattle" or path[1] not in crates:
            names |= set(re.split(r"[,\s]+", m.group(2)))
    return names


def renamed(text, names, walked):
    """walked: in a proof that walks the code, what follows a dot is a generated name as often as one of ours, and gets no _lem."""
    def one(m):
        t = m.group(0)
        if t not in names:
            return t
        after_dot = m.start() > 0 and text[m.start() - 1] == "."
        return snake(t) if walked and after_dot else names[t]

    return TOKEN.sub(one, text)


class Told(dict):
    """For the papers: also the names that the kit's script had brought to snake case."""

    def __init__(self, names, now):
        super().__init__(names)
        self.now = now

    def __contains__(self, t):
        return t in self.keys() or (t[0].islower() and snake(t) != t and MET.get(t, snake(t)) in self.now)

    def __missing__(self, t):
        return MET.get(t, snake(t))


def code(text, names):
    """A .rt file or an edit: all but strings."""
    parts, at = [], 0
    for m in STRING.finditer(text):
        parts += [renamed(text[at:m.start()], names, False), m.group(0)]
        at = m.end()
    return "".join(parts + [renamed(text[at:], names, False)])


def main():
    crates = set(os.listdir("crates"))
    own = declared()
    names = {n: MET.get(n, snake(n)) for n in own if n[0].islower() and snake(n) != n}
    now = set(own) | set(names.values()) | {s for met in MET_IN.values() for s in met.values()}
    told = Told(names, now)
    changed = 0
    for p in list(files("crates", (".antt", ".rt", ".edit"))):
        text = open(p, encoding="utf-8").read()
        here = {n: s for n, s in names.items() if n not in imported(text, crates)} | MET_IN.get(p, {})
        new = renamed(text, here, p.endswith("Proof.antt")) if p.endswith(".antt") else code(text, here)
        if new != text:
            open(p, "w", encoding="utf-8").write(new)
            changed += 1
    for p in ["README.md", "CONTRIBUTING.md", *files("docs", ".md"), *files("reference", ".md"), *files("tests", ""), *files("include", ".h")]:
        if not os.path.exists(p) or os.path.basename(p) == "PORT.md":
            continue
        try:
            text = open(p, encoding="utf-8").read()
        except UnicodeDecodeError:
            continue
        new = re.sub(r"`[^`\n]*`", lambda m: renamed(m.group(0), told, False), text)
        if new != text:
            open(p, "w", encoding="utf-8").write(new)
            changed += 1
    print(f"{len(names)} names, {changed} files")


if __name__ == "__main__":
    main()
