#!/usr/bin/env python3
"""Turns old-form proof files (proofs/F/Proof.antt) into Invariants.antt and Answers.antt.

usage: python3 tools/answers.py [--names FOLDER] CRATE..        from the top of the repository

For each crate it reads the old and new names of goals from FOLDER/CRATE/names.json (FOLDER is target/names where none is given); where that file is
missing it lets 'rt check --generated .. --old-names' write it, for which the crates below have to be proved.
It prints 'left: FILE: NAME: why' for what it could not turn.
"""
import json
import os
import re
import subprocess
import sys

ID = r"[^\s(){}\[\].,;:λ←→↦×≡≢∙∷&|+*<>≤⊕⊎¬\"]+"
norm = lambda s: s.replace("-", "_").replace("·", "_")
GENERATED = re.compile(r"^use \S*\.(Statement|Tie|Reads|Lts|Kinds|Met|Code)\b")
SIG = re.compile(r"^((?:abbrev |pub |unfoldable )*)([^\s:(){}]+) :(?=\s)")
PATH = re.compile(r"(?<![\w.◌'₀-₉_-])([A-Za-zμκα-ω_][\w'₀-₉-]*)((?:\.[\w'₀-₉-]+)*)(?![\w◌'₀-₉-])")
TRACE = []


def read(p):
    with open(p, encoding="utf-8") as f:
        return f.read()


def write(p, t):
    with open(p, "w", encoding="utf-8") as f:
        f.write(t)


class Left(Exception):
    pass


class Names:
    def __init__(self, d):
        self.d = d
        self.places = d["places"]
        self.new_place = d["places_by_name"]
        self.at = {}
        for i, p in enumerate(self.places):
            self.at.setdefault(norm(p[0]), i)
        self.arms = d["arms"]
        self.goals = {}
        asked = d["asked_at"]
        self.needs = d["needs"]
        for i, (old, new) in enumerate(self.needs):
            place = asked[i] if i < len(asked) else [None, None]
            self.goals.setdefault(norm(old), (new, place))
        self.goals_new = {new: self.goals[norm(old)] for old, new in self.needs}

    def parent(self, i):
        p = self.places[i][1]
        return None if p is None else self.at[norm(p)]

    def line(self, i):
        """The place and those above it."""
        out = []
        while i is not None:
            out.append(i)
            i = self.parent(i)
        return out

    def goal(self, old, declared, position):
        """The new name of a need, and the place where it is asked."""
        tries = [old]
        m = re.match(r"(?:overflow|nonzero|offset|slice)[-_](.*)$", old)
        if m:
            tries.append(m[1])
            tries.append(re.sub(r"^bounds", "part", m[1]))
        tries.append(declared)
        for t in tries:
            if norm(t) in self.goals:
                return self.goals[norm(t)]
        for t in tries:
            for new in self.goals_new:
                if norm(new) == norm(t):
                    return self.goals_new[new]
        if position is not None and position < len(self.needs):
            o = self.needs[position][0]
            return self.goals[norm(o)]
        return None


def blocks(text):
    """The head (comments and use lines), and the declarations: (comment, flags, name, lines)."""
    lines = text.rstrip("\n").split("\n")
    head, uses, decls, pending, i = [], [], [], [], 0
    seen_use = False
    while i < len(lines):
        l = lines[i]
        if l.startswith(("use ", "pub use ")):
            u = l
            while "{" in u and "}" not in u:
                i += 1
                u += " " + lines[i].strip()
            uses.append(u)
            head += pending
            pending = []
            seen_use = True
        elif l.startswith("--") or not l.strip():
            if not l.strip() and not pending:
                i += 1
                continue
            pending.append(l)
        else:
            m = SIG.match(l)
            if m is None and re.match(r"^((?:abbrev |pub |unfoldable )*)([^\s:(){}]+) *\{?.* :$", l):
                m = re.match(r"^((?:abbrev |pub |unfoldable )*)([^\s:(){}]+)", l)
            if m is None and re.match(r"(pub |abbrev |unfoldable )*(module|record|data|infix[lr]?|mutual)(?=\s|$)", l):
                decls.append([pending, "raw", f"{l} #{i}", [l]])
                pending = []
            elif m and not (decls and m[2] == decls[-1][2] and "=" in l):
                decls.append([pending, m[1], m[2], [l]])
                pending = []
            else:
                if not decls:
                    raise Left("the file's form")
                decls[-1][3] += pending + [l]
                pending = []
        i += 1
    while head and not head[-1].strip():
        head.pop()
    return head, uses, decls


def split_decl(lines, name):
    """The signature's type, the unfolding lines, and the clauses [(args, body)]."""
    sig, unf, clauses, i = [lines[0].split(" :", 1)[1]], [], [], 1
    is_clause = lambda l: re.match(rf"^{re.escape(name)}(?=[\s=])", l) is not None
    while i < len(lines) and not is_clause(lines[i]) and not lines[i].startswith("unfolding "):
        sig.append(lines[i])
        i += 1
    while i < len(lines) and lines[i].startswith("unfolding "):
        unf.append(lines[i])
        i += 1
        while i < len(lines) and lines[i].startswith(" "):
            unf[-1] += " " + lines[i].strip()
            i += 1
    while i < len(lines):
        if is_clause(lines[i]):
            clauses.append(lines[i])
        elif clauses:
            clauses[-1] += "\n" + lines[i]
        else:
            raise Left("the form of a declaration")
        i += 1
    out = []
    for c in clauses:
        m = re.match(rf"^{re.escape(name)}(.*?)(?<!\S)=(?!\S)(.*)$", c, re.S)
        if not m:
            raise Left("the form of a clause")
        out.append((m[1].strip(), m[2]))
    return "\n".join(sig).strip(), unf, out


class Helper:
    """A lemma of the file's own over the record of a place."""

    def __init__(self, names, name, flags, lines, var, old_place):
        self.names, self.name, self.flags, self.lines, self.var = names, name, flags, lines, var
        self.place = names.at.get(norm(old_place))
        self.old_place = old_place
        self.copies, self.inline = {self.place: name}, None

    def copy_at(self, place):
        if place not in self.copies:
            self.copies[place] = f"{self.name}-{len(self.copies) + 1}"
        return self.copies[place]

    def path(self, helpers):
        """The path below the record, where the lemma only names one."""
        if self.inline is None:
            self.inline = ""
            try:
                sig, unf, clauses = split_decl(self.lines, self.name)
                if self.flags == "abbrev " and not unf and len(clauses) == 1 and re.fullmatch(r"[\w'-]+", clauses[0][0]):
                    v = clauses[0][0]
                    body = Turn(self.names, helpers, None, self.place, v).body(clauses[0][1]).strip()
                    m = re.fullmatch(re.escape(v) + r"((?:\.[\w'-]+)+)", body)
                    self.inline = m[1] if m else ""
            except Left:
                pass
        return self.inline

    def text(self, place, helpers, imports):
        """The text at the place, and the copies of other helpers that it wants."""
        name = self.copy_at(place)
        sig, unf, clauses = split_decl(self.lines, self.name)
        imports.add(self.names.new_place[place])
        sig = turn_place_type(sig, self.names, place)
        wants, parts = [], []

        def turned(s, v):
            turn = Turn(self.names, helpers, None, place, v)
            turn.env[v] = self.place
            s = turn.body(s)
            wants.extend(turn.wants)
            return s

        sig = turned(sig, self.var)
        for args, body in clauses:
            parts.append(f"{name} {args} =" + turned(body, args.split()[0] if args else self.var))
        return f"{self.flags}{name} : {sig}\n" + "".join(u + "\n" for u in unf) + "\n".join(parts), wants


PLACE = r"(?:tie|lts)\.((?:After|Else|Then|At|In|Start)[^\s)(]*)"


def turn_place_type(s, n, at):
    """Turns a type that names a place: it names the place 'at' now."""
    new = n.new_place[at]
    s = re.sub(PLACE + r"(?:\s+\((?:[^()]|\([^()]*\))*\)|\s+[\w-]+-reads\.[\w-]+)?\s+[\w-]+\.Pre\s+[\w-]+\.Post(?:\s+(?:invariant|decreases)[\w-]*)*", new, s)
    return re.sub(PLACE + r"(?:\s+(?:invariant|decreases)[\w-]*)*", new, s)


class Turn:
    """Turns the paths of one body. env: a variable's place and the variable that stands for it today."""

    def __init__(self, names, helpers, goal=None, root_place=None, root="c"):
        self.n, self.helpers, self.goal, self.place, self.root = names, helpers, goal, root_place, root
        self.env = {root: root_place}
        self.wants, self.acc, self.last = [], "", None

    def chain(self, place):
        return self.n.line(self.place) if self.place is not None else list(range(len(self.n.places)))

    def step(self, place, word):
        """The place, at or above 'place', whose step has the old name."""
        line = self.n.line(place) if place is not None else list(range(len(self.n.places)))
        found = [i for i in line if norm(self.n.places[i][2][0]) == norm(word)]
        if found:
            return found[0]
        found = [i for i in line if norm(self.n.places[i][2][1]) == norm(word)]
        if found:
            return found[0]
        whole = self.n.line(self.place) if self.place is not None else []
        found = [i for i in whole if norm(self.n.places[i][2][0]) == norm(word)]
        if len({self.n.places[i][2][1] for i in found}) == 1:
            return found[0]
        # port.py took some steps for words of specs/: 'later_of' is 'Later-of', 'is_word' is 'is_IsWord', 'value_of' is 'value_of_lem'.
        tame = lambda s: re.sub(r"_lem(?=\d*$)|_", "", re.sub(r"\bis_is", "is", norm(s).lower()))
        found = [i for i in line if tame(self.n.places[i][2][0]) == tame(word)]
        if found:
            return found[0]
        return None

    def fields(self, at, fs, strict=True):
        """The new path after the root, for the step found at place 'at' and the fields after it."""
        old, new = self.n.places[at][2]
        line = self.chain(at)
        best = None
        for i in line:
            arm = self.n.arms[i]
            if not arm:
                continue
            for field, step, path in arm[2]:
                if norm(step) != norm(old):
                    continue
                if step == "match" and self.n.places[at][2][1] != arm[0]:
                    continue
                if [norm(x) for x in path] == [norm(x) for x in fs[: len(path)]]:
                    if best is None or len(path) > len(best[2]):
                        best = (arm[0], field, path)
        if best:
            return [best[0], best[1]] + fs[len(best[2]):]
        callee = self.n.d["params"].get(self.n.places[at][3] or "")
        if callee and len(fs) > 1 and fs[0] in ("auto", "new") and fs[1] in ("0", "1"):
            k = 1
            while k < len(fs) and fs[k] == "1":
                k += 1
            if k < len(fs) and fs[k] == "0" and k - 1 < len(callee):
                return [new, fs[0], callee[k - 1]] + fs[k + 1:]
        for was, now in self.n.places[at][4]:
            if fs and fs[0] == was:
                return [new, now] + fs[1:]
        return [new] + fs

    def path(self, var, segs):
        """Returns ('place', i) or ('text', s)."""
        at = self.env[var]
        if isinstance(at, tuple) and at[0] == "rec":
            if not segs and not at[2]:
                return "step", at[1]
            return "text", ".".join([self.root] + self.fields(at[1], at[2] + segs))
        k = 0
        while k < len(segs) and segs[k] == "before":
            if at is not None:
                up = self.n.parent(at)
                at = at if up is None else up
            k += 1
        if k == len(segs):
            return "place", at
        word, rest = segs[k], segs[k + 1:]
        if word in ("args", "requires", "lifetimes", "ranges", "well-formed", "type-inv", "type_inv", "fn"):
            return "text", ".".join([self.root, word.replace("-", "_"), *rest])
        found = self.step(at, word)
        if found is None:
            raise Left("no step " + word)
        if not rest:
            return "step", found
        self.last = found, rest
        return "text", ".".join([self.root] + self.fields(found, rest))

    def is_parted(self, at, fs):
        """Whether an arm names a part of what the path gives, and so not the whole."""
        old = norm(self.n.places[at][2][0])
        each = [(s, p) for i in self.chain(at) if self.n.arms[i] for _, s, p in self.n.arms[i][2]]
        return any(norm(s) == old and len(p) > len(fs) and p[: len(fs)] == fs for s, p in each)

    def whole(self, at, before):
        """What stands for the record of a place, after the text 'before'; None where a copy of a lemma takes the record at hand."""
        m = re.search(r"(?<![\w.'-])([A-Za-z][\w'-]*)(\s+\(?)$", self.acc + before)
        helper = self.helpers.get(m[1]) if m else None
        if helper and helper.place is not None and self.place is not None and helper.place in self.n.line(self.place):
            at = helper.place  # the lemma says which place it wants: the steps between may have changed since
        if helper and m[2].strip() == "" and helper.path(self.helpers):
            joined = self.acc + before
            self.acc = joined[: m.start(1)] + self.root + helper.path(self.helpers)
            return ""
        if at == self.place or at is None:
            return self.root
        name = self.n.new_place[at]
        # a place of Rattle's own is no field of 'goal.at.X c'
        if self.goal and not re.search(r"-1(-unread)?$|-unread$", name):
            return f"(goal.at.{self.goal} {self.root}).{name}"
        if helper:
            copy = helper.copy_at(self.place)
            self.wants.append((m[1], self.place))
            joined = self.acc + before
            self.acc = joined[: m.start(1)] + copy + m[2]
            return None
        raise Left("the record of a place is passed on")

    def body(self, text):
        self.acc, pos = "", 0
        for m in iter(lambda: PATH.search(text, pos), None):
            start, var, segs = m.start(), m[1], m[2].split(".")[1:]
            line_start = text.rfind("\n", 0, start) + 1
            if "--" in re.sub(r"\"[^\"]*\"", "", text[line_start:start]) and re.search(r"(^|\s)--", text[line_start:start]):
                self.acc += text[pos:m.end()]
                pos = m.end()
                continue
            if var not in self.env:
                self.acc += text[pos:m.end()]
                pos = m.end()
                # a let that binds a name
                if var == "let":
                    b = re.compile(r"let ([\w'₀-₉-]+) = ([A-Za-z][\w'₀-₉-]*(?:\.[\w'₀-₉-]+)*) in(?=\s|$)\s*").match(text, start)
                    if b:
                        v, p = b[1], b[2].split(".")
                        if p[0] in self.env:
                            self.last = None
                            kind, what = self.path(p[0], p[1:])
                            if kind == "place":
                                self.env[v] = what
                                self.acc = self.acc[:-3]
                                pos = b.end()
                                continue
                            if kind == "step" or (self.last and self.is_parted(*self.last)):
                                self.env[v] = ("rec", what, []) if kind == "step" else ("rec", *self.last)
                                self.acc = self.acc[:-3]
                                pos = b.end()
                                continue
                            self.acc = self.acc[:-3] + f"let {v} = {what} in"
                            self.env.pop(v, None)
                            gap = re.compile(r"\s*").search(text[b.start():b.end()][::-1])
                            pos = b.end() - gap.end()
                            continue
                    b = re.compile(r"let ([\w'₀-₉-]+)\s").match(text, start)
                    if b and b[1] in self.env and b[1] != self.root:
                        self.env.pop(b[1])
                continue
            if var == self.root and not segs and re.match(r"\s+:", text[m.end():]):
                self.acc += text[pos:m.end()]
                pos = m.end()
                continue
            kind, what = self.path(var, segs)
            before = text[pos:start]
            if kind == "place":
                what = self.whole(what, before)
                if what is None or what == "":
                    self.acc += self.root if what is None else ""
                    pos = m.end()
                    continue
            elif kind == "step":
                what = self.root + "." + self.n.places[what][2][1]
            self.acc += before + what
            pos = m.end()
        return mend(self.acc + text[pos:])


ATOM = r"(?:[^\s()]+|\((?:[^()]|\([^()]*\))*\))"


def mend(text):
    """What the test of a '!x' says: '.true' is 'x ≡ false' today, and '.false' 'x ≡ true'."""
    return re.sub(rf"\bnot-(?:true|false)\s+{ATOM}\s+([A-Za-z][\w'.-]*?\.(?:true|false))(?:-raw)?(?![\w-])", r"\1", text)


def replace_vars(text, to):
    """Replaces variables that stand alone or at the head of a path."""
    def one(m):
        return to.get(m[1], m[1]) + m[2] if m[1] in to else m[0]
    out = []
    for line in text.split("\n"):
        code, sep, comment = line.partition(" --") if not line.startswith("--") else ("", "", line)
        if line.startswith("--"):
            out.append(line)
            continue
        out.append(PATH.sub(one, code) + sep + comment)
    return "\n".join(out)


def find_module(all_names, crate, folder):
    want = norm(folder.replace("/", "."))
    for k in all_names:
        m = re.match(r"Rattle-([^-]+)-proofs\.(.*)\.Lts$", k)
        if m and m[1] == crate and norm(m[2]) == want:
            return k, m[2]
    return None, None


def old_text(lines):
    return "\n".join("-- old: " + l if l.strip() else "--" for l in lines)


def leftover(text, aliases):
    """A word of the old generated modules that is still there."""
    for line in text.split("\n"):
        code = re.sub(r"(^|\s)--.*", "", line)
        m = re.search(r"(?<![\w.-])(tie|lts|reads|[\w-]+-reads)\.[\w-]+", code)
        if m and (m[1] in aliases or m[1] in ("tie", "lts", "reads")):
            return m[0]
        if re.search(r"\.before\b", code):
            return ".before"
        if re.search(r"(?<![\w])κs?(?![\w])", code):
            return "κs"
    return None


def needed(uses_, t):
    """Drops what is plainly not named, where the import has a list of names."""
    out = []
    for u in uses_:
        m = re.match(r"^(use \S+\.)\{(.*)\}$", u)
        if not m:
            out.append(u)
            continue
        each = [x.strip() for x in re.split(r",\s*", m[2]) if x.strip()]
        stays = []
        for x in each:
            w = x.split(" as ")[-1].strip()
            parts_ = [q for q in re.split(r"◌", w) if q]
            if all(q in t for q in parts_):
                stays.append(x)
        if stays:
            out.append(m[1] + "{" + ", ".join(stays) + "}")
    return out



def turn_file(crate, root, folder, all_names):
    path = f"{root}/{folder}/Proof.antt"
    text = read(path)
    said, counts = [], {"answers": 0, "rules": 0, "invariants": 0, "helpers": 0, "left": 0}
    key, dotted = find_module(all_names, crate, folder)
    say = lambda name, why: (said.append(f"left: {path}: {name}: {why}"), counts.__setitem__("left", counts["left"] + 1))
    head, uses, decls = blocks(text)
    aliases = {m[1] for u in uses if GENERATED.match(u) for m in [re.search(r" as (\S+)", u)] if m}
    kept = [u for u in uses if not GENERATED.match(u) and not re.match(r"^use Rattle\.\S+\.proofs\.\+", u)]
    is_trivial = all(re.search(r"=\s*search rules\s*$", "\n".join(d[3])) for d in decls if "tie.Need" in "\n".join(d[3]))
    if folder.startswith("+"):
        measures = re.findall(r"(?m)^μ-(\S+) \S+ (\w+) = (.*)$", text)
        source = "".join(read(os.path.join(at, f)) for at, _, fs in os.walk(f"crates/{crate}/src") for f in fs if f.endswith(".rt"))
        out = []
        for name, var, body in measures:
            m = re.search(rf"\bfn {norm(name)}\((.*?)\)", source, re.S)
            ps = [x.split(":")[0].strip() for x in m[1].split(",")] if m else []
            body = re.sub(rf"\b{var}\.(1\.)*0\b", lambda g: "l." + ps[g[0].count(".1")], body)
            out.append(f"abbrev pub decreases-{norm(name)} : goal.decreases-{norm(name)}\ndecreases-{norm(name)} l = {body}")
        os.remove(path)
        if not out:
            say("*", "a proof of a cycle: write its measure by hand")
        elif not is_trivial and re.search(r"(?m)^\S.* = (?!search rules)(?!.*\bdecreases)", text) and "close μ" not in text:
            say("*", "a proof of a cycle: only its measure was turned")
        if out:
            us = needed(kept, "\n".join(out))
            write(f"{root}/{folder}/Invariants.antt", "\n".join([h for h in head if h.strip()] + us + [f"use Rattle.{crate}.proofs.{norm(folder)}.Given as goal"]) + "\n\n" + "\n\n".join(out) + "\n")
            counts["invariants"] += len(out)
        return said, counts
    if key is None:
        needs = [d for d in decls if "tie.Need" in d[3][0]]
        if needs and is_trivial and len(needs) == len(decls) - 1:
            os.remove(path)
        else:
            say("*", "no names for this function in names.json")
        return said, counts
    n = Names(all_names[key])
    order = [d[2] for d in decls if re.search(r"tie\.Need-", "\n".join(d[3]))]
    by_position = len(order) == len(n.needs)
    # What is what.
    inv, ans, helpers, helper_places = [], [], [], {}
    loops = {norm(l[0][0]): (l[0][1], l[1], c) for l, c in zip(n.d["loops"], n.d["changed"])}
    new_names, inner = {}, {}
    items = []
    for comment, flags, name, lines in decls:
        whole = "\n".join(lines)
        t = lines[0].split(" :", 1)[1].strip() if " :" in lines[0] else ""
        m = re.match(r"tie\.(invariant|decreases)-(\S+)", t)
        if m:
            loop = loops.get(norm(m[2]))
            if loop is None:
                loop = next((v for v in loops.values() if norm(v[0]) == norm(m[2])), None)
            items.append(("inv", comment, flags, name, lines, m[1], loop))
            if loop:
                new_names[name] = f"{m[1]}-{loop[0]}"
            continue
        m = re.match(r"tie\.Need-(\S+)", t)
        if m:
            k = order.index(name)
            g = n.goal(m[1], name, k if by_position else None)
            items.append(("need", comment, flags, name, lines, m[1], g))
            if g:
                new_names[name] = g[0]
            continue
        if "tie.close" in whole or re.search(r"(?m)statement M\b", whole):
            continue
        if flags == "raw":
            inner[name] = re.findall(r"(?m)^\s+(?:abbrev |pub |unfoldable )*([^\s:(){}]+) :", whole) + re.findall(r"(?m)^(?:pub )?(?:record|data) (\S+)", whole)
            items.append(("help", comment, "", name, lines, {}, None))
            continue
        ps = {}
        for m in re.finditer(r"\(([^\s:()]+(?: [^\s:()]+)*) : (?:tie|lts)\.((?:After|Else|Then|At|In|Case|Arm|Start|Join)[^\s)]*)", whole):
            for v in m[1].split():
                ps[v] = m[2]
        m = re.search(r":\s*(?:tie|lts)\.((?:After|Else|Then|At|In|Start)[^\s)]*)", whole)
        if m and not ps:
            # an argument that the type does not name
            c = re.search(rf"(?m)^{re.escape(name)} (\S+)", whole.split("\n", 1)[1] if "\n" in whole else "")
            ps[c[1] if c else "_"] = m[1]
        items.append(("help", comment, flags, name, lines, ps, None))
        if len(ps) == 1:
            (v, pl), = ps.items()
            helper_places[name] = Helper(n, name, flags, lines, v, pl)
    imports = set()

    inv_text, ans_text = [], []
    names_in_inv, copied, originals = set(), set(), {}
    bodies_of_inv = "\n".join("\n".join(i[4]) for i in items if i[0] == "inv")
    # helpers that an invariant uses, and helpers that these use
    help_by = {i[3]: i for i in items if i[0] == "help"}
    one_in = lambda w, t: re.search(r"(?<![\w.'-])" + re.escape(w) + r"(?![\w'-])", t)
    word_in = lambda w, t: any(one_in(x, t) for x in inner.get(w, [w]))
    grew, seen_text = True, bodies_of_inv
    while grew:
        grew = False
        for name, i in help_by.items():
            if name not in names_in_inv and word_in(name, seen_text):
                names_in_inv.add(name)
                seen_text += "\n" + "\n".join(i[4])
                grew = True
    renames = {k: v for k, v in new_names.items() if k != v}

    def copies(wants, more):
        for other, at in wants:
            if (other, at) not in copied:
                copied.add((other, at))
                t2, w2 = helper_places[other].text(at, helper_places, imports)
                copies(w2, more)
                more.append((other, t2))

    def check_rest(t):
        bad = leftover(t, aliases)
        if bad:
            raise Left("still " + bad)

    for kind, comment, flags, name, lines, a, b in items:
        note = "\n".join(comment)
        note = note + "\n" if note.strip() else ""
        note = re.sub(r"^\n+", "", note)
        try:
            if kind == "inv":
                if b is None:
                    raise Left("no such loop")
                loop, vs, changed = b
                sig, unf, clauses = split_decl(lines, name)
                if len(clauses) != 1:
                    raise Left("several clauses")
                args, body = clauses[0]
                params = args.split()
                want = len(vs) + sum(changed)
                if len(params) > want or any(not re.fullmatch(r"[\w'₀-₉-]+", p) for p in params):
                    raise Left(f"its arguments {args}")
                to = {}
                for p, v, c in zip(params, vs, changed):
                    if p != "_":
                        to[p] = f"l.initial.{v}" if c else f"l.{v}"
                for p, v in zip(params[len(vs):], [v for v, c in zip(vs, changed) if c]):
                    if p != "_":
                        to[p] = f"l.{v}"
                if len(params) != want:
                    raise Left(f"its arguments {args}, of {want}: {vs}")
                body = replace_vars(body, to)
                check_rest(body)
                new = f"{a}-{loop}"
                inv_text.append(note + f"abbrev pub {new} : goal.{new}\n" + "".join(u + "\n" for u in unf) + f"{new} l ={body}")
                counts["invariants"] += 1
            elif kind == "help":
                t = "\n".join(lines)
                more = []
                if a:
                    h = helper_places.get(name)
                    if h is None or h.place is None:
                        raise Left("a helper over several places" if h is None else "no place " + h.old_place)
                    t, wants = h.text(h.place, helper_places, imports)
                    copies(wants, more)
                t = replace_vars(t, renames) if renames else t
                check_rest(t)
                counts["helpers"] += 1
                if name in names_in_inv and name in inner:
                    inv_text.append(note + re.sub(r"(?m)^(\s+)(abbrev )?(?!pub )(?=[^\s:(){}]+ :)", r"\1\2pub ", t))
                elif name in names_in_inv:
                    t = t if "pub " in flags else ("abbrev pub " + t[len("abbrev "):] if t.startswith("abbrev ") else "pub " + t)
                    inv_text.append(note + t)
                else:
                    for other, t2 in more:
                        t2 = replace_vars(t2, renames) if renames else t2
                        check_rest(t2)
                        ans_text.append(("help", other, t2))
                    ans_text.append(("help", name, note + t))
            else:
                sig, unf, clauses = split_decl(lines, name)
                if len(clauses) != 1:
                    raise Left("several clauses")
                args, body = clauses[0]
                if body.strip() == "search rules" and not unf:
                    counts["rules"] += 1
                    continue
                if b is None:
                    raise Left("no new name for " + a)
                new, (old_place, _) = b
                ps = args.split()
                ps = [p for p in ps if not p.startswith("κ")]
                root = ps[0] if ps and re.fullmatch(r"[\w'-]+", ps[0]) else "c"
                at = n.at.get(norm(old_place)) if old_place else None
                turn = Turn(n, helper_places, new, at, root)
                body = turn.body(body)
                more = []
                copies(turn.wants, more)
                for other, t2 in more:
                    t2 = replace_vars(t2, renames) if renames else t2
                    check_rest(t2)
                    ans_text.append(("help", other, t2))
                inv_in = {k: v for k, v in renames.items() if not k.startswith(("invariant", "decreases"))}
                body = replace_vars(body, {k: v for k, v in renames.items() if k in [i[3] for i in items if i[0] != "help"]}) if renames else body
                check_rest(body)
                if "\n" not in body.strip() and len(body.strip()) + len(new) < 150:
                    body = " " + body.strip()
                ans_text.append(("need", new, note + f"pub {new} : goal.{new}\n" + "".join(u + "\n" for u in unf) + f"{new} {' '.join(ps) or '_'} ={body}"))
                counts["answers"] += 1
        except Left as e:
            say(name, str(e))
            ans_text.append(("left", name, note + old_text(lines)))
    # A lemma that only named a path is not needed where each use has the path.
    def is_used(k):
        rest = [re.sub(r"(?m)--.*", "", x[2]) for j, x in enumerate(ans_text) if j != k and x[0] != "left"]
        return any(word_in(ans_text[k][1], x) for x in rest)

    ks = [k for k, x in enumerate(ans_text) if x[0] == "help" and x[1] in helper_places and helper_places[x[1]].path(helper_places)]
    for k in reversed(ks):
        if not is_used(k):
            del ans_text[k]
            counts["helpers"] -= 1
    # What uses a helper that was left is left too.
    lines_of = {i[3]: i[4] for i in items}
    olds = {v: k for k, v in new_names.items()}
    gone, grew = {x[1] for x in ans_text if x[0] == "left"}, True
    while grew:
        grew = False
        for k, (what, name, t) in enumerate(ans_text):
            used = what != "left" and next((g for g in gone if help_by.get(g) and word_in(g, t.split("=", 1)[-1])), None)
            if used:
                old = olds.get(name, name) if what == "need" else name
                ans_text[k] = ("left", old, old_text(lines_of[old]))
                gone.add(old)
                counts["answers" if what == "need" else "helpers"] -= 1
                say(old, f"it uses {used}")
                grew = True
    folder_at = os.path.dirname(path)
    os.remove(path)
    has_answer = any(k == "need" for k, _, _ in ans_text)
    has_left = any(k == "left" for k, _, _ in ans_text)
    top = [h for h in head if h.strip()]
    module = f"Rattle.{crate}.proofs.{dotted}"

    def clean(t):
        return re.sub(r"\n{3,}", "\n\n", t)

    if inv_text:
        t = "\n\n".join(inv_text)
        us = needed(kept, t)
        write(f"{folder_at}/Invariants.antt", clean("\n".join(top + us + [f"use {module}.Given as goal"]) + "\n\n" + t + "\n"))
    if has_answer or has_left:
        parts_ = ans_text if has_answer else [x for x in ans_text if x[0] != "help"] if not has_left else ans_text
        t = "\n\n".join(x[2] for x in parts_)
        us = needed(kept, t)
        if names_in_inv:
            them = [x for h in sorted(names_in_inv) for x in inner.get(h, [h]) if one_in(x, t)]
            if them:
                us.append(f"use {module}.Invariants." + "{" + ", ".join(them) + "}")
        if imports:
            us.append(f"use {module}.Goals." + "{" + ", ".join(sorted(imports)) + "}")
        us.append(f"use {module}.Goals as goal")
        write(f"{folder_at}/Answers.antt", clean("\n".join((top if not inv_text else []) + us) + "\n\n" + t + "\n"))
    if not os.listdir(folder_at):
        os.removedirs(folder_at)
    return said, counts


def auto(crate_dir):
    for r in ("lib.rt", "main.rt"):
        p = f"{crate_dir}/src/{r}"
        if os.path.isfile(p):
            t = read(p)
            if "#![tactic(" in t:
                return
            lines = t.split("\n")
            i = 0
            while i < len(lines) and lines[i].startswith("//"):
                i += 1
            lines[i:i] = ["", "#![tactic(auto)]"] if i and (i < len(lines) and not lines[i].strip()) else (["", "#![tactic(auto)]", ""] if i else ["#![tactic(auto)]", ""])
            write(p, re.sub(r"\n{3,}", "\n\n", "\n".join(lines)))


def names_of(crate, given):
    folder = os.path.abspath(os.path.join(given or "target/names", crate))
    p = os.path.join(folder, "names.json")
    if not os.path.isfile(p):
        os.makedirs(os.path.dirname(folder), exist_ok=True)
        subprocess.run(["rt", "check", "--generated", folder, "--old-names"], cwd=f"crates/{crate}", capture_output=True)
    return json.loads(read(p)) if os.path.isfile(p) else None


def main(args):
    given = None
    if args[:1] == ["--names"]:
        given, args = args[1], args[2:]
    total = {}
    for crate in args:
        root = f"crates/{crate}/proofs"
        auto(f"crates/{crate}")
        each = []
        for at, _, files in os.walk(root):
            if "Proof.antt" in files:
                each.append(os.path.relpath(at, root))
        if not each:
            continue
        all_names = names_of(crate, given)
        if all_names is None:
            print(f"left: crates/{crate}: no names.json: prove the crates below it first")
            continue
        for folder in sorted(each):
            try:
                said, counts = turn_file(crate, root, folder, all_names)
            except Left as e:
                said, counts = [f"left: {root}/{folder}/Proof.antt: *: {e}"], {"left": 1}
            for s in said:
                print(s)
            for k, v in counts.items():
                total[k] = total.get(k, 0) + v
    print("turned:", ", ".join(f"{v} {k}" for k, v in total.items()))


if __name__ == "__main__":
    main(sys.argv[1:])
