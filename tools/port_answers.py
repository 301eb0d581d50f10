#!/usr/bin/env python3
"""Turns a function's old Proof.antt (tie.spec with answers by position) into Invariants.antt and Answers.antt.

usage: conv.py NAMES.json CRATE_FOLDER [FUNCTION_SUBFOLDER..]

NAMES.json is what `rt check --generated DIR --old-names` wrote for the crate (DIR/names.json). Each proofs/F/Proof.antt is moved to ASIDE/CRATE/F/
($ASIDE, by default aside in the temporary folder), and its answers go under their new names to proofs/F/Answers.antt. Answers that only say `search rules` or `omega arith` are left to the check.
What could not be turned is printed.
"""
import json
import os
import re
import sys
import tempfile

ASIDE = os.environ.get("ASIDE") or os.path.join(tempfile.gettempdir(), "aside")
IDENT = r"[^\s(){}\[\],;.@\"«»]+"
PATH = re.compile(r"(?<![^\s(){}\[\],;←])(" + IDENT + r"(?:\.[^\s(){}\[\],;.@\"«»]+)+|" + IDENT + ")")
START = ("args", "requires", "lifetimes", "well_formed", "ranges", "pre", "type_inv", "auto", "row", "utf8")
TRIVIAL = ("search rules", "omega arith", "tt", "search_rules")


def split_args(s):
    """The arguments of an application, at its top level."""
    out, i, n = [], 0, len(s)
    while i < n:
        if s[i].isspace():
            i += 1
            continue
        j, depth = i, 0
        while j < n and (depth or not s[j].isspace()):
            if s[j] in "([{":
                depth += 1
            elif s[j] in ")]}":
                depth -= 1
            j += 1
        a = s[i:j]
        if a.startswith("λ"):  # a λ without parentheses takes the rest
            a, j = s[i:], n
        out.append(a)
        i = j
    return out


def strip(a):
    """An argument without its outer parentheses."""
    if a.startswith("("):
        depth = 0
        for k, c in enumerate(a):
            depth += c in "([{"
            depth -= c in ")]}"
            if not depth:
                break
        if k == len(a) - 1:
            inner = a[1:-1].strip()
            # a tuple keeps them
            depth = 0
            for c in inner:
                depth += c in "([{"
                depth -= c in ")]}"
                if c == "," and not depth and not inner.startswith("λ"):
                    return a
            return inner
    return a


def rust(seg):
    """A name of Rust's in a path: with underscores, and without what tools/respell.py put behind a lemma's of that name."""
    return seg if not re.match(r"^[A-Za-z_]", seg) else re.sub(r"_lem$", "", seg.replace("-", "_"))


def contracts(top):
    """function path -> (names of its requires, names of its ensures), of all crates below top."""
    out = {}
    for folder, dirs, files in os.walk(top):
        dirs[:] = sorted(d for d in dirs if d not in ("out", "proofs", "specs"))
        for n in sorted(files):
            if not n.endswith(".rt"):
                continue
            p = os.path.join(folder, n)
            parts = os.path.relpath(p, top).split(os.sep)
            mods = [parts[0]] + [x[:-3] if x.endswith(".rt") else x for x in parts[2:]]
            if mods[-1] in ("lib", "main"):
                mods.pop()
            typ, cur = None, None
            for line in open(p, encoding="utf-8"):
                m = re.match(r"^impl(?:<[^>]*>)? (?:.* for )?(\w+)", line)
                if m:
                    typ = m[1]
                if line.startswith("}"):
                    typ = None
                m = re.match(r"^\s*(?:#\[.*\] )?(?:pub )?(?:extern \"C\" )?fn (\w+)", line)
                if m:
                    cur = "::".join(mods + ([typ] if typ else []) + [m[1]])
                    out[cur] = ([], [])
                m = re.match(r"^\s*(requires|ensures)\*? (?:(\w+) )?\{", line)
                if m and cur:
                    out[cur][m[1] == "ensures"].append(m[2])
    return out


def parts_of(t):
    """The parts of a tuple in parentheses, or None."""
    t = t.strip()
    if not t.startswith("("):
        return None
    depth, out, start = 0, [], 1
    for k, c in enumerate(t):
        if c in "([{":
            depth += 1
        elif c in ")]}":
            depth -= 1
            if not depth:
                if k != len(t) - 1:
                    return None
                last = t[start:k].strip()
                if last:
                    out.append(last)
                return out
        elif c == "," and depth == 1:
            out.append(t[start:k].strip())
            start = k + 1
    return None


def tail_at(t):
    """Where the last term of `let .. in let .. in T` begins."""
    depth, at = 0, 0
    for m in re.finditer(r"[(\[{]|[)\]}]|(?<!\S)in(?!\S)", t):
        if m[0] in "([{":
            depth += 1
        elif m[0] in ")]}":
            depth -= 1
        elif not depth:
            at = m.end()
    return at


def record_of(parts, names):
    return "record { " + "; ".join(f"{n} = {p}" for n, p in zip(names, parts)) + " }"


def as_record(term, names):
    """A term that gave several clauses as a tuple, as the record of them."""
    at = tail_at(term)
    head, t = term[:at], term[at:].strip()
    if not t or t.startswith(("record ", "search", "grind", "omega", "cc", "?")):
        return term
    space = " " if head and not head[-1].isspace() else ""
    parts = parts_of(t)
    while parts and len(parts) < len(names) and parts_of(parts[-1]):  # (a, (b, c)) was given for three
        parts = parts[:-1] + parts_of(parts[-1])
    if parts is not None:
        return head + space + record_of(parts, names) if len(parts) == len(names) else term
    if t.startswith("λ"):
        return term
    args = split_args(t)
    if args[0] in ("rw", "simp"):
        if len(args) == 3:
            return head + space + " ".join(args[:2]) + " (" + as_record(strip(args[2]), names).strip() + ")"
        return term
    if args[0] in ("⊎_elim", "elim", "⊎-elim"):
        out = []
        for a in args:
            m = re.match(r"^\(λ ([^.]*)\. ?(.*)\)$", a, re.S)
            out.append(f"(λ {m[1]}. {as_record(m[2], names).strip()})" if m else a)
        if any(a.startswith("[") for a in args):
            return term
        return head + space + " ".join(out)
    return head + space + f"let both = {t} in " + record_of([f"both.{i}" for i in range(len(names))], names)


class Function:
    def __init__(self, names, contracts, me):
        self.n = names
        self.contracts = contracts
        self.me = me
        self.helpers = {}
        self.offset = 0
        self.used = set()
        self.places = {}
        self.order = []
        for i, (p, parent, field, callee, labels) in enumerate(names["places"]):
            self.places[p] = (parent, field, i, dict(map(tuple, labels)) if labels else {})
            self.order.append(p)

    def chain(self, place):
        while place:
            yield place
            place = self.places[place][0]

    def path(self, place, segs):
        """The new path of an old one from `c` at that place, or None for the place itself."""
        here = place
        k = 0
        while k < len(segs) and segs[k] == "before":
            here = self.places[here][0]
            if here is None:
                raise KeyError("before the start")
            k += 1
        if k == len(segs):
            return None, here
        seg = rust(segs[k])
        rest = segs[k + 1:]
        old_field = self.places[here][1][0]
        # an arm's names
        for p in self.chain(place):
            arm = self.n["arms"][self.places[p][2]]
            if not arm:
                continue
            best = None
            for new, step, way in arm[2]:
                if rust(step) == seg and way and rest[:len(way)] == [str(w) for w in way]:
                    if best is None or len(way) > len(best[1]):
                        best = (new, way)
            own = [new for new, step, way in arm[2] if step == seg and not way]
            if not best and own and seg == "match" and rest and p == here:
                return ["c", arm[0], own[0]] + rest, None
            if best:
                return ["c", arm[0], best[0]] + [rust(x) for x in rest[len(best[1]):]], None
        if seg == rust(old_field):
            labels = self.places[here][3]
            if rest and rest[0] in labels:
                return ["c", self.places[here][1][1], labels[rest[0]]] + rest[1:], None
            return ["c", self.places[here][1][1]] + self.clause(here, rest), None
        if seg == "requires":
            return ["c", seg] + self.named(self.me, 0, rest), None
        if seg in START or self.places[here][0] is None:
            return ["c", seg] + [rust(x) for x in rest], None
        # perhaps the step stands further up
        for p in self.chain(here):
            if rust(self.places[p][1][0]) == seg:
                return ["c", self.places[p][1][1]] + self.clause(p, rest), None
        return ["c", rust(seg)] + [rust(x) for x in rest], None

    def named(self, path, which, rest):
        """The fields behind .requires or .ensures of a function: a clause's number as its name."""
        names = self.contracts.get(path, ([], []))[which]
        rest = [rust(x) for x in rest]
        if len(names) > 1 and rest and rest[0].isdigit() and int(rest[0]) < len(names):
            return [names[int(rest[0])]] + rest[1:]
        return rest

    def clause(self, place, rest):
        callee = self.n["places"][self.places[place][2]][3]
        if callee and rest and rest[0] == "ensures":
            return ["ensures"] + self.named(callee, 1, rest[1:])
        if callee and rest and rest[0] in ("new", "last"):
            params = self.n["params"].get(callee, [])
            k = 1
            while k < len(rest) and rest[k] == "1":
                k += 1
            if k < len(rest) and rest[k] == "0" and k - 1 < len(params):
                return ["new", params[k - 1]] + [rust(x) for x in rest[k + 1:]]
        return [rust(x) for x in rest]

    def whole(self, new, place, segs):
        """A path; where it names several clauses together, they are a tuple, as they were."""
        t = ".".join(new)
        if new[-1] not in ("ensures", "requires"):
            return t
        if new[-1] == "requires":
            names = self.contracts.get(self.me, ([], []))[0]
        else:
            names = []
            for p, (parent, field, i, labels) in self.places.items():
                if field[1] == new[-2]:
                    names = self.contracts.get(self.n["places"][i][3], ([], []))[1]
        if len(names) > 1:
            return "(" + ", ".join(f"{t}.{n}" for n in names) + ")"
        return t

    def of_arm(self, place, segs):
        """Whether such a path names part of what an arm was given."""
        k = 0
        while k < len(segs) and segs[k] == "before":
            k += 1
        if k == len(segs):
            return False
        seg, rest = rust(segs[k]), segs[k + 1:]
        for p in self.chain(place):
            arm = self.n["arms"][self.places[p][2]]
            for new, step, way in (arm[2] if arm else []):
                if rust(step) == seg and len(way) > len(rest) and [str(w) for w in way[:len(rest)]] == rest:
                    return True
        return False

    def place_name(self, place):
        return self.n["places_by_name"][self.full(place)]

    def full(self, place):
        """The number of a place; of one inside an arm, that of the whole arm."""
        i = self.places[place][2]
        arm = self.n["arms"][i]
        if not arm:
            return i
        best = i
        for p, (parent, field, j, labels) in self.places.items():
            other = self.n["arms"][j]
            if other and other[0] == arm[0] and not p.endswith("-unread") and place in self.chain(p) and other[1] > self.n["arms"][best][1]:
                best = j
        return best

    def turn(self, text, place, me="c", need=None):
        """A term at that place. `me` is the name of what is known there; `need`, the goal, or None in a helper over a place."""
        text = re.sub(r"(λ(?: (?!\s)[^\s.]+)*?) " + re.escape(me) + r"(?=[ .])((?: [^\s.]+)*\. )(.*?)(?=\)(?: |$))", lambda m: m[1] + " x" + m[2] + re.sub(r"(?<![^\s(;=])" + re.escape(me) + r"(?![^\s);])", "x", m[3]), text) if f"λ a b {me}." in text else text
        alias = {me: ("place", place)}
        problems = []
        self.used = set()

        def bare(at, segs, start):
            before = re.search(r"(\S+)\s+$", text[:start])
            helper = self.helpers.get(before[1].lstrip("(")) if before else None
            if helper and need is not None:
                return f"(goal.at.{need} c).{self.place_name(helper)}"
            if helper:
                self.used.add(before[1].lstrip("("))
            if need is None:
                # a helper: its argument's own steps back
                back, here = 0, place
                while here != at:
                    here = self.places[here][0]
                    back += 1
                return ".".join([me] + ["before"] * back)
            return f"(goal.at.{need} c).{self.place_name(at)}"

        def one(m):
            segs = m[1].split(".")
            head = segs[0]
            if head not in alias:
                return m[1]
            kind, what = alias[head]
            if kind == "partial":
                new, at = self.path(what[0], what[1] + segs[1:])
                return self.whole([me] + new[1:], what[0], what[1] + segs[1:])
            if kind == "place":
                try:
                    new, at = self.path(what, segs[1:])
                except KeyError as e:
                    problems.append(f"{m[1]}: {e}")
                    return m[1]
                if new is None:
                    return bare(at, segs, m.start() + self.offset)
                return self.whole([me] + new[1:], what, segs[1:])
            if len(segs) > 1:
                return ".".join([head] + [rust(x) for x in segs[1:]])
            return m[1]

        out = []
        pos = 0
        # lets, in order
        for m in re.finditer(r"\blet (" + IDENT + r") = (" + IDENT + r"(?:\.[^\s(){}\[\],;.]+)*) in\b", text):
            self.offset = pos
            out.append(PATH.sub(one, text[pos:m.start()]))
            segs = m[2].split(".")
            if segs[0] in alias and alias[segs[0]][0] == "place":
                try:
                    new, at = self.path(alias[segs[0]][1], segs[1:])
                except KeyError as e:
                    problems.append(str(e))
                    new, at = ["c"], place
                if new is None:
                    alias[m[1]] = ("place", at)
                    # the let goes: the alias is c
                    tail = text[m.end():]
                    pos = m.end() + (len(tail) - len(tail.lstrip()))
                    continue
                if self.of_arm(alias[segs[0]][1], segs[1:]):
                    alias[m[1]] = ("partial", (alias[segs[0]][1], segs[1:]))
                    tail = text[m.end():]
                    pos = m.end() + (len(tail) - len(tail.lstrip()))
                    continue
                if segs[-1] in ("ensures", "requires") or (len(new) == 2 and new[1] not in START and not new[1].startswith("loop")):
                    # the clauses may be cited by number: the let goes, and each use is written out
                    alias[m[1]] = ("partial", (alias[segs[0]][1], segs[1:]))
                    tail = text[m.end():]
                    pos = m.end() + (len(tail) - len(tail.lstrip()))
                    continue
                alias[m[1]] = ("value", None)
                out.append(f"let {m[1]} = {'.'.join([me] + new[1:])} in")
            else:
                if segs[0] in alias:
                    alias[m[1]] = ("value", None)
                self.offset = m.start()
                out.append(PATH.sub(one, m[0]) if segs[0] in alias else m[0])
            pos = m.end()
        self.offset = pos
        out.append(PATH.sub(one, text[pos:]))
        return "".join(out), problems


def definitions(text):
    """name -> (signature, body, line) of the file's top-level definitions, and their order."""
    defs, order = {}, []
    lines = text.split("\n")
    i = 0
    cur = None
    for line in lines:
        m = re.match(r"^((?:abbrev |pub |unfoldable )*)(" + IDENT + r")( .*)? ?: (.*)$", line) if not line.startswith((" ", "--", "use ", "module ", "record ")) else None
        if m and not re.match(r"^" + IDENT + r"[^:=]*= ", line):
            cur = m[2]
            defs[cur] = {"sig": line, "body": [], "type": m[4], "unfolding": ""}
            order.append(cur)
        elif cur and line.startswith("unfolding ") and not defs[cur]["body"]:
            defs[cur]["unfolding"] = line + "\n"
        elif cur and (line.startswith(cur) or line.startswith(" ") or not line.strip()):
            defs[cur]["body"].append(line)
        elif line.startswith(("module ", "record ")):
            cur = None
    return defs, order


def convert(names, crate, folder, sub):
    path = os.path.join(folder, "proofs", sub, "Proof.antt")
    text = open(path, encoding="utf-8").read()
    for old in ("last-line_defined", "last-line-defined", "line-defined", "short-string", "long-string", "source-name"):
        text = re.sub(r"(?<![^\s(){},;.])" + old + r"(?![^\s(){},;.])", old.replace("-", "_"), text)
    # of a test `!x` the branches say today what x is
    text = re.sub(r"not-(true|false) _ ([^\s(),]+)\.\1(?![^\s(),])", r"\2.fact", text)
    key = f"Rattle-{crate}-proofs.{sub.replace('/', '.')}.Lts"
    if key not in names:
        print(f"{sub}: no names ({key})")
        return
    me_path = "::".join([crate] + sub.split("/"))
    f = Function(names[key], CONTRACTS, me_path)
    needs = f.n["needs"]
    at = f.n["asked_at"]
    defs, order = definitions(text)
    m = re.search(r"\(tie\.spec(?=[\s(])(.*)\)\s*$", text, re.S)
    if not m:
        m = re.search(r"\btie\.spec(?=[\s(])(.*)$", text, re.S)
    if not m:
        if re.search(r"tie\.spec", text):
            args = []
        else:
            print(f"{sub}: no tie.spec")
            return
    else:
        args = split_args(m[1].strip())
    loops = f.n["loops"]
    k = 0
    inv = []
    # invariants and measures come first
    while k < len(args) and (args[k].startswith(("invariant-", "decreases-", "ghost-")) or (len(inv) < 2 * len(loops) and not args[k].startswith("(λ c") and k < 2 * len(loops))):
        inv.append(args[k])
        k += 1
    answers = args[k:]
    extra = len(answers) - len(needs)
    if extra:
        print(f"{sub}: {len(answers)} answers for {len(needs)} goals; settled {f.n.get('settled')}")
        # drop trivial ones, from behind
        anchors = {}
        for i, a in enumerate(answers):
            d = defs.get(a)
            t = re.search(r"tie\.Need-(\S+)", d["sig"]) if d else None
            if t:
                for j, (old, new) in enumerate(needs):
                    if old == t[1]:
                        anchors[i] = j
        kept = []
        i = len(answers) - 1
        drop = extra
        order_ = list(range(len(answers)))
        idx = len(answers) - 1
        chosen = []
        while idx >= 0:
            if drop > 0 and strip(answers[idx]).split(". ", 1)[-1] == "search rules":
                drop -= 1
            else:
                chosen.append(idx)
            idx -= 1
        answers = [answers[i] for i in reversed(chosen)]
    # Invariants
    out = []
    uses = [l for l in text.split("\n") if l.startswith("use ") and ".Statement." not in l and not l.endswith(".Tie as tie")]
    # multi-line uses
    full = re.findall(r"(?m)^use [^\n{]*(?:\{[^}]*\})?[^\n]*$", text)
    full = [u for u in full if ".Statement." not in u and not u.rstrip().endswith(".Tie as tie")]
    head = text.split("\n")[0]
    comments = []
    for l in text.split("\n"):
        if l.startswith("--"):
            comments.append(l)
        else:
            break
    here = f"Rattle.{crate}.proofs.{sub.replace('/', '.')}"
    if loops:
        body = []
        li = 0
        for nm in inv:
            d = defs.get(nm)
            kind = "invariant" if nm.startswith("invariant") else "decreases"
            # which loop
            lo = re.sub(r"^(invariant|decreases)-", "", nm)
            cand = [i for i, (ll, ps) in enumerate(loops) if ll[0] == lo]
            li = cand[0] if cand else 0
            (oldl, newl), params = loops[li]
            changed = f.n["changed"][li]
            goal = f"{kind}-{newl}"
            if d is None:
                print(f"{sub}: no definition of {nm}")
                continue
            b = "\n".join(d["body"]).strip("\n")
            mm = re.match(re.escape(nm) + r"((?: \S+)*?) =(.*)$", b, re.S)
            if not mm:
                print(f"{sub}: {nm} not read")
                continue
            ps = mm[1].split()
            term = mm[2]
            new_names = []
            for p, ch in zip(params, changed):
                new_names.append(("l.initial." if ch else "l.") + p)
            for p, ch in zip(params, changed):
                if ch:
                    new_names.append("l." + p)
            if len(ps) != len(new_names):
                print(f"{sub}: {nm} takes {len(ps)}, its loop has {len(new_names)}: {ps} {new_names}")
            table = dict(zip(ps, new_names))

            def sub_one(m2):
                segs = m2[1].split(".")
                if segs[0] in table:
                    return ".".join([table[segs[0]]] + [rust(x) for x in segs[1:]])
                return m2[1]

            term = PATH.sub(sub_one, term)
            body.append(f"abbrev pub {goal} : goal.{goal}\n{d['unfolding']}{goal} l ={term}\n")
        text_i = "\n".join(comments[:1] + full + [f"use {here}.Given as goal", ""] + body)
        open(os.path.join(folder, "proofs", sub, "Invariants.antt"), "w", encoding="utf-8").write(text_i)
    for h in order:
        m2 = re.match(r"^((?:abbrev |pub )*)" + re.escape(h) + r" : \((\S+) : tie\.(\S+?)( [^)]*)?\) → ", defs[h]["sig"])
        if m2 and m2[3] in f.places:
            f.helpers[h] = m2[3]
    texts = {}
    got = []
    # what the proof itself unfolds is unfolded in the answers that stand in it
    whole = "".join(defs[d]["unfolding"] for d in order if d.endswith(("-spec", "_spec")))
    for (old, new), (place, _), a in zip(needs, at, answers):
        me = "c"
        unfolding = defs[a]["unfolding"] if a in defs else whole
        if a in defs:
            b = "\n".join(defs[a]["body"]).strip("\n")
            mm = re.match(re.escape(a) + r"((?: \S+)*?) =(.*)$", b, re.S)
            if not mm:
                print(f"{sub}: {a} not read")
                continue
            ps = mm[1].split()
            me = ps[0] if ps else "c"
            more_ = [x for x in ps[1:] if x != "κs"]
            term = (f" λ {' '.join(more_)}." if more_ else "") + mm[2]
        else:
            t = strip(a)
            mm = re.match(r"λ ((?:[^\s.]+ ?)+)\.\s?(.*)$", t, re.S)
            if not mm:
                if t not in ("_",):
                    print(f"{sub}: {new}: not a λ: {t[:60]}")
                continue
            me = mm[1].split()[0]
            more_ = [x for x in mm[1].split()[1:] if x != "κs"]
            term = (f" λ {' '.join(more_)}. " if more_ else " ") + mm[2]
        if term.strip() in TRIVIAL:
            continue
        if me != "c":
            term = PATH.sub(lambda m2: ".".join(["c"] + m2[1].split(".")[1:]) if m2[1].split(".")[0] == me else m2[1], term)
        term, problems = f.turn(term, place, "c", new)
        for p in problems:
            print(f"{sub}: {new}: {p}")
        # what the range of a value says the tactics find by themselves
        term = re.sub(r", c\.known_told[^\s(),]*\.given(?=[),])", "", term)
        if term.strip() in TRIVIAL:
            continue
        if new.startswith("returns"):
            es = CONTRACTS.get(me_path, ([], []))[1]
            if len(es) > 1:
                term = as_record(term, es)
        elif re.search(r"-requires(-\d+|-then.*|-else.*|-in.*)?$", new):
            step = new[:new.rindex("-requires")]
            for p, parent, field, callee, labels in f.n["places"]:
                if field[1] == step or field[1].startswith(step):
                    rs = CONTRACTS.get(callee, ([], []))[0]
                    if len(rs) > 1:
                        term = as_record(term, rs)
                    break
        got.append(f"pub {new} : goal.{new}\n{unfolding}{new} c =" + (term if term.startswith("\n") else " " + term.lstrip()) + "\n")
    helpers = [d for d in order if d not in answers and d not in inv and not d.endswith(("-spec", "_spec"))]
    if got or helpers:
        hs = []
        imported = set()
        for h in helpers:
            body = "\n".join(defs[h]["body"]).rstrip()
            whole_ = defs[h]["sig"] + "\n" + defs[h]["unfolding"] + body
            cut = re.search(r"(?m)^" + re.escape(h) + r"((?: \S+)*?) =", body)
            m2 = re.match(r"^((?:abbrev |pub )*)" + re.escape(h) + r" : \((\S+) : tie\.(\S+?)( [^)]*)?\) → (.*)$", (defs[h]["sig"] + "\n" + (body[:cut.start()] if cut else "")).rstrip(), re.S)
            if cut and m2 and m2[3] in f.places:
                var, pl = m2[2], m2[3]
                typ, pr1 = f.turn(m2[5], pl, var)
                ps = cut[1].split()
                b2 = body[cut.end():]
                if ps and ps[0] != var:
                    b2 = PATH.sub(lambda m3: ".".join([var] + m3[1].split(".")[1:]) if m3[1].split(".")[0] == ps[0] else m3[1], b2)
                    ps[0] = var
                b2, pr2 = f.turn(b2, pl, var)
                lets = ""
                for u in sorted(f.used, key=order.index):
                    if u in texts:
                        uv, ut, ub = texts[u]
                        b2 = re.sub(r"\(" + re.escape(u) + r" " + re.escape(var) + r"(?:\.before)*\)", u, b2)
                        b2 = re.sub(r"(?<![^\s(])" + re.escape(u) + r" " + re.escape(var) + r"(?:\.before)*(?![^\s)])", u, b2)
                        ren = lambda t: PATH.sub(lambda m3: ".".join([var] + m3[1].split(".")[1:]) if m3[1].split(".")[0] == uv else m3[1], t)
                        lets += f"\n    let {u} : {ren(ut).strip()} = {ren(ub).strip()} in"
                if lets:
                    b2 = lets + (b2 if b2.startswith("\n") else "\n    " + b2.strip())
                texts[h] = (var, typ, b2)
                for pr in pr1 + pr2:
                    print(f"{sub}: {h}: {pr}")
                nm = f.place_name(pl)
                imported.add(nm)
                hs.append(f"{m2[1]}{h} : ({var} : {nm}) → {typ}\n{defs[h]['unfolding']}{h} {' '.join(ps)} ={b2}\n")
            else:
                print(f"{sub}: helper {h} by hand")
                hs.append("-- (helper, to look at)\n" + whole_ + "\n")
        more = [f"use {here}.Goals.{{{', '.join(sorted(imported))}}}"] if imported else []
        text_a = "\n".join(comments + full + [f"use {here}.Goals as goal"] + more + [""] + hs + got)
        open(os.path.join(folder, "proofs", sub, "Answers.antt"), "w", encoding="utf-8").write(text_a)
    to = os.path.join(ASIDE, crate, sub)
    os.makedirs(to, exist_ok=True)
    os.replace(path, os.path.join(to, "Proof.antt"))


CONTRACTS = {}


def main():
    CONTRACTS.update(contracts(os.path.join(os.path.abspath(sys.argv[2]), "..")))
    names = json.load(open(sys.argv[1], encoding="utf-8"))
    folder = sys.argv[2]
    crate = os.path.basename(os.path.abspath(folder))
    subs = sys.argv[3:]
    if not subs:
        for r, d, fs in os.walk(os.path.join(folder, "proofs")):
            if "Proof.antt" in fs:
                subs.append(os.path.relpath(r, os.path.join(folder, "proofs")))
    for s in sorted(subs):
        if "+" in s:
            print(f"{s}: a cycle: by hand")
            continue
        convert(names, crate, folder, s)


main()
