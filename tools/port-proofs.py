#!/usr/bin/env python3
"""Turns a crate's Proof.antt files, which walk the code by hand, to Invariants.antt and Answers.antt.

usage: tools/port-proofs.py NAMES CRATE [FUNCTION..]

NAMES is the names.json that `rt check --generated DIR --old-names` writes in the crate's folder, CRATE that folder, FUNCTION a folder below its proofs/.
A goal that only said `search rules` gets no answer. A line that begins 'hand:' names what is left to be turned by hand; what a proof means is for the check
to say.
"""
import glob
import json
import os
import re
import sys

ID = r"[\w'₀-₉+-]+"
PATHS = re.compile(r"(?<![\w'.₀-₉-])(%s)((?:\.%s)*)" % (ID, ID))
START = {"args", "requires", "pre", "ranges", "lifetimes", "well-formed", "utf8"}
WORDS = {"pre": "requires", "kept": "auto", "inv": "invariant", "taken": "true", "left": "false"}


def dashed(name):
    return name.replace("_", "-").lower()


def functions(root):
    """Of each function of the repository: the names of its clauses and of its parameters."""
    found = {}
    for path in glob.glob(os.path.join(root, "crates", "*", "src", "**", "*.rt"), recursive=True):
        crate = os.path.relpath(path, os.path.join(root, "crates")).split(os.sep)[0]
        with open(path, encoding="utf-8") as f:
            text = f.read()
        owner = None
        for m in re.finditer(r"^(impl(?:<[^>]*>)? ([\w]+).*\{$)|^\}$|^ *(?:pub(?:\([^)]*\))? |unsafe |extern \"C\" |const )*fn (\w+)", text, re.M):
            if m.group(1):
                owner = m.group(2)
                continue
            if m.group(0) == "}":
                owner = None
                continue
            begin = text.index("(", m.end())
            at = behind(text, begin)
            params = [re.sub(r"^(mut|ref) ", "", p.split(":")[0].strip().lstrip("&").replace("mut ", "")) for p in split(text[begin + 1 : at - 1], ",") if p.strip()]
            clauses = {"requires": [], "ensures": []}
            for c in re.finditer(r"\n *(requires|ensures)\*? ?(\w*) ?\{|\n *\}?\{?\n|\{\n", text[at:]):
                if not c.group(1):
                    break
                clauses[c.group(1)].append(c.group(2))
            key = (crate, owner, m.group(3))
            found[key] = (params, clauses["requires"], clauses["ensures"])
            found.setdefault((crate, m.group(3)), found[key])
    return found


def split(text, mark):
    out, depth, last = [], 0, 0
    for i, ch in enumerate(text):
        if ch in "([{<" and not (ch == "<" and text[i - 1] == " "):
            depth += 1
        elif ch in ")]}" or ch == ">" and text[i - 1] not in "- =":
            depth -= 1
        elif ch == mark and depth == 0:
            out.append(text[last:i])
            last = i + 1
    return out + [text[last:]]


def chunks(text):
    """The top-level pieces of a file: each begins at the left margin; comments go with what follows them."""
    out, cur = [], []
    for line in text.split("\n"):
        begins = line and not line[0].isspace() and line[0] not in ")}]"
        if begins and cur and not all(c.startswith("--") or not c.strip() for c in cur):
            out.append("\n".join(cur))
            cur = []
        cur.append(line)
    out.append("\n".join(cur))
    return [c.rstrip() for c in out if c.strip()]


class Turned(Exception):
    pass


class Function:
    def __init__(self, of, table, crate, folder, all_functions, say):
        self.of, self.crate, self.folder, self.all, self.say = of, crate, folder, all_functions, say
        self.place, self.arms, self.new_place = {}, {}, {}
        for i, (old, parent, step, callee, fields) in enumerate(of["places"]):
            if old.endswith("-unread"):
                continue
            key = dashed(old)
            self.place[key] = (dashed(parent) if parent else None, dashed(step[0]), step[1], callee, fields)
            self.arms[key] = of["arms"][i]
            self.new_place[key] = of["places_by_name"][i]
        for i, (old, parent, step, callee, fields) in enumerate(of["places"]):
            if old.endswith("-unread"):
                self.place.setdefault(dashed(old), (dashed(parent) if parent else None, dashed(step[0]), step[1], callee, fields))
                self.new_place.setdefault(dashed(old), of["places_by_name"][i])
                self.arms.setdefault(dashed(old), of["arms"][i])
        self.own = (of.get("pre") or {}).get("fields") or []
        self.fns = {}
        self.shared = set()
        self.counted = set()

    def clause(self, names, rest):
        """`.1.1.0` of a pair of clauses, as the clause's name."""
        if len(names) < 2:
            return rest
        if not names[0]:
            return rest
        at, i = 0, 0
        while i < len(rest) and rest[i] == "1" and at < len(names) - 1:
            at, i = at + 1, i + 1
        if at < len(names) - 1:
            if i < len(rest) and rest[i] == "0":
                i += 1
            else:
                return rest
        return [names[at]] + rest[i:]

    def by_position(self, names, rest):
        """`.1.1.0` of the values by position, as the parameter's name."""
        at, i = 0, 0
        while i < len(rest) and rest[i] == "1":
            at, i = at + 1, i + 1
        if i < len(rest) and rest[i] == "0":
            i += 1
        if at < len(names) and rest and rest[0] in "01":
            return [names[at]] + rest[i:]
        return rest

    def up(self, place):
        if place not in self.place or not self.place[place][0]:
            raise Turned(f"nothing before {place}")
        return self.place[place][0]

    def resolve(self, place, fields):
        """What `.a.b` of the record of that place is called now; None of the fields left over where it is a place itself."""
        fields = list(fields)
        while fields and fields[0] == "before":
            if len(fields) == 1 or all(f == "before" for f in fields):
                place = self.up(place)
            fields.pop(0)
        if not fields:
            return place, None
        # a step's name stands once on the way to a goal, so how far back it stands says nothing more
        place = self.asked
        first, rest = fields[0], fields[1:]
        if dashed(first) in START:
            word = WORDS.get(first, first)
            if word == "requires":
                rest = self.clause(self.own, rest)
            elif word == "args" and rest:
                rest = [rest[0].replace("-", "_")] + rest[1:]
            return place, ["c", word.replace("-", "_")] + rest
        at = None
        # the older kit counted a step that has the name of a value; port-names.py may have added _lem
        word = dashed(first)
        bare = re.sub(r"-lem$", "", word)
        fewer = re.sub(r"(\d+)$", lambda m: str(int(m.group(1)) - 1) if m.group(1) != "2" else "", bare)
        base = re.sub(r"\d+$", "", bare)
        for step in (fewer, word, bare) if base in self.counted else (word, bare, fewer):
            at = place
            while at and self.place[at][1] != step:
                at = self.place[at][0]
            if at:
                break
        if not at:
            raise Turned(f"no step {first} at {place}")
        _, old, new, callee, marks = self.place[at]
        test = old.startswith("if") or old.endswith("-test")
        rest = [WORDS[r] if r in ("kept", "inv") and i == 0 or r in ("taken", "left") and test else r for i, r in enumerate(rest)]
        for arm in [self.arms.get(at)]:
            if arm:
                best = None
                for field, step, path in arm[2]:
                    if dashed(step) == old and path and rest[: len(path)] == path and (best is None or len(path) > len(best[1])):
                        best = (field, path)
                if best:
                    return at, ["c", arm[0], best[0]] + rest[len(best[1]) :]
        for was, now in marks:
            if rest and dashed(rest[0]) == dashed(was):
                rest = (["auto", now[5:]] if now.startswith("long-") else [now]) + rest[1:]
        rest = ["type_inv" if r == "type-inv" else r for r in rest]
        if callee and rest:
            params, _, ensures = self.callee(callee)
            if rest[0] == "ensures":
                rest = ["ensures"] + self.clause(ensures, rest[1:])
            elif rest[0] in ("new", "auto"):
                rest = rest[:1] + self.by_position(self.of["params"].get(callee) or params, rest[1:])
        elif rest and old.startswith("loop") and re.match(r"[a-z]", rest[0]):
            rest = [rest[0].replace("-", "_")] + rest[1:]
        return at, ["c", new] + rest

    def callee(self, path):
        parts = path.split("::")
        crate = parts[0]
        owner = parts[-2] if len(parts) > 2 and parts[-2][:1].isupper() else None
        return self.all.get((crate, owner, parts[-1])) or self.all.get((crate, parts[-1])) or ([], [], [])

    def turn(self, text, place, goal=None):
        """The body of an answer that is asked at the place."""
        alias = {"c": place}
        self.asked = place
        demand = {}
        # lets that only name a place, or what a function requires
        def ref(expr):
            expr = expr.strip()
            while expr.startswith("(") and expr.endswith(")"):
                expr = expr[1:-1].strip()
            m = re.fullmatch(r"(%s)((?:\.before)*)" % ID, expr)
            if m and m.group(1) in alias:
                at = alias[m.group(1)]
                for _ in range(m.group(2).count(".before")):
                    at = self.place[at][0] or at
                return at
            m = re.fullmatch(r"(%s) (.+)" % ID, expr)
            if m and m.group(1) in self.fns:
                return self.fns[m.group(1)] if ref(m.group(2)) else None
            return None

        while True:
            # a place's function at an argument
            found = None
            for name, to in self.fns.items():
                for m in re.finditer(r"\((%s) (c(?:\.before)*|%s|\([^()]*\))\)" % (re.escape(name), ID), text):
                    if ref(m.group(2)):
                        found = (m.start(), m.end(), to)
                        break
                if found:
                    break
            if not found:
                break
            fresh = f"ᴾ{len(alias)}"
            alias[fresh] = found[2]
            text = text[: found[0]] + fresh + text[found[1] :]
        while True:
            for m in re.finditer(r"let (%s) = ([^=]*?) in(\s)" % ID, text):
                at = ref(m.group(2))
                if at:
                    alias[m.group(1)] = at
                    text = text[: m.start()] + (text[m.end() :].lstrip() if m.group(3) != "\n" else text[m.end() :].lstrip())
                    break
            else:
                break
        # a step that a let names is written out where its fields are taken by position
        for m in re.finditer(r"let (%s) = (%s(?:\.before)*\.(%s)) in(\s)" % (ID, ID, ID), text):
            if m.group(2).split(".")[0] in alias and dashed(m.group(3)) not in START:
                text = re.sub(r"(?<![\w'.-])%s(?=\.(?:new|auto|kept|ensures)\b)" % re.escape(m.group(1)), m.group(2), text)
        for name, to in self.fns.items():
            for m in list(re.finditer(r"(?<![\w'.-])%s (c(?:\.before)*|%s|\([^()]*\))(?=[\s).,])" % (re.escape(name), ID), text)):
                self.say(f"hand: {self.folder}: {name} stays at a place")
        left = []

        def word(m):
            head, tail = m.group(1), [f for f in m.group(2).split(".") if f]
            if head in demand:
                return ".".join(["c", "requires"] + self.clause(self.own, tail)) if tail else m.group(0)
            if head not in alias:
                return m.group(0)
            if head != "c" and not tail and head not in alias:
                return m.group(0)
            try:
                at, new = self.resolve(alias[head], tail)
            except Turned as e:
                left.append(str(e))
                return m.group(0)
            if new is None:
                if goal:
                    self.shared.add(self.new_place.get(at, at))
                    return f"(goal.at.{goal} c).{self.new_place.get(at, at)}"
                left.append(f"{m.group(0)} is a place")
                return m.group(0)
            return ".".join(new)

        for m in re.finditer(r"let (%s) = (%s)((?:\.%s)*) in" % (ID, ID, ID), text):
            if m.group(2) in alias and len(self.own) > 1:
                fields = [f for f in m.group(3).split(".") if f]
                if fields and fields[-1] in ("requires", "pre") and all(f == "before" for f in fields[:-1]):
                    demand[m.group(1)] = True
        # a let that names what is required, where each use takes a part of it
        for name in list(demand):
            text = re.sub(r"let %s = %s(?:\.%s)* in(\s)" % (re.escape(name), ID, ID), lambda m: m.group(1) if m.group(1) == "\n" else "", text, count=1)
        out = []
        for line in text.split("\n"):
            at = line.find("--")
            head, tail = (line, "") if at < 0 or not (at == 0 or line[at - 1] == " ") else (line[:at], line[at:])
            out.append(PATHS.sub(word, head) + tail)
        text = "\n".join(out)
        text = branches_of(text)
        if "λ c." in text or re.search(r"\bκs\b", text):
            left.append("κs or a bound c")
        return text, left


def behind(text, at):
    """The place behind the bracket that closes the one at `at`."""
    depth = 0
    while True:
        depth += {"(": 1, ")": -1}.get(text[at], 0)
        at += 1
        if depth == 0:
            return at


def branches_of(text):
    """`⊎_elim (λ w. A) (λ w. B) c.if-x.branch` as an `elim` with an arm for each branch."""
    m = re.search(r"(\s*)⊎_elim(?: \{[^}]*\})?\s+(?=\()", text)
    if not m:
        return text
    parts, at = [], m.end()
    for _ in range(2):
        j = behind(text, at)
        parts.append(text[at + 1 : j - 1])
        at = j + (len(text[j:]) - len(text[j:].lstrip()))
        if at >= len(text) or _ == 0 and text[at] != "(":
            return text
    end = re.match(r"c\.(if-[\w'+-]+)\.branch", text[at:])
    arms = [re.match(r"λ (\w+)((?: \S+)*)\.\s(.*)", p, re.S) for p in parts]
    if not end or not all(arms):
        return text
    step = end.group(1)[3:]
    said = []
    for word, arm in zip(("then", "else"), arms):
        w, more, body = arm.groups()
        body = re.sub(r"(?<![\w.])%s\.0\.(?:taken|true)" % w, f"{w}.if-{step}.true", body)
        body = re.sub(r"(?<![\w.])%s\.0\.(?:left|false)" % w, f"{w}.if-{step}.false", body)
        said.append(f"{word}-{step} {w} ↦ " + (f"λ{more}. " if more.strip() else "") + body)
    return text[: m.start()] + m.group(1) + "elim c.if-" + step + ".branch [ " + " | ".join(said) + " ]" + branches_of(text[at + end.end() :])


def tuple_parts(body):
    body = body.strip()
    if not (body.startswith("(") and body.endswith(")")):
        return None
    depth = 0
    for i, ch in enumerate(body):
        depth += {"(": 1, ")": -1, "{": 1, "}": -1}.get(ch, 0)
        if depth == 0 and i < len(body) - 1:
            return None
    parts = [p.strip() for p in split_plain(body[1:-1])]
    return [p for p in parts if p]


def split_plain(text):
    out, depth, last = [], 0, 0
    for i, ch in enumerate(text):
        depth += {"(": 1, ")": -1, "{": 1, "}": -1, "[": 1, "]": -1}.get(ch, 0)
        if ch == "," and depth == 0:
            out.append(text[last:i])
            last = i + 1
    return out + [text[last:]]


def lets_of(body):
    """The lets in front of a body, and what is left."""
    rest, lets = body, ""
    while True:
        m = re.match(r"\s*let ", rest)
        if not m:
            return lets, rest
        depth, i = 0, m.end()
        nested = 0
        while i < len(rest):
            ch = rest[i]
            depth += {"(": 1, ")": -1, "{": 1, "}": -1, "[": 1, "]": -1}.get(ch, 0)
            if depth == 0 and re.match(r"\blet ", rest[i:]) and rest[i - 1].isspace():
                nested += 1
            if depth == 0 and rest[i - 1].isspace() and re.match(r"in\s", rest[i:]):
                if nested == 0:
                    break
                nested -= 1
            i += 1
        if i >= len(rest):
            return lets, rest
        lets += rest[: i + 2]
        rest = rest[i + 2 :]


def pair_parts(body, n):
    """The n parts of `(a, (b, c))`, each with the lets before it."""
    lets, rest = lets_of(body)
    parts = []
    while n > 1:
        more = tuple_parts(rest)
        if not more or len(more) != 2:
            return None
        parts.append(lets + " " + more[0] if lets else more[0])
        extra, rest = lets_of(more[1])
        lets += extra
        n -= 1
    parts.append(lets + " " + rest.strip() if lets else rest.strip())
    return parts


def terms_of(text):
    """The arguments of a call, their brackets off."""
    out, i = [], 0
    while i < len(text):
        if text[i].isspace():
            i += 1
        elif text[i] == "(":
            j = behind(text, i)
            out.append(text[i + 1 : j - 1])
            i = j
        else:
            j = i
            while j < len(text) and not text[j].isspace():
                j += 1
            out.append(text[i:j])
            i = j
    return out


TRIVIAL = re.compile(r"^\s*search rules\s*$")


def turn_file(path, name, of, names, crate, all_functions):
    said = []
    with open(path, encoding="utf-8") as f:
        text = f.read()
    folder = os.path.dirname(path)
    rel = os.path.relpath(folder, os.path.join(crate, "proofs"))
    f = Function(of, names, crate, rel, all_functions, said.append)
    steps = {row[1] for row in f.place.values()}
    for m in re.finditer(r"\.([\w'-]+?)(\d+)(?=[.\s)])", text):
        base, n = dashed(m.group(1)), int(m.group(2))
        fewer = f"{base}{n - 1}" if n > 2 else base
        if n > 1 and f"{base}{n}" not in steps and fewer in steps:
            f.counted.add(base)
    uses, helpers, answers, invariants = [], [], [], []
    head = []
    pieces = chunks(text)
    i = 0
    order = 0
    needs = {dashed(old): (old, new, at) for (old, new), at in zip(of["needs"], of["asked_at"])}
    while i < len(pieces):
        p = pieces[i]
        code = "\n".join(l for l in p.split("\n") if not l.startswith("--"))
        note = "\n".join(l for l in p.split("\n") if l.startswith("--"))
        first = code.split("\n")[0]
        if not code.strip():
            head.append(p)
            i += 1
            continue
        if first.startswith("use "):
            if note and not uses:
                head.append(note)
            if ".Statement." not in first and ".Tie as tie" not in first:
                uses.append(code)
            i += 1
            continue
        m = re.match(r"(?:abbrev |unfoldable |pub )*(%s) :" % ID, first)
        label = m.group(1) if m else None
        body = []
        j = i + 1
        if label:
            while j < len(pieces):
                nxt = "\n".join(l for l in pieces[j].split("\n") if not l.startswith("--"))
                if nxt.startswith("unfolding ") or re.match(r"%s(?=[\s=])" % re.escape(label), nxt) and " : " not in nxt.split("=")[0]:
                    body.append(pieces[j])
                    j += 1
                else:
                    break
        whole = [p] + body
        kind = re.search(r"tie\.(Need-|invariant|decreases|%s)" % ID, code.replace("\n", " "))
        if label and re.search(r"statement M\b|statement \w+$", code) or "tie.close" in "\n".join(body):
            i = j
            continue
        if label and re.match(r"(?:abbrev |pub )*%s : tie\.(invariant|decreases)-" % re.escape(label), code):
            invariants.append((label, whole, note))
            i = j
            continue
        if label and re.search(r": (?:\([^)]*\) → )*[\w.+-]*\bNeed-", code.replace("\n", " ")):
            answers.append((label, whole, note))
            i = j
            continue
        m2 = re.match(r"abbrev (?:pub )?(%s) : tie\.(%s)[^→]*→ tie\.(%s)" % (ID, ID, ID), code.replace("\n", " "))
        if m2:
            f.fns[m2.group(1)] = dashed(m2.group(3))
            i = j
            continue
        helpers.append((label, whole, note))
        i = j
    # a walk that writes its answers in place: invariants and measures first, then the goals in their order
    flat = re.search(r"\(tie\.spec\s(.*)\)\s*$", text.rstrip(), re.S)
    if flat and not answers:
        terms = terms_of(flat.group(1))
        count = 2 * len(of["loops"])
        for n, ((old, new), vs) in enumerate(of["loops"]):
            for k, word in ((2 * n, "invariant"), (2 * n + 1, "decreases")):
                if k < len(terms):
                    m = re.match(r"λ ([^.]*)\.\s(.*)", terms[k], re.S)
                    if m:
                        label = f"{word}-{old}"
                        invariants.append((label, [f"{label} : tie.{word}-{old}", f"{label} {m.group(1)} = {m.group(2)}"], ""))
        for (old, new), term in zip(of["needs"], terms[count:]):
            m = re.match(r"λ ([^.]*)\.\s(.*)", term, re.S)
            if m:
                answers.append((old, [f"{old} : tie.Need-{old}", f"{old} {m.group(1)} = {m.group(2)}"], ""))
            elif not re.fullmatch(ID, term):
                said.append(f"hand: {rel}: {new}: {term[:60]}")
        if len(terms) != count + len(of["needs"]):
            said.append(f"hand: {rel}: {len(terms)} terms for {count} and {len(of['needs'])} goals")
    lines_inv, lines_ans = [], []
    old_vars = {}
    # invariants and measures
    renamed = {}
    for label, whole, note in invariants:
        code = whole[0]
        old = re.search(r"tie\.(invariant|decreases)-([\w-]+)", code)
        idx = None
        for n, ((o, new), vs) in enumerate(of["loops"]):
            if dashed(o) == dashed(old.group(2)):
                idx = n
        if idx is None:
            said.append(f"hand: {rel}: no loop {old.group(2)}")
            continue
        (o, new), vs = of["loops"][idx]
        changed = of["changed"][idx]
        newname = f"{old.group(1)}-{new}"
        renamed[label] = newname
        body = "\n".join(b for b in whole[1:] if not b.startswith("unfolding"))
        unfold = [b for b in whole[1:] if b.startswith("unfolding")]
        m = re.match(r"(?:--[^\n]*\n)*%s ([^=]*?)=(.*)" % re.escape(label), body, re.S)
        params = m.group(1).split()
        want = []
        for v, ch in zip(vs, changed):
            want.append((f"l.initial.{v}" if ch else f"l.{v}"))
        want += [f"l.{v}" for v, ch in zip(vs, changed) if ch]
        if len(params) != len(want):
            said.append(f"hand: {rel}: {label} has {len(params)} variables, and the loop {len(want)}: {' '.join(params)} | {' '.join(want)}")
        sub = dict(zip(params, want))
        sub.pop("_", None)
        term = PATHS.sub(lambda k: sub[k.group(1)] + k.group(2) if k.group(1) in sub else k.group(0), m.group(2))
        lines_inv.append((note + "\n" if note else "") + f"abbrev pub {newname} : goal.{newname}\n" + "".join(u + "\n" for u in unfold) + f"{newname} l ={term}")
    # answers: a goal goes by its older name, or else by its place among the others
    place_of = {dashed(old): n for n, (old, new) in enumerate(of["needs"])}
    wanted = []
    for label, whole, note in answers:
        key = dashed(re.search(r"\bNeed-([\w+'-]+)", whole[0].replace("\n", " ")).group(1))
        cand = [key, re.sub(r"^overflow-", "", key), re.sub(r"^nonzero-", "", key), key.replace("slice-bounds-", "part-")]
        wanted.append((key, next((place_of[k] for k in cand if k in place_of), None)))
    hits = [n for _, n in wanted]
    for n, (key, at) in enumerate(wanted):
        if at is None and not re.search(r"(same-length|enum-told|enum-known|shape)", key):
            low = max([h for h in hits[:n] if h is not None], default=-1)
            high = min([h for h in hits[n + 1 :] if h is not None], default=len(of["needs"]))
            class_of = lambda it: re.sub(r"^(overflow|nonzero)-", "", it).split("-")[0]
            free = [k for k in range(low + 1, high) if k not in hits and class_of(dashed(of["needs"][k][0])) == class_of(key)]
            if free:
                hits[n] = free[0]
    order = 0
    for (label, whole, note), at in zip(answers, hits):
        need = re.search(r"\bNeed-([\w+'-]+)", whole[0].replace("\n", " ")).group(1)
        key = dashed(need)
        hit = None if at is None else (of["needs"][at][0], of["needs"][at][1], of["asked_at"][at])
        if hit is None:
            if re.search(r"(same-length|enum-told|enum-known|shape)", key):
                continue
            said.append(f"hand: {rel}: no goal for {need}")
            continue
        old, new, (place, new_place) = hit
        if re.match(r"(shape_of|enum_told|enum_known)", new):
            continue
        body = "\n".join(b for b in whole[1:] if not b.startswith("unfolding"))
        unfold = [b for b in whole[1:] if b.startswith("unfolding")]
        m = re.match(r"(?:--[^\n]*\n)*%s ([^=]*?)=(.*)" % re.escape(label), body, re.S)
        if not m:
            said.append(f"hand: {rel}: {label} is not read")
            continue
        term = m.group(2)
        if TRIVIAL.match(term):
            continue
        fields = of["asked"].get(old) or of["asked"].get(new) or []
        if new.startswith("returns") and not fields:
            own = f.all.get((os.path.basename(crate), None, os.path.basename(folder).lstrip("+"))) or f.all.get((os.path.basename(crate), os.path.basename(folder).lstrip("+")))
            if own and len(own[2]) > 1:
                fields = own[2]
        parts = pair_parts(term, len(fields)) if len(fields) > 1 else None
        todo = [(new, term)]
        if parts:
            todo = [(f"{new}-clause-{k}", t) for k, t in zip(fields, parts)]
        elif len(fields) > 1:
            said.append(f"hand: {rel}: {new} answers {len(fields)} clauses as a whole: {' '.join(fields)}")
        for goal, t in todo:
            if TRIVIAL.match(lets_of(t)[1]):
                continue
            try:
                t, left = f.turn(t, dashed(place), goal)
            except Turned as e:
                left = [str(e)]
            for w in left:
                said.append(f"hand: {rel}: {goal}: {w}")
            if not t.startswith((" ", "\n")):
                t = " " + t
            lines_ans.append((note + "\n" if note else "") + f"pub {goal} : goal.{goal}\n" + "".join(u + "\n" for u in unfold) + f"{goal} c ={t}")
    # helpers, those over a place among them
    help_texts = []
    for label, whole, note in helpers:
        t = "\n".join(whole)
        m = re.search(r"\((%s) : tie\.(%s)( [^)]*)?\)" % (ID, ID), t)
        if m:
            place = dashed(m.group(2))
            try:
                t2 = t.replace(m.group(0), f"({m.group(1)} : {f.new_place.get(place, place)})")
                f.shared.add(f.new_place.get(place, place))
                t2, left = f.turn(t2, place)
                for w in left:
                    said.append(f"hand: {rel}: {label}: {w}")
                t = t2
            except Turned as e:
                said.append(f"hand: {rel}: {label}: {e}")
            help_texts.append((label, t, True))
        elif "tie." in t:
            said.append(f"hand: {rel}: {label} speaks of the tie")
            help_texts.append((label, t, True))
        else:
            help_texts.append((label, t, False))
    module = f"Rattle.{os.path.basename(crate)}.proofs.{rel.replace(os.sep, '.')}"
    names_of = lambda t: [m.group(1) for m in re.finditer(r"^\s*(?:abbrev |unfoldable |pub )*(?:record |data )?(%s)\s*(?:[({][^\n]*[)}]\s*)?:" % ID, t, re.M)]
    own_names = [n for _, t, placed in help_texts if not placed for n in names_of(t)]
    inv_text = "\n\n".join(lines_inv)
    needs_helpers = any(re.search(r"(?<![\w'-])%s(?![\w'-])" % re.escape(n), inv_text) for n in own_names)
    public = lambda t: re.sub(r"^(\s*)(abbrev |unfoldable )?(?!pub |module |unfolding |use |--)((?:record |data )?%s\s*(?:[({][^\n]*[)}]\s*)?:(?!=))" % ID, lambda m: m.group(1) + (m.group(2) or "") + "pub " + m.group(3), t, flags=re.M)
    out_inv, out_ans = None, None
    title = "\n".join(head)
    if lines_inv:
        shared = [public(t) for _, t, placed in help_texts if not placed] if needs_helpers else []
        out_inv = (title + "\n" if title else "") + "\n".join(uses + [f"use {module}.Given as goal"]) + "\n\n" + "\n\n".join(shared + lines_inv) + "\n"
    rest = [t for _, t, placed in help_texts if placed or not (needs_helpers and lines_inv)]
    if lines_ans:
        more = []
        if needs_helpers and lines_inv:
            body = "\n".join(lines_ans + rest)
            cited = [n for n in dict.fromkeys(own_names) if re.search(r"(?<![\w'.-])%s(?![\w'-])" % re.escape(n), body)]
            if cited:
                more = [f"use {module}.Invariants.{{{', '.join(cited)}}}"]
        arms = sorted(set(re.findall(r"(?<![\w.-])((?:then|else)-[\w'+-]+) \w+ ↦", "\n".join(lines_ans + rest))))
        arms = sorted(f.shared) + arms
        if arms:
            more.append(f"use {module}.Goals.{{{', '.join(arms)}}}")
        out_ans = (title + "\n" if title else "") + "\n".join(uses + [f"use {module}.Goals as goal"] + more) + "\n\n" + "\n\n".join(rest + lines_ans) + "\n"
    os.remove(path)
    if out_inv:
        with open(os.path.join(folder, "Invariants.antt"), "w", encoding="utf-8") as g:
            g.write(out_inv)
    if out_ans:
        with open(os.path.join(folder, "Answers.antt"), "w", encoding="utf-8") as g:
            g.write(out_ans)
    if not os.listdir(folder):
        os.rmdir(folder)
    for s in dict.fromkeys(said):
        print(s)


def main():
    names, crate, only = sys.argv[1], os.path.normpath(sys.argv[2]), sys.argv[3:]
    with open(names, encoding="utf-8") as f:
        table = json.load(f)
    root = os.path.dirname(os.path.dirname(os.path.abspath(crate)))
    every = functions(os.environ.get("PORT_ROOT", root))
    for path in sorted(glob.glob(os.path.join(crate, "proofs", "**", "Proof.antt"), recursive=True)):
        rel = os.path.relpath(os.path.dirname(path), os.path.join(crate, "proofs"))
        if only and rel not in only:
            continue
        if os.path.basename(rel).startswith("+"):
            print(f"hand: {rel}: a cycle")
            continue
        key = f"Rattle-{os.path.basename(crate)}-proofs.{rel.replace(os.sep, '.')}.Lts"
        if key not in table:
            print(f"hand: {rel}: no names for it ({key})")
            continue
        turn_file(path, rel, table[key], table, crate, every)


main()
