#!/usr/bin/env python3
"""Respells the repository's own definitions, lemmas and fields as today's Rattle spells names, once, behind port.py.

usage: tools/port-names.py [FOLDER] [--dry]

Words are in snake case: `maxCost` is `max_cost`, `x-some` is `x_some`. A dash stays where each of its parts is the name of a definition, since it joins two
names. Types, facts and modules, which begin with a capital, keep theirs; a word behind a dash in such a name stays too. Functions of src/, exported names,
strings and comments' plain words are left alone. It lists those.
"""
import os
import re
import sys

HEAD = re.compile(r"^\s*(?:abbrev |unfoldable |pub |record |data |ruleset )*([^\s:(){}=|.,;]+)\s*((?:[({].*[)}]\s*)*):(?!=)(.*)$")
RECORD = re.compile(r"^\s*(?:pub |abbrev )*(?:record|data|ruleset)\s+([^\s:(){}=]+)")
MADE = re.compile(r"^\s*tie\.|^\s*(?:\{[^}]*\}\s*→\s*)?statement\b|^\s*goal\.|\bNeed-|\bAfter-")
WORD = re.compile(r"[^\s(){}\[\];,.:«»`|]+")


def files(root, ends):
    for folder, dirs, names in os.walk(root):
        dirs[:] = sorted(d for d in dirs if d not in ("out", "target", ".git", "node_modules"))
        for name in sorted(names):
            if name.endswith(ends):
                yield os.path.join(folder, name)


def own_names(root):
    """Names that the repository's .antt files define: at top level, in sections, as fields and as constructors."""
    found = {}
    for path in files(os.path.join(root, "crates"), (".antt",)):
        with open(path, encoding="utf-8") as f:
            text = f.read()
        for line in text.split("\n"):
            if line.lstrip().startswith(("--", "use ", "let ", "λ", "elim", "|")):
                continue
            r = RECORD.match(line)
            if r:
                found.setdefault(r.group(1), path)
            m = HEAD.match(line)
            if m and not MADE.match(m.group(3)):
                found.setdefault(m.group(1), path)
    return found


def snake(word):
    return re.sub(r"(?<=[a-z0-9'₀₁₂])([A-Z])", lambda m: "_" + m.group(1).lower(), word)


def respelt(name, defined):
    """The name in today's spelling, or the name itself."""
    if not re.match(r"[a-z]", name) or not re.fullmatch(r"[\w'-]+", name) or "--" in name:
        return name
    parts = name.split("-")
    joins = len(parts) > 1 and all(re.match(r"[A-Z]", p) or p in defined or snake(p) in defined for p in parts)
    new = [p if re.match(r"[A-Z]", p) else snake(p) for p in parts]
    return ("-" if joins else "_").join(p if joins else p[:1].lower() + p[1:] for p in new)


def words_of(path):
    """The words of a file, its comments aside."""
    mark = "--" if path.endswith(".antt") else "//"
    with open(path, encoding="utf-8") as f:
        return set(WORD.findall("\n".join(line.split(mark)[0] for line in f.read().split("\n"))))


def table(root):
    own = own_names(root)
    plain = {n for n in own if re.fullmatch(r"[a-z][A-Za-z0-9']*", n)}
    turned = {}
    for name in own:
        new = respelt(name, plain)
        if new != name:
            turned[name] = new
    # Where two names would be one and some file has both, the definition keeps the name, and the lemma ends in _lem.
    by_new = {}
    for name in own:
        by_new.setdefault(turned.get(name, name), []).append(name)
    several = {new: names for new, names in by_new.items() if len(names) > 1}
    words = [words_of(path) for path in files(os.path.join(root, "crates"), (".antt", ".rt"))] if several else []
    clashes = []
    for new, names in several.items():
        if not any(len(has.intersection(names)) > 1 for has in words):
            continue
        first = min(names, key=lambda n: ("-" in n, "_" in n))
        for name in names:
            if name != first:
                turned[name] = new + "_lem"
                clashes.append((new, first, name))
    return turned, clashes


def foreign(text, crates):
    """The names that a file takes from libraries that are not the repository's."""
    taken = set()
    for m in re.finditer(r"^\s*(?:ghost )?use ([\w.'+-]+)\.\{([^}]*)\}", text, re.M):
        path = m.group(1).split(".")
        if path[0] != "Rattle" or path[1] not in crates:
            taken.update(word.split(" as ")[0].strip() for word in m.group(2).split(","))
    return taken


def turn(text, turned, code):
    """Every whole word of `turned` in the text; in a source file's comments only words that no plain sentence has."""
    # A path keeps its folders' names, which are those of functions; so does code, where a lemma has a function's name.
    turned = {k: v for k, v in turned.items() if code == "--" or not re.fullmatch(r"[a-z0-9_']+", k)}

    def word(m):
        return turned.get(m.group(0), m.group(0))

    out = []
    for line in text.split("\n"):
        at = line.find(code) if code else -1
        head, tail = (line, "") if at < 0 else (line[:at], line[at:])
        parts = re.split(r'("(?:[^"\\]|\\.)*"|\bRattle\.[\w.+-]+)', head)
        head = "".join(p if i % 2 else WORD.sub(word, p) for i, p in enumerate(parts))
        tail = WORD.sub(lambda m: turned[m.group(0)] if m.group(0) in turned and "-" not in m.group(0) else m.group(0), tail)
        tail = re.sub(r"`([^`]+)`", lambda m: "`" + WORD.sub(word, m.group(1)) + "`", tail)
        out.append(head + tail)
    return "\n".join(out)


def main():
    words = [w for w in sys.argv[1:] if w != "--dry"]
    root = words[0] if words else "."
    turned, clashes = table(root)
    for new, a, b in clashes:
        print(f"fall together: {a} is {new}, and {b} {new}_lem")
    if "--dry" in sys.argv:
        for k in sorted(turned):
            print(k, turned[k])
        return
    crates = set(os.listdir(os.path.join(root, "crates")))
    changed = 0
    for path in files(os.path.join(root, "crates"), (".antt", ".rt", ".edit")):
        with open(path, encoding="utf-8") as f:
            old = f.read()
        own = {k: v for k, v in turned.items() if k not in foreign(old, crates)}
        new = turn(old, own, "--" if path.endswith(".antt") else "//" if path.endswith(".rt") else None)
        if new != old:
            changed += 1
            with open(path, "w", encoding="utf-8") as f:
                f.write(new)
    print(f"port-names: {len(turned)} names, {changed} files")


main()
