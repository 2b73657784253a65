#!/usr/bin/env python3
"""Spells the definitions and lemmas of the crates anew, once, after the kit's port.py: words in snake case where they were in camel case or had hyphens.

usage: tools/respell.py [--list]      at the top of the repository; --list prints old and new names and writes nothing

Types, modules, names from a library, generated names, functions of src/ and their proofs' folders keep their spelling. Where a lemma would meet the
function that it speaks of (the name in camel case is the function), it gets the ending _lem. It stops where two names of one file would still meet.
"""
import os
import re
import sys

NAME = r'[^\s(){}.;,@"«»\[\]`:]+'
TOKEN = re.compile(r'(?<![^\s(){}.;,@"«»\[\]`:])' + NAME)
OWN = re.compile(r"Rattle\.(\w+)\.")
# A lemma that would meet the function that it speaks of: its name, with the ending _lem.
MEET = {}


def crates():
    return sorted(c for c in os.listdir("crates") if os.path.isdir(os.path.join("crates", c, "src")))


def files(ends):
    for c in crates():
        for folder, dirs, names in os.walk(os.path.join("crates", c)):
            dirs[:] = sorted(d for d in dirs if d not in ("out", "data"))
            for f in sorted(names):
                if f.endswith(ends):
                    yield os.path.join(folder, f)


def snake(name):
    """The new spelling of a name, or the same where it has one already."""
    if name in MEET:
        return MEET[name]
    if not re.match(r"[a-z]", name) or not re.search(r"[A-Z]|-", name):
        return name
    if re.search(r"[^\w'⁻¹₀-₉ᵇℕℤ-]", name):
        return name
    out = re.sub(r"-", "_", name)
    out = re.sub(r"(?<=[a-z0-9])([A-Z])(?=[a-z]|$|_)", lambda m: "_" + m.group(1).lower(), out)
    return out


def meets(names):
    """Fills MEET: of the names with one new spelling, the one in camel case has it, or else the one that has it already."""
    groups = {}
    for n in names:
        groups.setdefault(snake(n), set()).add(n)
    for new, olds in groups.items():
        if len(olds) > 1:
            first = min(olds, key=lambda n: (not re.search(r"[a-z0-9][A-Z]", n) or "-" in n, n != new, n))
            for o in olds - {first}:
                MEET[o] = new + "_lem"


def imported(text, own):
    """The names that a file's imports bring from a library."""
    found = set()
    for m in re.finditer(r"(?m)^\s*(?:ghost )?use ([^\s;{]+?)\.?(?:\{([^}]*)\})?(?: as ([^\s;]+))?;?\s*$", text):
        head = OWN.match(m.group(1) + ".")
        if head and head.group(1) in own:
            continue
        for it in (m.group(2) or "").split(","):
            words = it.split()
            if words:
                found.add(words[-1] if "as" in words else words[0])
                if "as" in words:
                    found.add(words[0])
    return found


def declared(texts):
    """The names that the crates' own antt declares: a line's first name before a colon, fields and constructors too."""
    found = set()
    for p, t in texts.items():
        if p.endswith(".antt"):
            for m in re.finditer(r"(?m)^ *(?:(?:pub|abbrev|unfoldable|data|record) +)*(" + NAME + r")(?= [:({])", t):
                found.add(m.group(1))
    return found


def clauses(text):
    """The spans of a source's text that are antt: imports and clauses."""
    spans = [m.span() for m in re.finditer(r"(?m)^\s*ghost use [^;]*;", text)]
    for m in re.finditer(r"(?m)^\s*(?:requires|ensures|ghost)\b[^{\n]*\{|\b(?:requires|ensures) \w+ \{|\b(?:requires|ensures) \{", text):
        depth, i = 1, m.end()
        while depth and i < len(text):
            depth += {"{": 1, "}": -1}.get(text[i], 0)
            i += 1
        spans.append((m.end(), i))
    return spans


def main(argv):
    own = set(crates())
    texts = {p: open(p, encoding="utf-8").read() for p in files((".antt", ".rt", ".edit"))}
    names = declared(texts)
    meets(names)
    changed, bad = {}, []
    for p, t in texts.items():
        foreign = imported(t, own)
        generated = p.endswith("/Proof.antt")
        met = {}

        def turn(m):
            old = m.group(0)
            behind = m.string[max(0, m.start() - 5) : m.start()]
            if behind.endswith(".") and old in MEET and "_" in old:
                return old
            if old in foreign or (generated and (behind.endswith(("tie.", ")")) or behind.endswith("."))) or old not in names:
                if not behind.endswith("."):
                    met.setdefault(old, set()).add(old)
                return old
            new = snake(old)
            met.setdefault(new, set()).add(old)
            if new != old:
                changed[old] = new
            return new

        def line(l):
            """Outside comments each name; in a comment those in backticks."""
            if l.lstrip().startswith(("--", "//")):
                return re.sub(r"`([^`]*)`", lambda m: "`" + re.sub(NAME, lambda k: snake(k.group(0)) if k.group(0) in names else k.group(0), m.group(1)) + "`", l)
            return TOKEN.sub(turn, l)

        if p.endswith(".rt"):
            spans = clauses(t)
            new, at = "", 0
            for a, b in sorted(spans):
                if a < at:
                    continue
                new += "".join(line(l) if l.lstrip().startswith("//") else l for l in t[at:a].splitlines(keepends=True))
                new += TOKEN.sub(turn, t[a:b])
                at = b
            new += "".join(line(l) if l.lstrip().startswith("//") else l for l in t[at:].splitlines(keepends=True))
        elif p.endswith(".edit"):
            new = t if "file: src/" in t else "".join(line(l) for l in t.splitlines(keepends=True))
        else:
            new = "".join(line(l) for l in t.splitlines(keepends=True))
        bad += [(p, n, sorted(o)) for n, o in met.items() if len(o) > 1]
        if new != t and "--list" not in argv and not bad:
            texts[p] = (t, new)
    if "--list" in argv:
        for o in sorted(changed):
            print(o, changed[o])
    for p, n, o in bad:
        print(f"meet: {p}: {n}: {' '.join(o)}")
    if bad or "--list" in argv:
        return 1 if bad else 0
    for p, it in texts.items():
        if isinstance(it, tuple):
            with open(p, "w", encoding="utf-8") as f:
                f.write(it[1])
    print(f"respell: {len(changed)} names in {sum(isinstance(t, tuple) for t in texts.values())} files")
    return 0


if __name__ == "__main__":
    raise SystemExit(main(sys.argv[1:]))
