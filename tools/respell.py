#!/usr/bin/env python3
"""Spells the repository's own names of specs/ and proofs/ as today's Rattle does: words in snake case, types and modules in camel case.

usage: python3 tools/respell.py [ROOT]     once, after the kit's port.py, at the top of the repository

It collects each name that an .antt file of crates/ declares outside of a proof of one function, and spells it anew in every file that declares or
imports it: in .antt and .rt files, in the must-fail edits, and between backquotes in comments and documents. A name of the library keeps its spelling.
The names in front of a proof's statement (proofs/F/Proof.antt) are spelled as the prover spells them today: a word of the source keeps its underscores, and
of two names that Rattle makes a dash joins the parts. It prints the names that would fall together, and does nothing then.
"""

import os
import re
import sys

# Relations and statements, which are types.
TYPES = {"atHandler": "AtHandler", "pushedAt": "PushedAt", "enters": "IsEntry"}
# Lemmas that port.py spelled as their function is now spelled.
LEMMAS = {"spelled_out": "spelled_out_lem", "in_rows": "in_rows_lem"}
TOKEN = re.compile(r"[^\s(){}\[\],;.`\"]+")
DECLARED = re.compile(r"^\s*(?:(?:abbrev|unfoldable|pub)\s+)*([^\s(){}\[\],;.`\"]+) :(?:\s|$)")
TYPE = re.compile(r"^\s*(?:pub\s+)?(?:record|data)\s+(\S+)")
USE = re.compile(r"^\s*(?:ghost )?(?:pub )?use ([^{;]*?)(?:\.\{([^}]*)\})?(?: as (\S+?))?;?\s*$")
KEEP = {"λ"}


def snake(name):
    if name in TYPES:
        return TYPES[name]
    if name[:1].isupper() or not re.search(r"[a-z]", name):
        return name
    name = re.sub(r"(?<=[a-z0-9])([A-Z])", lambda m: "_" + m.group(1).lower(), name)
    return name.replace("-", "_")


def read(path):
    with open(path, encoding="utf-8") as f:
        return f.read()


def files(root, *ends):
    for folder, dirs, names in os.walk(root):
        dirs[:] = sorted(d for d in dirs if d not in ("out", "target", ".git"))
        for name in sorted(names):
            if name.endswith(ends):
                yield os.path.join(folder, name)


def code(line):
    """The line in front of its comment, and the comment."""
    at = line.find("--")
    while at > 0 and not line[at - 1].isspace():
        at = line.find("--", at + 2)
    return (line, "") if at < 0 else (line[:at], line[at:])


def one_proof(path):
    return os.path.basename(path) == "Proof.antt"


def crate_names(root):
    return sorted(c for c in os.listdir(os.path.join(root, "crates")) if os.path.isdir(os.path.join(root, "crates", c)))


def declared(text):
    """The names that a file of antt declares: with the fields of its records."""
    names = set()
    for line in text.split("\n"):
        line = code(line)[0]
        m = TYPE.match(line)
        if m:
            names.add(m.group(1))
            continue
        m = DECLARED.match(line)
        if m:
            names.add(m.group(1))
    return names


def imports(text, own):
    """The names that a file takes: those of the repository, and those of the library."""
    ours, theirs = set(), set()
    for line in text.split("\n"):
        m = USE.match(code(line)[0])
        if not m:
            continue
        mine = re.match(r"Rattle\.(\w+)\.", m.group(1) + ".")
        (ours if mine and mine.group(1) in own else theirs).update(w.strip() for w in (m.group(2) or "").split(",") if w.strip())
    return ours, theirs


def main(root):
    own = set(crate_names(root))
    inside = os.path.join(root, "crates")
    texts = {p: read(p) for p in files(inside, ".antt", ".rt")}
    names = {}
    for p, t in texts.items():
        if p.endswith(".antt") and not one_proof(p):
            names[p] = declared(t)
    every = set().union(*names.values())
    # A lemma, whose words a dash joined, that would have its function's name.
    functions = {snake(n) for n in every if "-" not in n}
    new = {n: snake(n) for n in every if snake(n) != n}
    new.update({n: s + "_lem" for n, s in new.items() if "-" in n and s in functions})
    new.update({n: s for n, s in LEMMAS.items() if n in every})
    # Two names of one file, or a name that it takes, that would be one.
    bad = []
    for p, t in texts.items():
        ours, theirs = imports(t, own)
        here = names.get(p, set()) | ours | theirs
        spelled = {}
        for n in here:
            s = n if n in theirs and n not in names.get(p, set()) else new.get(n, snake(n) if n in ours else n)
            if s in spelled and spelled[s] != n:
                bad.append(f"{p}: {n} and {spelled[s]} are both {s}")
            spelled[s] = n
    if bad:
        print("\n".join(bad))
        return 1
    changed = 0
    for p, t in texts.items():
        theirs = imports(t, own)[1]
        local = {}
        if one_proof(p):
            local = {n: snake(n) for n in declared(t) if snake(n) != n and not re.search(r"\btie\.\S*" , line_of(t, n))}
        spell = {**new, **local}

        def word(m):
            w = m.group(0)
            return w if w in theirs else spell.get(w, w)

        def line(l):
            if p.endswith(".rt"):
                at = l.find("//")
                front, back = (l, "") if at < 0 else (l[:at], l[at:])
            else:
                front, back = code(l)
            return TOKEN.sub(word, front) + re.sub(r"`[^`]*`", lambda m: TOKEN.sub(word, m.group(0)), back)

        turned = "\n".join(line(l) for l in t.split("\n"))
        if turned != t:
            changed += 1
            with open(p, "w", encoding="utf-8") as f:
                f.write(turned)
    now = {new.get(n, n) for n in every}

    # Where port.py was not: the spelling of LANDED stands.
    def older(m):
        w = m.group(0)
        return new[w] if w in new and w not in LEMMAS else snake(w) if w not in every and snake(w) in now else w

    for p in files(inside, ".edit"):
        t = read(p)
        turned = "\n".join(TOKEN.sub(older, l) if l.startswith(("old:", "new:")) else l for l in t.split("\n"))
        if turned != t:
            changed += 1
            with open(p, "w", encoding="utf-8") as f:
                f.write(turned)
    for p in [os.path.join(root, "README.md")] + list(files(os.path.join(root, "docs"), ".md")):
        t = read(p)
        turned = re.sub(r"`[^`\n]*`", lambda m: TOKEN.sub(older, m.group(0)), t)
        if turned != t:
            changed += 1
            with open(p, "w", encoding="utf-8") as f:
                f.write(turned)
    print(f"respell: {len(new)} names, {changed} files")
    return 0


def line_of(text, name):
    for l in text.split("\n"):
        m = DECLARED.match(l)
        if m and m.group(1) == name:
            return l
    return ""


if __name__ == "__main__":
    raise SystemExit(main(sys.argv[1] if len(sys.argv) > 1 else "."))
