#!/usr/bin/env python3
"""Brings the repository's own definitions and lemmas to snake case, once, after the port's own script.

Usage: python3 tools/respell.py    (at the top of the repository)

A name is respelled where it is declared in a crate's specs/ or in a file right in its proofs/, and is in
camel case: `clauseAt` becomes `clause_at`, and the lemma `clauseAt-next` becomes `clause_at-next`. The same
is done wherever the name is cited: in specs/, proofs/, the clauses and the ghost imports of src/, the edits
of must-fail/, and within backquotes in comments and pages. Functions of src/, goals of proofs/F/, exported
C names, strings, inputs and outputs keep their names. It stops where two names would fall together.
"""
import re
import sys
from pathlib import Path

ROOT = Path(".")
DECLARED = re.compile(r"^ *(?:abbrev |unfoldable )?(?:pub )?([a-z][^\s:(){}]*) :", re.M)
TOKEN = re.compile(r"[A-Za-z0-9_'₀-₉][A-Za-z0-9_'₀-₉?-]*")
# A lemma that the port's own script gave the spelling of the definition it speaks of: it gets its old one back.
LEMMAS = {"undoing": {"past_head": "past-head"}}


def snake(name):
    name = name.replace("getD", "get_or")
    return re.sub(r"([a-z0-9'])([A-Z])", r"\1_\2", name).lower()


def theory_files():
    for crate in sorted((ROOT / "crates").iterdir()):
        yield from sorted(crate.glob("specs/**/*.antt"))
        yield from sorted(crate.glob("proofs/*.antt"))


def declared():
    names = set()
    for path in theory_files():
        names |= set(DECLARED.findall(path.read_text()))
    return names


def local_names():
    """Variables, fields and constructors in camel case: none of the library's has a capital but after an underscore."""
    found = set()
    for path in theory_files():
        found |= set(TOKEN.findall(path.read_text()))
    return {t for t in found if re.fullmatch(r"[a-z][a-z]+(?:[A-Z][a-z]+)+", t)}


def table():
    names = {n for n in declared() | local_names() if re.search(r"[A-Z]", n)}
    return {n: snake(n) for n in sorted(names)}


def refuse_collisions(names):
    """No two names fall together, and none with a word that stands already."""
    standing = set()
    for path in theory_files():
        standing |= set(TOKEN.findall(path.read_text())) - set(LEMMAS.get(path.parts[1], ()))
    news = sorted(names.values())
    twice = [n for n, m in zip(news, news[1:]) if n == m]
    taken = [n for n in news if n in standing]
    if twice or taken:
        sys.exit(f"respell: names that fall together: {twice + taken}")


def respell(text, names):
    return TOKEN.sub(lambda m: names.get(m.group(0), m.group(0)), text)


def respell_proof(text, names):
    """A function's proof: the names of its goals stay, both where they are answered and where they are listed."""
    goals = set(re.findall(r"^(?:pub )?(\S+) : (?:\{[^}]*\} → )?(?:tie|goal)\.", text, re.M))
    local = {n: new for n, new in names.items() if n not in goals}
    return re.sub(r"tie\.[^\s()]+|" + TOKEN.pattern, lambda m: local.get(m.group(0), m.group(0)), text)


def respell_source(text, names):
    """Clauses and ghost imports whole; of comments only what stands within backquotes; code and strings not at all."""
    out = []
    depth = 0
    inside = False
    for line in text.split("\n"):
        stripped = line.strip()
        if stripped.startswith("//"):
            out.append(re.sub(r"`[^`]*`", lambda m: respell(m.group(0), names), line))
            continue
        if not inside and re.match(r"(ghost |requires|ensures|abbrev )", stripped):
            inside = True
            depth = 0
        if inside:
            out.append(respell(line, names))
            depth += line.count("{") - line.count("}")
            if depth <= 0 and ("}" in line or line.rstrip().endswith(";")):
                inside = False
            continue
        out.append(line)
    return "\n".join(out)


def respell_edit(text, names):
    out = []
    for line in text.split("\n"):
        if line.startswith(("old:", "new:")):
            out.append(respell(line, names))
        else:
            out.append(re.sub(r"`[^`]*`", lambda m: respell(m.group(0), names), line))
    return "\n".join(out)


def respell_page(text, names):
    return re.sub(r"`[^`\n]*`", lambda m: respell(m.group(0), names), text)


def main():
    names = table()
    refuse_collisions(names)
    for path in sorted((ROOT / "crates").glob("*/**/*")):
        if not path.is_file() or "/out/" in str(path):
            continue
        if path.suffix == ".antt":
            kind = respell_proof if path.parent.name != "proofs" and "/proofs/" in str(path) else respell
        elif path.suffix == ".rt":
            kind = respell_source
        elif path.suffix == ".edit":
            kind = respell_edit
        else:
            continue
        text = path.read_text()
        new = kind(respell(text, LEMMAS.get(path.parts[1], {})), names)
        if new != text:
            path.write_text(new)
    for path in [ROOT / "README.md", *sorted((ROOT / "docs").glob("**/*.md"))]:
        text = path.read_text()
        new = respell_page(text, names)
        if new != text:
            path.write_text(new)


if __name__ == "__main__":
    main()
