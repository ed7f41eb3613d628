#!/usr/bin/env python3
"""Brings the repository's own definitions and lemmas to today's spelling, once, behind port.py.

usage: python3 tools/respell.py        at the top of the repository

A word is in snake case, a type or a relation in upper camel case. A name that the kit's library gives, or that the
check makes of the code (a goal, a step, a field of a step), keeps its spelling. The crate `log` is renamed: the kit
has a library of that name. Names that would fall together are printed.
"""

import os
import re
import subprocess
import sys

WORD = re.compile(r"(?<![\w'◌₀-₉-])[A-Za-z][\w'₀-₉]*(?:-[\w'₀-₉]+)+(?![\w'-])")
NAME = r"[A-Za-z][\w'₀-₉-]*"
# what a signature declares: its names, and for a record or a data the name before the parameters
DECLARED = re.compile(rf"^\s*(?:(?:pattern|unfoldable|abbrev|pub|axiom)\s+)*({NAME}(?: {NAME})*)(?:\s*\{{[^}}]*\}})?\s*:(?!:)", re.M)
TYPES = re.compile(rf"^\s*(?:pub\s+)?(?:record|data|module)\s+({NAME})", re.M)
ALIAS = re.compile(rf"\bas ({NAME})")
GOAL = re.compile(r"^\s*(?:(?:unfoldable|abbrev|pub)\s+)*([A-Za-z][\w'-]*)\s*:\s*(?:goal|need|given|Given|Goals)\.", re.M)
USE = re.compile(r"^(?:ghost |pub )*use ([^\s{;]+?)\.?(?:\{([^}]*)\})?(?: as [^\s;]+)?;?$", re.M)
OWN_FOLDER = re.compile(r"crates/\w+/(?:specs/.*|proofs/[A-Z]\w*)\.antt$")


def spelled(name):
    parts = name.split("-")
    if name[0].isupper():
        return "".join(p[:1].upper() + p[1:] for p in parts)
    return "_".join(p[:1].lower() + p[1:] if len(p) == 1 else p for p in parts)


def names_of(text):
    """What a text declares, and the names that it gives to what it imports."""
    for m in DECLARED.finditer(text):
        words = m[1].split(" ")
        if words[0] not in ("record", "data", "module", "use", "let"):
            yield from words
    for m in TYPES.finditer(text):
        yield m[1]
    for m in USE.finditer(text):
        yield from ALIAS.findall(m[0])


def texts(top):
    for folder, dirs, files in os.walk(os.path.join(top, "crates")):
        dirs[:] = sorted(d for d in dirs if d != "out")
        for f in sorted(files):
            if f.endswith((".antt", ".rt", ".edit")):
                yield os.path.join(folder, f)


def pages(top):
    yield os.path.join(top, "README.md")
    for f in sorted(os.listdir(os.path.join(top, "docs"))):
        if f.endswith(".md"):
            yield os.path.join(top, "docs", f)


def imported(text):
    """The names that a text takes from libraries: the kit's, not this repository's."""
    names = set()
    for m in USE.finditer(text):
        path = m[1].split(".")
        own = path[0] == "Rattle" and len(path) > 1 and path[1] in CRATES
        if own:
            continue
        for it in (m[2] or "").split(","):
            it = it.strip()
            if it:
                names.add(it.split(" as ")[0].strip())
    return names


CRATES = set()


def main():
    top = subprocess.run(["git", "rev-parse", "--show-toplevel"], capture_output=True, text=True, check=True).stdout.strip()
    with open(os.path.join(top, "crates.txt"), encoding="utf-8") as f:
        CRATES.update(l.split(":")[0].split()[0] for l in f if ":" in l)
    files = {}
    for p in texts(top):
        with open(p, encoding="utf-8") as f:
            files[p] = f.read()
    declared, plain = set(), set()
    for p, t in files.items():
        if p.endswith(".edit"):
            continue
        if p.endswith(".rt"):
            for m in USE.finditer(t):
                declared.update(n for n in ALIAS.findall(m[0]) if "-" in n)
            continue
        goals = set(GOAL.findall(t))
        for name in names_of(t):
            if name not in goals:
                (declared if "-" in name else plain).add(name)
    # what the check makes of the code stays: goals and steps are labels of the function's folder
    labels = set()
    for p, t in files.items():
        if p.endswith(".antt") and not OWN_FOLDER.search(p):
            labels.update(GOAL.findall(t))
    declared -= labels
    turned = {}
    for n in sorted(declared):
        turned[n] = spelled(n)
    met = {}
    for n, s in turned.items():
        met.setdefault(s, []).append(n)
    for s, ns in sorted(met.items()):
        if len(ns) > 1 or s in plain:
            print("meets:", s, ns, "(declared so too)" if s in plain else "")
    locals_ = re.compile(r"(?:\blet |[(,λ{]\s*|\s)([a-z][\w'₀-₉]*(?:-[\w'₀-₉]+)+)(?= (?:=|:|↦))")
    for p, t in files.items():
        kept = imported(t)
        mine = dict(turned)
        if p.endswith(".antt"):
            goals = set(GOAL.findall(t)) | labels
            for m in locals_.finditer(t):
                if m[1] not in goals and m[1] not in kept and m[1] not in mine:
                    mine[m[1]] = spelled(m[1])
        for n in sorted(set(mine) & kept):
            print("left:", os.path.relpath(p, top), n, "comes from the library there")
            del mine[n]
        new = WORD.sub(lambda m: mine.get(m[0], m[0]), t)
        new = re.sub(r"\bRattle\.log\b", "Rattle.order_log", new)
        if p.endswith(".edit"):
            new = new.replace("′", "'")
        new = re.sub(r"\buse log::", "use order_log::", new)
        if new != t:
            with open(p, "w", encoding="utf-8") as f:
                f.write(new)
    # the pages name definitions between backticks
    for p in pages(top):
        with open(p, encoding="utf-8") as f:
            t = f.read()
        new = re.sub(r"`[^`\n]*`", lambda q: WORD.sub(lambda m: turned.get(m[0], m[0]), q[0]), t)
        if new != t:
            with open(p, "w", encoding="utf-8") as f:
                f.write(new)
    if os.path.isdir(os.path.join(top, "crates", "log")):
        subprocess.run(["git", "mv", "crates/log", "crates/order_log"], cwd=top, check=True)
    path = os.path.join(top, "crates.txt")
    with open(path, encoding="utf-8") as f:
        t = f.read()
    with open(path, "w", encoding="utf-8") as f:
        f.write(re.sub(r"(?m)(^| )log(?=[ :\n]|$)", r"\1order_log", t))
    for c in sorted(os.listdir(os.path.join(top, "crates"))):
        if os.path.isdir(os.path.join(top, "crates", c, "src")):
            subprocess.run(["rt", "fmt"], cwd=os.path.join(top, "crates", c), stdout=subprocess.DEVNULL, check=False)


if __name__ == "__main__":
    sys.exit(main())
