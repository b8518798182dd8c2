#!/usr/bin/env python3
"""Brings this repository's own names to the spelling of today's library, after the toolchain's own script has run.

A fact or a type is in upper camel case, every other definition, lemma, field and variable in snake case. Names that the
check makes (goals, steps) and names of the library stay. The crate `hex` becomes `hexadecimal`, since the library has a
crate of the first name. Run once, at the top of the repository. It says where two names of a file would become one.
"""

import os
import re
import subprocess
import sys

DASHED = r"[A-Za-z][\w'₀-₉]*(?:-[\w'₀-₉]+)+"
DEFINED = re.compile(r"\s*(?:abbrev |unfoldable |pub )*(" + DASHED + r") :\s*(.*)")
RECORD = re.compile(r"\s*(?:pub )?(?:record|enum) (" + DASHED + r")")
BOUND = re.compile(r"[λ({,]\s*((?:[\w'₀-₉-]+\s+)*[\w'₀-₉-]+)\s*[:.]")
# variables that are bound by a pattern only, and two facts that were spelled as functions
MORE = ["is-in", "in-set", "was-gone", "was-p", "yes-call", "j-under", "page-few", "le-false", "lt-leb", "lt-true"]
FACTS = {"by-meaning": "ByMeaning", "named": "Named"}
FACT_FILES = {"named": ["crates/rules/proofs/Copies.antt"]}


def sources():
    for folder, dirs, files in os.walk("crates"):
        dirs[:] = sorted(d for d in dirs if d != "out")
        for f in sorted(files):
            if f.endswith((".antt", ".rt")):
                yield os.path.join(folder, f)


def read(path):
    with open(path, encoding="utf-8") as f:
        return f.read()


def write(path, text):
    with open(path, "w", encoding="utf-8") as f:
        f.write(text)


def imported(text):
    """Names that come from the library or from what the check makes."""
    for m in re.finditer(r"use (Rattle\.std[\w.]*|Rattle\.[\w.+]*\.(?:Goals|Given)|logic[\w.]*|denote[\w.]*|mathlib[\w.]*)\.\{([^}]*)\}", text):
        for x in m.group(2).split(","):
            yield x.strip().split(" as ")[0].strip()


def own_names():
    own, foreign = set(MORE), set()
    for path in sources():
        text = read(path)
        foreign.update(imported(text))
        for line in text.split("\n"):
            code = re.sub(r"--.*", "", line)
            m = DEFINED.match(code)
            if m and not m.group(2).startswith("goal."):
                own.add(m.group(1))
            m = RECORD.match(code)
            if m:
                own.add(m.group(1))
    return own - foreign


def turned(name):
    if name in FACTS:
        return FACTS[name]
    if name[0].isupper():
        return "".join(w[0].upper() + w[1:] for w in name.split("-"))
    return name.replace("-", "_")


def main():
    names = {n: turned(n) for n in sorted(own_names() | set(FACTS))}
    every = {p: read(p) for p in sources()}
    for path, text in every.items():
        words = set(re.findall(r"(?<![\w'.-])[A-Za-z][\w'₀-₉-]*", text))
        for old in sorted(words & set(names)):
            if path in FACT_FILES.get(old, [path]) and names[old] in words:
                print(f"{path}: {old} becomes {names[old]}, which is there already")
    if len(set(names.values())) < len(names):
        print("two names become one")
    if "--names" in sys.argv:
        for old, new in names.items():
            print(old, new)
        return
    token = re.compile(r'"[^"]*"|(?<![\w\'-])(' + DASHED + r"|named)(?![\w'-])")
    for path, text in every.items():
        def put(m):
            n = m.group(1)
            if n is None or n not in names or path not in FACT_FILES.get(n, [path]):
                return m.group(0)
            return names[n]
        lines = []
        for line in text.split("\n"):
            prose = (path.endswith(".rt") and line.lstrip().startswith("//")) or (path.endswith("Worked.antt") and line.startswith("--"))
            lines.append(line if prose else token.sub(put, line))
        out = "\n".join(lines)
        out = re.sub(r"\bRattle\.hex\b", "Rattle.hexadecimal", out)
        if path.endswith(".rt"):
            out = re.sub(r"\buse hex::", "use hexadecimal::", out)
        if out != text:
            write(path, out)
    if os.path.isdir("crates/hex"):
        subprocess.run(["git", "mv", "crates/hex", "crates/hexadecimal"], check=True)
    crates = read("crates.txt")
    write("crates.txt", re.sub(r"(?m)(?<=[ ^])hex(?=[ :\n])|^hex(?=:)", "hexadecimal", crates))


main()
