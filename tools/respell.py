#!/usr/bin/env python3
"""Spells this repository's own definitions and lemmas as the library spells its own: words in snake case, types in camel case.

usage: python3 tools/respell.py [--look]        at the top of the repository, once, after the kit's own script

A name that some file of specs/ or proofs/ declares (a definition, a lemma, a field, a constructor) and that has a dash gets
underscores, or joins its words in camel case where it begins with a capital. It changes wherever it stands as a whole name: in
specs/ and proofs/, in the contracts of src/ (and not in its code, its strings or its functions' names), in must-fail/ and, between
backquotes, in the pages. The names that Rattle makes (goals, steps, labels) keep their dashes.
With --look it writes nothing, and says which names would meet another name of the same file.
"""
import collections
import glob
import os
import re
import sys

STOP = r"\s(){}.;,@\"«»`"
TOKEN = re.compile(rf"(?<![^{STOP}])[^{STOP}]+(?![^{STOP}])")
DECLARED = re.compile(
    rf"^( *)((?:pub |abbrev |unfoldable |data |record )*)([^{STOP}:]+(?: [^{STOP}:]+)*?)(?: \{{[^{{}}\n]*\}}| \([^()\n]*\))* :(?: |$)"
)
MADE = re.compile(r": goal\.")
# the names that Rattle makes stand behind these
BEHIND = re.compile(r"(?:^|[^\w.'-])(?:c|goal|l|g|r)\.$")


def texts(*ends):
    found = []
    for folder, dirs, files in os.walk("crates"):
        dirs[:] = sorted(d for d in dirs if d not in ("out", "target"))
        found += [os.path.join(folder, f) for f in sorted(files) if f.endswith(ends)]
    return found


def read(path):
    with open(path, encoding="utf-8") as f:
        return f.read()


def spelled(name):
    if name[0].isupper():
        return "".join(part[:1].upper() + part[1:] for part in re.split("[-_]", name))
    return name.replace("-", "_")


def declared():
    own = collections.defaultdict(set)
    for path in texts(".antt"):
        for line in read(path).splitlines():
            if line.strip().startswith("--") or MADE.search(line):
                continue
            m = DECLARED.match(line)
            for name in m[3].split() if m else []:
                own[name].add(path)
    return own


def to_turn(own):
    return {name: spelled(name) for name in own if re.search(r"[A-Za-z]", name) and spelled(name) != name}


def from_library(text):
    """The names that a file imports from the kit."""
    found = set()
    for path, items in re.findall(r"use (Rattle\.std[^\s;{]*|Prim[^\s;{]*|Mathlib[^\s;{]*|mathlib[^\s;{]*|lib[^\s;{]*)\.\{([^}]*)\}", text):
        found.update(re.split(r",\s*|\s+as\s+", items))
    return found


def turned(text, names, keep=frozenset()):
    def one(m):
        name = m[0]
        if name not in names or name in keep or BEHIND.search(text[max(0, m.start() - 8) : m.start()]) and is_made(name):
            return name
        return names[name]

    return TOKEN.sub(one, text)


def is_made(name):
    return re.match(r"(?:loop|if|in|then|else|returns|index|invariant|decreases|case)-", name) is not None


def in_rust(text, names, keep):
    """Contracts, ghost items and comments of a source file; strings and code stay."""
    parts = re.split(r'("(?:\\.|[^"\\\n])*")', text)
    return "".join(p if i % 2 else turned(p, names, keep) for i, p in enumerate(parts))


def aligned(old, new):
    """Comments that list names keep their columns."""
    out = []
    for a, b in zip(old.splitlines(), new.splitlines()):
        m = re.match(r"^(--   )(\S+(?:, \S+)*)( {2,})(.*)$", a)
        n = re.match(r"^(--   )(\S+(?:, \S+)*)( {2,})(.*)$", b)
        if m and n and m[2] != n[2]:
            b = n[1] + n[2] + " " * (len(m[2]) + len(m[3]) - len(n[2])) + n[4]
        out.append(b)
    return "\n".join(out) + ("\n" if old.endswith("\n") else "")


def main():
    own = declared()
    names = to_turn(own)
    # the kit's script has turned some names in specs/ and proofs/ already, and not in the pages
    in_pages = {name.replace("_", "-"): name for name in own if "_" in name}
    in_pages |= {old: new for old, new in names.items()}
    look = "--look" in sys.argv
    meets = collections.defaultdict(list)
    for old, new in names.items():
        meets[new].append(old)
    for new, olds in meets.items():
        if len(olds) > 1:
            print("look: two names become", new, olds)
    for path in texts(".antt", ".rt", ".edit") + sorted(glob.glob("docs/*.md")) + ["README.md"]:
        text = read(path)
        keep = from_library(text)
        if path.endswith(".md"):
            new = re.sub(r"`[^`\n]+`", lambda m: turned(m[0], in_pages), text)
        elif path.endswith(".rt"):
            new = in_rust(text, names, keep)
        else:
            new = turned(text, names, keep)
            if path.endswith(".antt"):
                new = aligned(text, new)
        if path.endswith((".antt", ".rt")):
            here = set(TOKEN.findall(text))
            for old in sorted(here & set(names)):
                if old in keep:
                    print(f"look: {path}: {old} is the library's here")
                elif names[old] in here:
                    print(f"look: {path}: {old} meets {names[old]}")
            if re.search(r"/(Answers|Invariants)\.antt$", path):
                for m in TOKEN.finditer(text):
                    if m[0] in names and BEHIND.search(text[max(0, m.start() - 8) : m.start()]):
                        print(f"look: {path}: {m[0]} behind {text[max(0, m.start() - 3):m.start()]}")
        if new != text and not look:
            with open(path, "w", encoding="utf-8") as f:
                f.write(new)
    print(f"{len(names)} names")


main()
