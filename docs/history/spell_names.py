#!/usr/bin/env python3
"""Brings the repository's own definitions and lemmas to snake case, in crates/ and in the pages that name them.

usage: python3 docs/history/spell_names.py    at the top of the repository, once, right after port.py

Types and facts keep their upper camel case. Rust names, strings, inputs and outputs keep their spelling, and so do
the names that the check makes (goals, steps, fields after a dot)."""

import os
import re
import sys

IDENT = r"[^\s(){}\[\];,.λ\"@`|]+"
HEAD = re.compile(
    r"^(\s*)((?:(?:abbrev|unfoldable|pub|record|data)\s+)*)(" + IDENT + r")\s+(?:\([^)]*\)\s*|\{[^}]*\}\s*)*:\s"
)
WORD = re.compile(r"(?<![^\s(){}\[\];,.λ\"@`|])" + IDENT)
CLASH = {"next_cap": "next_cap as cap_after"}
# The load of all tasks above; a function of src/ for the load of one has the plain spelling.
OTHERS = {"carriedLoad": "carried_loads", "carried-load-mono": "carried_loads_mono"}
# What port.py spelled anew in crates/, for the pages.
PAGES = ("atMost", "capOf", "loadOf", "numberOf", "placeOf", "sumTo", "totalOf")


def files(*ends):
    for folder, dirs, names in os.walk("crates"):
        dirs[:] = sorted(d for d in dirs if d not in ("out", "target"))
        for name in sorted(names):
            if name.endswith(ends):
                yield os.path.join(folder, name)


def snake(name):
    spelled = re.sub(r"(?<=[a-z0-9])([A-Z])", lambda m: "_" + m[1].lower(), name)
    return spelled.replace("-", "_")


def own_names():
    """The definitions and lemmas of specs/ and proofs/ whose spelling is not snake case, and the fields of records among them; no types."""
    found = {}
    kept = set()
    fields = set()
    for path in files(".antt"):
        if os.path.basename(path) in ("Answers.antt", "Invariants.antt", "Lib.antt", "Proof.antt"):
            continue
        record = None
        with open(path, encoding="utf-8") as f:
            for line in f:
                deep = len(line) - len(line.lstrip())
                if line.strip() and record is not None and deep <= record:
                    record = None
                if re.match(r"\s*((abbrev|pub)\s+)*record\b.*\bwhere\s*$", line):
                    record = deep
                head = HEAD.match(line)
                if not head or re.match(r"\s*(let|in|use|module|elim)\s|\s*--", line):
                    continue
                name = head[3]
                if name[0].isupper():
                    continue
                kept.add(name)
                if snake(name) != name:
                    found[name] = OTHERS.get(name, snake(name))
                    if record is not None:
                        fields.add(name)
    return found, kept, fields


def turn(text, names, fields):
    def word(m):
        name = m[0]
        before = text[m.start() - 1] if m.start() else " "
        if name not in names or (before == "." and name not in fields):
            return name
        return names[name]

    return WORD.sub(word, text)


def clauses(text, names, fields):
    """A source: only its ghost imports, clauses and ghost items are turned."""
    out = []
    ghost = False
    for line in text.split("\n"):
        if re.match(r"\s*(pub )?ghost |\s*(requires|ensures)\b|\s*also_", line):
            ghost = True
        elif re.match(r"\s*(//|fn |pub |let |if |for |while |match |use |impl |struct |enum |mod )", line) or line.strip() in ("{", "}", ""):
            ghost = False
        out.append(turn(line, names, fields) if ghost else line)
    return "\n".join(out)


def main():
    names, kept, fields = own_names()
    new = {}
    # A lemma that would have its function's name gets `_lem`.
    for old in sorted(names):
        if "-" in old and any(o != old and "-" not in o and names[o] == names[old] for o in names):
            names[old] += "_lem"
    for old, spelled in sorted(names.items()):
        if spelled in kept or spelled in new:
            sys.exit(f"spell_names: {old} and another name would both be {spelled}")
        new[spelled] = old
    for path in files(".antt", ".rt"):
        with open(path, encoding="utf-8") as f:
            text = f.read()
        if path.endswith(".antt"):
            # Comments stay as they are.
            turned = "\n".join(s if s.lstrip().startswith("--") else turn(s, names, fields) for s in text.split("\n"))
        else:
            turned = clauses(text, names, fields)
        if path.endswith(".rt"):
            for spelled, alias in CLASH.items():
                if re.search(rf"\bfn {spelled}\b", turned) and re.search(rf"ghost use [^;]*\b{spelled}\b", turned):
                    turned = re.sub(rf"(ghost use [^;]*?)\b{spelled}\b", rf"\1{alias}", turned, count=1)
                    turned = re.sub(rf"(ensures[^\n]*≡ ){spelled}\b", rf"\1{alias.split()[-1]}", turned)
        if turned != text:
            with open(path, "w", encoding="utf-8") as f:
                f.write(turned)
    pages = ["README.md"] + sorted(os.path.join("docs", p) for p in os.listdir("docs") if p.endswith(".md") and p != "PORT.md")
    spelled_before = {n: snake(n) for n in PAGES}
    for path in pages:
        with open(path, encoding="utf-8") as f:
            text = f.read()
        turned = re.sub(r"`([^`\n]+)`", lambda m: "`" + names.get(m[1], spelled_before.get(m[1], m[1])) + "`", text)
        if turned != text:
            with open(path, "w", encoding="utf-8") as f:
                f.write(turned)
    print(f"spell_names: {len(names)} names")


if __name__ == "__main__":
    main()
