#!/usr/bin/env python3
"""respell.py [--list]: brings the names of the repository's own definitions, fields and lemmas to snake case, at the top of the repository, after port.py.

What is renamed: each name that a file of specs/ or proofs/ (not of a function's folder proofs/F/) declares and that has a dash, or begins small and has a capital, as `absorbBytes`.
A dash becomes `_`, and a capital behind a small letter or a digit a small one with `_` before it. Names that the programs print stay as they are printed, and those of them that
port.py had turned are put back. Names of src/, of goals that the prover makes, strings and comments in plain words are left alone; a name between backquotes in a comment or a
document is turned too. A lemma that would have its function's name gets `_lem`. Two names that would fall together stop it before anything is written."""
import glob
import os
import re
import sys

# theorems that the program `frodo` names in what it prints
PRINTED = {"kept-back", "key-fits", "third-demand", "resealed-secret", "kept-exactly", "key-passes", "encaps-one"}
DECLARED = re.compile(r"^ *(?:(?:abbrev|unfoldable|pub|record|data)\s+)*([^\s:(){},;.=]+)(?: *\([^)]*\)| *\{[^}]*\})* *:(?= |$)")
TOKEN = re.compile(r"[^\s(){}\[\];,.`\"]+")


def snake(name):
    name = re.sub(r"(?<=[a-z0-9])([A-Z]+)", lambda m: "_" + m.group(1), name) if re.match(r"[a-z]", name) and "-" not in name else name
    if "-" in name:
        parts = [re.sub(r"(?<=[a-z0-9])([A-Z]+)", lambda m: "_" + m.group(1), p).lower() if re.match(r"[a-z]\w*[A-Z]", p) else p for p in name.split("-")]
        return "_".join(parts)
    return name.lower()


def declared():
    names, every = set(), set()
    for path in sorted(glob.glob("crates/*/specs/*.antt") + glob.glob("crates/*/proofs/*.antt")):
        for line in open(path, encoding="utf-8"):
            found = DECLARED.match(line)
            if found and not line.lstrip().startswith("--"):
                name = found[1]
                every.add(name)
                if re.fullmatch(r"[\w'-]+", name) and ("-" in name.strip("-") or re.match(r"[a-z]\w*[A-Z]", name)):
                    names.add(name)
    return names, every


def main():
    names, every = declared()
    turn = {name: snake(name) for name in sorted(names - PRINTED)}
    for name in sorted(PRINTED):
        if name.replace("-", "_") in every:
            turn[name.replace("-", "_")] = name
    # a lemma that would have its function's name gets `_lem`
    words = {new for old, new in turn.items() if "-" not in old} | every
    for old, new in list(turn.items()):
        if "-" in old and new in words:
            turn[old] = new + "_lem"
    together = {}
    for old, new in turn.items():
        together.setdefault(new, []).append(old)
    bad = [(new, olds) for new, olds in together.items() if len(olds) > 1 or (new in every and new not in turn)]
    for new, olds in sorted(bad):
        print(f"fall together: {' '.join(olds)} at {new}{' (declared)' if new in every else ''}")
    if "--list" in sys.argv:
        for old, new in turn.items():
            print(old, new)
    if bad or "--list" in sys.argv:
        return 1 if bad else 0

    def tokens(text):
        return TOKEN.sub(lambda m: turn.get(m[0], m[0]), text)

    def quoted(text):
        return re.sub(r"`([^`\n]+)`", lambda m: "`" + tokens(m[1]) + "`", text)

    changed = 0
    for path in sorted(glob.glob("crates/**/*", recursive=True)) + sorted(glob.glob("docs/**/*.md", recursive=True)) + ["README.md"]:
        if not os.path.isfile(path) or not path.endswith((".antt", ".rt", ".edit", ".md")) or "/out/" in path:
            continue
        text = open(path, encoding="utf-8").read()
        lines, inside = [], False
        for line in text.split("\n"):
            if path.endswith(".md"):
                lines.append(quoted(line))
                continue
            mark = "--" if path.endswith(".antt") else "//" if path.endswith(".rt") else "#"
            at = 0 if line.lstrip().startswith(mark) else len(line)
            if mark == "//" and at:
                # ghost imports and clauses alone: the program's own names stay
                opens = re.match(r"\s*(ghost|requires|ensures|also_owns)\b", line)
                if opens or inside:
                    depth = (depth if inside else 0) + line.count("{") - line.count("}")
                    inside = depth > 0
                    lines.append(tokens(line))
                else:
                    lines.append(line)
                continue
            lines.append(tokens(line[:at]) + quoted(line[at:]))
        new = "\n".join(lines)
        if new != text:
            open(path, "w", encoding="utf-8").write(new)
            changed += 1
    print(f"{len(turn)} names, {changed} files")
    return 0


sys.exit(main())
