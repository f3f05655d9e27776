#!/usr/bin/env python3
"""Respells the repository's own definitions, lemmas, fields and local names: words in snake case.

usage: python3 tools/respell.py            at the top of the repository, once, after the toolchain's port.py
       python3 tools/respell.py --list     says what would change, and which names would fall together; changes nothing

A dash stays where a lemma's name begins with the function that its left side calls, as in `length-all_from`.
Names that the toolchain makes (goals, steps) or that its library has are left alone.
"""
import os
import re
import sys

KEPT = re.compile(r"(length-(?!after$|kept$)|map-(?=place$|lifted$))")
TOKEN = re.compile(r"[^\s(){}\[\].,;:⌜⌝`\"|∣\\]+")
DECL = re.compile(r"^\s*(?:(?:abbrev|unfoldable|pub|ruleset)\s+)*([^\s:(){}λ]+)\s*:(?=\s)")
DATA = re.compile(r"^\s*(?:pub\s+)?(?:data|record)\s+(\S+)")
LOCAL = re.compile(r"(?:\blet\s+|λ\s*\(?)([a-z][\w'-]*(?:\s+[a-z][\w'-]*)*)")
GHOST = re.compile(r"\bghost\s+([A-Za-z_]\w*)\s*[:=]")
USE = re.compile(r"^\s*(?:pub\s+)?(?:ghost\s+)?use\s+(\S+?)(?:\.\{([^}]*)\})?(?:\s+as\s+(\S+))?;?\s*$")

# where the plain respelling would meet another name
OTHER = {"is-nan": "only_nan", "fail-prone": "faulty_fail_prone"}


def files(root):
    for top in ("crates",):
        for folder, dirs, names in os.walk(os.path.join(root, top)):
            dirs[:] = sorted(d for d in dirs if d not in ("out", ".git"))
            for n in sorted(names):
                if n.endswith((".antt", ".rt", ".edit")):
                    yield os.path.join(folder, n)


def pages(root):
    for folder in (root, os.path.join(root, "docs")):
        for n in sorted(os.listdir(folder)) if os.path.isdir(folder) else []:
            if n.endswith(".md"):
                yield os.path.join(folder, n)


def snake(name):
    """The name's new spelling."""
    if name in OTHER:
        return OTHER[name]
    kept = KEPT.match(name)
    kept = kept.group(0) if kept else ""
    name = name[len(kept):]
    name = name.replace("-", "_")
    name = re.sub(r"(?<=[a-z0-9])([A-Z])", lambda m: "_" + m.group(1).lower(), name)
    return kept + name


def gather(paths):
    own, foreign = {}, set()
    for p, t in paths.items():
        answers = "/proofs/" in p and os.path.basename(p) in ("Answers.antt", "Invariants.antt", "Choices.antt", "Proof.antt")
        for line in t.split("\n"):
            u = USE.match(line)
            if u:
                if not re.match(r"(?:Rattle\.(?!std\b|c\b)|crate\b)", u.group(1)) or u.group(1).startswith("Rattle.std."):
                    for n in (u.group(2) or "").split(","):
                        foreign.add(n.strip().split(" as ")[0])
                continue
            if p.endswith(".rt"):
                for n in GHOST.findall(line):
                    own.setdefault(n, p)
                continue
            if p.endswith(".edit"):
                continue
            d = DECL.match(line)
            if d and not re.search(r":\s*goal\.", line):
                own.setdefault(d.group(1), p)
            for group in LOCAL.findall(line):
                for n in group.split():
                    own.setdefault(n, p)
    return own, foreign


def plan(own, foreign):
    out = {}
    for n in own:
        if n in foreign or not re.match(r"[a-z]", n) or "◌" in n:
            continue
        if n.startswith(("returns-", "loop-", "invariant-", "overflow_", "measure-")):
            continue
        if re.search(r"-[^A-Za-z0-9_]", n):
            continue
        s = snake(n)
        if s != n:
            out[n] = s
    return out


def turn(text, names):
    return TOKEN.sub(lambda m: names.get(m.group(0), m.group(0)), text)


def turn_code(text, names):
    """Turns all but comments, whose words may be those of a name, as in "a fail-prone set"."""
    lines = []
    for line in text.split("\n"):
        code, mark, comment = re.match(r"(.*?)((?:^|(?<=\s))(?:--|//)(?=\s|$)|$)(.*)", line).groups()
        lines.append(turn(code, names) + mark + comment)
    return "\n".join(lines)


def main():
    root = os.getcwd()
    paths = {}
    for p in files(root):
        with open(p, encoding="utf-8") as f:
            paths[p] = f.read()
    own, foreign = gather(paths)
    names = plan(own, foreign)
    tokens = {}
    for p, t in paths.items():
        for m in TOKEN.finditer(t):
            tokens.setdefault(m.group(0), set()).add(p)
    new = {}
    for n, s in names.items():
        new.setdefault(s, []).append(n)
    for s, ns in sorted(new.items()):
        if len(ns) > 1:
            print("fall together:", s, ns)
        if s in tokens:
            where = sorted(os.path.relpath(x, root) for x in tokens[s])
            print("taken:", ns[0], "->", s, "in", " ".join(where[:4]), "of", len(where))
        if s in foreign:
            print("library:", ns[0], "->", s)
    for n in sorted(names):
        steps = [p for p, t in paths.items() if re.search(r"\b[cwl]\." + re.escape(n) + r"(?![\w'-])", t)]
        if steps:
            print("step?:", n, os.path.relpath(steps[0], root))
    if "--list" in sys.argv:
        for n in sorted(names):
            print("name:", n, names[n])
        return
    for p, t in paths.items():
        r = turn_code(t, names)
        if r != t:
            with open(p, "w", encoding="utf-8") as f:
                f.write(r)
    for p in pages(root):
        with open(p, encoding="utf-8") as f:
            t = f.read()
        r = re.sub(r"`[^`\n]+`", lambda m: turn(m.group(0), names), t)
        if r != t:
            with open(p, "w", encoding="utf-8") as f:
                f.write(r)


if __name__ == "__main__":
    main()
