"""Counts the places of each point of docs/DESIGN-PASS.md in the code, at a commit or as it stands.

    python3 tools/places.py COMMIT          the counts at a commit
    python3 tools/places.py                 the counts in the working tree
    python3 tools/places.py [COMMIT] --list each place too

A place is a line of crates/*/src/*.rt that a pattern finds, or a function name that has two definitions.
"""
import re
import subprocess
import sys
from collections import defaultdict
from pathlib import Path

PATTERNS = [
    ("1 refusals handed on as Option", r"-> Option<Refusal>|if let Some\(refusal\)"),
    ("1 errors and options passed on by hand", r"Err\((\w+)\) => Err\(|None => None\b"),
    ("1 tests of an Option or a Result by hand", r"(None|Err\(_\)) => (true|false|0)\b"),
    ("1 enum of the shape of Option", r"^pub enum Dispatch\b|Dispatch::Nothing"),
    ("1 enum with a case for the error", r"^\s+Refused\(Refusal\)|return Answer::Refused|=> Answer::Refused"),
    ("1 flag in a struct", r"^\s+pub \w+: bool,"),
    ("1 number for a kind or a refusal", r"^\s+(pub )?kind: u8,|\.number\(\)|\.byte\(\)|\bfrom_byte\("),
    ("3 loop over numbers", r"\bfor \w+ in \(?\d*\w*\.\.|\bwhile\b"),
    ("3 loop that only searches", r"^\s+return (true|false);"),
    ("3 loop that only counts", r"\bcount \+= 1;"),
    ("3 recursion over an index", r"\bi \+ 1\)"),
    ("4 table of numbers by hand", r"\b(Refusal|Kind)::\w+ => \d+,|\b\d+ => (Some|Ok)\(Kind::"),
    ("4 table of names by hand", r"\bfn name_of\b"),
    ("4 order or equality by hand", r"\bother\.\w+ (<|==) self\.|self\.\w+ == other\.|\w+::(\w+), \w+::\1\) => true"),
    ("4 record copied field by field", r"^\s+last: self\.last,|^\s+number: (memory|listeners)\[place\]\.number,"),
    ("5 five slices as parameters", r"^\s+reports: &(mut )?\[Report"),
    ("5 kinds spelled out in a clause", r"S\.owner S\.lowest S\.successor|rules (n|\(Q\.size)"),
    ("5 reports and their number of servers", r"\bpart: &(mut )?\[Report"),
    ("5 number of servers is at most 16", r"requires .*\bn ≤ 16\b"),
    ("5 network and its memory as parameters", r"\bnetwork: &(mut )?Network"),
    ("6 length beside a buffer", r"^\s+pub (len|count): usize,"),
    ("6 entries looked up by an index", r"\[(index|place|place as usize)\]\.?"),
    ("7 functions as values", r"\bimpl Fn|\bdyn |F: Fn"),
]


def sources(commit):
    if commit is None:
        for path in sorted(Path("crates").glob("*/src/*.rt")):
            yield str(path), path.read_text()
        return
    names = subprocess.run(
        ["git", "ls-tree", "-r", "--name-only", commit, "crates"],
        capture_output=True, text=True, check=True,
    ).stdout.split()
    for name in names:
        if "/src/" in name and name.endswith(".rt"):
            text = subprocess.run(["git", "show", f"{commit}:{name}"], capture_output=True, text=True, check=True).stdout
            yield name, text


def twins(files):
    """Names of functions that stand in more than one place, but for methods of traits and calls of a kind's own."""
    found = defaultdict(list)
    for name, text in files:
        in_trait = False
        for number, line in enumerate(text.splitlines(), 1):
            if re.match(r"(pub )?trait |impl.* for ", line):
                in_trait = True
            elif line.startswith("}"):
                in_trait = False
            match = re.match(r"\s*(?:pub(?:\(crate\))? )?fn (\w+)", line)
            if match and not in_trait and match.group(1) not in ("main", "run"):
                found[match.group(1)].append(f"{name}:{number}")
    return {name: places for name, places in found.items() if len(places) > 1}


def main():
    words = [word for word in sys.argv[1:] if word != "--list"]
    files = list(sources(words[0] if words else None))
    for title, pattern in PATTERNS:
        places = [
            f"{name}:{number}: {line.strip()}"
            for name, text in files
            for number, line in enumerate(text.splitlines(), 1)
            if re.search(pattern, line) and not line.lstrip().startswith("//")
        ]
        tests = sum("/trials_" in place for place in places)
        print(f"{len(places) - tests:4} {tests:4}  {title}")
        if "--list" in sys.argv:
            print("".join(f"              {place}\n" for place in places), end="")
    pairs = twins(files)
    own = {name: places for name, places in pairs.items() if sum("/trials_" not in place for place in places) > 1}
    print(f"{len(own):4} {len(pairs) - len(own):4}  2 names of functions with more than one definition")
    if "--list" in sys.argv:
        print("".join(f"              {name}: {' '.join(places)}\n" for name, places in pairs.items()), end="")


main()
