#!/usr/bin/env python3
"""Counts the places of older forms in crates/*/src, and the size of crates/*/proofs.

    python3 tools/forms.py [FOLDER]     prints each place and, last, a count for each kind

FOLDER is a checkout; without it, the one that this script lies in.
"""
import collections
import glob
import os
import re
import sys

top = sys.argv[1] if len(sys.argv) > 1 else os.path.join(os.path.dirname(__file__), "..")
files = sorted(glob.glob(os.path.join(top, "crates/*/src/**/*.rt"), recursive=True))
counts = collections.OrderedDict()


def short(path):
    return os.path.relpath(path, os.path.join(top, "crates"))


def found(kind, place, text):
    counts[kind] = counts.get(kind, 0) + 1
    print(f"{kind}: {place}: {text}")


LINES = [
    ("1 own enums", r"^\s*(pub(\(crate\))? )?enum "),
    ("1 a number in place of a kind, an answer or a flag",
     r"fn (?!rank|at\b|ranks_of|figure|highest|worked_cases|shown_cases|number\b)\w+.*-> (u8|\(u8, u8\))"
     r"|\b(policy|rule|code|layer): u8|pub number: u8|\bnumber: 0,|\blayer: [0-9]|Ok\(_\) => 0,|map_or\(0,"),
    ("3 loops over an index, counters beside a loop",
     r"^\s*(for [a-z]\w* in [^{]*\.\.|for _i in|while |loop \{)|^\s*\w+ \+= 1;"),
    ("4 comparison of the number inside, test of one variant, byte by byte",
     r"\.0 [=!]= \w+(\.\w+)*\.0\b|=> (true|false),$|!= b'|as u16 \* 256|(\w+) != wanted_"),
    ("4 conversion by hand", r"fn (from_number|from_bits|bits|call|named_call|number)\(|impl From<|impl TryFrom<"),
    ("4 printing by hand", r"^\s*\S.*=> print!|\bwrite_all\(|\btext\.(word|number)\((refusal|name|value)"),
    ("6 arrays in structs", r"^\s+(pub(\(crate\))? )?\w+: \[[A-Za-z]\w*(<\w+>)?; \d+\],$"),
    ("7 choice of a step by a match", r"match (self\.(kind|rule|active|standing)|standing|call|policy)\b"),
    ("7 closures, dyn, function pointers", r"[(=,] *(move )?\|[^|]+\||\bdyn \b|impl Fn|: Fn(Once|Mut)?\("),
]


def functions(lines):
    """(name, parameters, clauses, first line) of each function with clauses"""
    i = 0
    while i < len(lines):
        m = re.match(r"^(\s*)(?:pub(?:\(crate\))? )?fn (\w+)", lines[i])
        if not m:
            i += 1
            continue
        indent, name, start, head = m.group(1), m.group(2), i, []
        while i < len(lines) and not re.match(r"^\s*(requires|ensures)\b", lines[i]) and not lines[i].rstrip().endswith(("{", ";")):
            head.append(lines[i].strip())
            i += 1
        clauses = []
        while i < len(lines) and lines[i].rstrip() != indent + "{" and not lines[i].rstrip().endswith(";") and re.match(r"^\s*(requires|ensures|\()", lines[i]):
            clauses.append(lines[i].strip())
            i += 1
        if clauses:
            text = " ".join(head)
            params = text[text.find("("):] if "(" in text else ""
            yield name, re.sub(r"[\s,]+", " ", params).strip(), clauses, start
        i += 1


bodies = collections.defaultdict(list)
clauses_of = collections.defaultdict(list)
for path in files:
    lines = open(path).read().split("\n")
    for kind, pattern in LINES:
        for n, line in enumerate(lines, 1):
            if re.search(pattern, line) and not line.strip().startswith(("//", "ghost", "ensures", "requires", "use ")):
                found(kind, f"{short(path)}:{n}", line.strip())
    same = collections.defaultdict(list)
    for name, params, clauses, start in functions(lines):
        same[(params, " ".join(clauses))].append(name)
        bodies[(name, params, " ".join(clauses))].append(short(path))
        for clause in clauses:
            clauses_of[(short(path).split("/")[0], clause)].append(name)
    for (params, _), names in same.items():
        if len(names) > 1:
            found("2 functions of one file with the same parameters and clauses", short(path), ", ".join(names))
for (name, params, _), paths in bodies.items():
    if len(paths) > 1:
        found("2 the same function in two files", ", ".join(paths), name)
for (crate, clause), names in clauses_of.items():
    if len(names) >= 3:
        found("5 a clause that stands in three or more functions of a crate", crate, f"{len(names)} times: {clause}")

proofs = [p for p in glob.glob(os.path.join(top, "crates/*/proofs/**/*.antt"), recursive=True)]
print()
for kind, n in sorted(counts.items()):
    print(f"{n:4}  {kind}")
print(f"{sum(len(open(p).read().splitlines()) for p in proofs):4}  8 lines of proof, in {len(proofs)} files")
