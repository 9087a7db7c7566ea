#!/usr/bin/env python3
"""Respells the repository's own definitions and lemmas: words in snake case, facts and types in camel case.

usage: python3 tools/respell.py [ROOT]     (default: the folder above tools/)

It collects each dashed name that a file of specs/ or proofs/ defines (and the locals in LOCALS), and writes the new
spelling in the .antt files, in the ghost text of the .rt files, in must-fail edits, and between backticks in
README.md and docs/. Names of the library and names that the toolchain makes stay. It prints new names that were there
already: two names that fall together.
"""
import os
import re
import sys

# names of locals, and of lemmas whose signature takes several lines
LOCALS = """
at-is best-is between-at by-stages by-ways different-is eight-parts favour-empty favour-member favour-settles fill-all
first-passed found-is highest-high is-z later-is-lower ls-kept nest-above no-further no-plan number-known placed-more
plan-ranked planned-by-sets ps-kept put-sets-more same-quote seven-parts seven-short sets-known sound-after-every-list
sound-where-led start-machine start-state tables-back wakes-bad wakes-good with-found wrote-two ws-kept reads-back
ensures-no-plan levels-at wakes-at later-pass
""".split()

DEFINES = re.compile(r"^\s*((?:pub |abbrev |unfoldable |record |data |mutual )*)([A-Za-z⊎][^\s(){}:;]*)( .*)? : (.*)$")
WORD = re.compile(r"(?<![A-Za-z0-9_'⊎≡≢·-])[A-Za-z][A-Za-z0-9_']*(?:-[A-Za-z0-9_'≡≢]+)+(?![A-Za-z0-9_'-])")


# a name that would fall together with a type of src/
APART = {"Short-buffer": "BufferTooShort"}


def respelled(name):
    if name in APART:
        return APART[name]
    name = name.replace("getD", "get_or")
    if name[0].isupper():
        return "".join(part[0].upper() + part[1:] for part in name.split("-"))
    return name.replace("-", "_")


def files(root, ends):
    for folder, dirs, names in os.walk(root):
        dirs[:] = sorted(d for d in dirs if d not in ("out", ".git"))
        for name in sorted(names):
            if name.endswith(ends):
                yield os.path.join(folder, name)


def read(path):
    with open(path, encoding="utf-8") as f:
        return f.read()


def under(root, ends):
    """The files of the crates, also of crates that are begun beside the others."""
    return list(files(os.path.join(root, "crates"), ends)) + list(files(os.path.join(root, "wip-drive", "crates"), ends))


def own_names(root):
    found = set(LOCALS)
    for path in under(root, ".antt"):
        for line in read(path).splitlines():
            m = DEFINES.match(line)
            if m and "-" in m.group(2) and "goal." not in m.group(4) and not line.strip().startswith("use "):
                found.add(m.group(2))
    return found


def code(text, comment, change):
    """Changes the text outside comments and strings."""
    out = []
    for line in text.split("\n"):
        parts = re.split(r'("(?:[^"\\]|\\.)*")', line)
        for k, part in enumerate(parts):
            if k % 2:
                out.append(part)
                continue
            at = part.find(comment)
            if at >= 0:
                out.append(change(part[:at]) + part[at:])
                out.extend(parts[k + 1:])
                break
            out.append(change(part))
        out.append("\n")
    return "".join(out[:-1])


def main(root):
    own = own_names(root)
    table = {n: respelled(n) for n in own}
    ghosts = under(root, (".antt", ".rt"))
    there = set()
    for path in ghosts:
        there |= set(re.findall(r"(?<![A-Za-z0-9_'-])[A-Za-z][A-Za-z0-9_']*(?![A-Za-z0-9_'-])", read(path)))
    turned = {}
    for old, new in sorted(table.items()):
        if new in there or new in turned:
            print(f"falls together: {old} -> {new}" + (f" (with {turned[new]})" if new in turned else ""))
        turned[new] = old

    def change(text):
        return WORD.sub(lambda m: table.get(m.group(0), m.group(0)), text)

    count = 0
    edits = under(root, ".edit")
    pages = [p for p in [os.path.join(root, "README.md")] + list(files(os.path.join(root, "docs"), ".md"))]
    for path in ghosts + edits + pages:
        text = read(path)
        if path.endswith(".antt"):
            new = code(text, "--", change)
        elif path.endswith(".md"):
            new = re.sub(r"`[^`\n]+`", lambda m: change(m.group(0)), text)
        elif path.endswith(".edit"):
            new = change(text)
        else:
            new = code(text, "//", change)
        if new != text:
            count += 1
            with open(path, "w", encoding="utf-8") as f:
                f.write(new)
    print(f"{len(table)} names, {count} files changed")


if __name__ == "__main__":
    here = os.path.dirname(os.path.dirname(os.path.realpath(__file__)))
    main(sys.argv[1] if len(sys.argv) > 1 else here)
