#!/usr/bin/env python3
"""Brings the repository's own names in specs/ and proofs/ to one spelling, that of the library.

Types are in upper camel case, everything else is in snake case, and a prime is an apostrophe. What is renamed: definitions, lemmas,
constructors and fields that a file of specs/ or proofs/ declares, wherever they are cited: in specs/, in proofs/, in the clauses of
src/, and between backquotes in the pages. What keeps its name: functions, types and fields of src/, names that the check makes,
strings, inputs and outputs.

usage: tools/respell.py [--dry]     at the top of the repository, once
"""
import glob
import re
import sys

WORD = r"[\w'′\-]"
# Names that would fall together with another: `big-at` and `name-fine` are the lemmas on `bigAt` and `nameFine`, and `inRecord` says
# what the fault of a record tells.
APART = {"big-at": "big_at_is", "name-fine": "name_is_fine", "in-record": "faulty_record", "in-header": "faulty_header"}
DECLARED = re.compile(
    r"^\s*(?:(?:abbrev|unfoldable|pub|axiom)\s+)*(?:(?P<kind>record|data|ruleset)\s+(?:pub\s+)?)?(?P<name>" + WORD + r"+)(?P<rest>\s*(?:[({].*)?:(?:\s|$).*)"
)


def files(*patterns):
    found = set()
    for pattern in patterns:
        found |= set(glob.glob(pattern, recursive=True))
    return sorted(f for f in found if "/out/" not in f)


def read(path):
    with open(path, encoding="utf-8") as f:
        return f.read()


def made(path):
    """Whether the file answers goals that the check names."""
    return path.rsplit("/", 1)[1] in ("Answers.antt", "Invariants.antt", "Proof.antt", "Choices.antt")


def declared():
    """The names that specs/ and proofs/ declare, with the files that do."""
    names = {}
    for path in files("crates/*/specs/**/*.antt", "crates/*/proofs/**/*.antt"):
        text = read(path)
        for line in text.split("\n"):
            if line.lstrip().startswith(("--", "use ", "pub use ", "mod ", "pub mod ")):
                continue
            m = DECLARED.match(line)
            if not m:
                continue
            name = m.group("name")
            # a goal of the check
            if made(path) and re.search(r"(?:goal|need)\." + re.escape(name) + r"(?!" + WORD + ")", text):
                continue
            names.setdefault(name, set()).add(path)
    return names


def spelled(name):
    if name in APART:
        return APART[name]
    primes = len(name) - len(name.rstrip("'′"))
    bare = name[: len(name) - primes] if primes else name
    if bare[:1].isupper():
        new = "".join(part[:1].upper() + part[1:] for part in bare.split("-"))
    else:
        new = re.sub(r"(?<=[a-z0-9])(?=[A-Z])", "_", bare).lower() if re.search(r"[a-z][A-Z]", bare) else bare
        new = new.replace("-", "_")
    return new + "'" * primes


def main():
    dry = "--dry" in sys.argv
    names = declared()
    turned = {n: spelled(n) for n in names if spelled(n) != n}
    # names that fall together, with one another or with a word that stands already
    words = set()
    everything = files("crates/*/specs/**/*.antt", "crates/*/proofs/**/*.antt", "crates/*/src/**/*.rt")
    for path in everything:
        words |= set(re.findall(WORD + "+", read(path)))
    seen = {}
    for old, new in sorted(turned.items()):
        if new in seen:
            print(f"fall together: {old} and {seen[new]} at {new}")
        if new in words:
            print(f"stands already: {new}, for {old} of {sorted(names[old])}")
        seen[new] = old
    one = re.compile(r"(?<!" + WORD + r")(" + "|".join(re.escape(n) for n in sorted(turned, key=len, reverse=True)) + r")(?!" + WORD + ")")
    count = 0
    for path in everything:
        text = read(path)
        new = one.sub(lambda m: turned[m.group(1)], text)
        if new != text:
            count += 1
            if not dry:
                with open(path, "w", encoding="utf-8") as f:
                    f.write(new)
    for path in files("README.md", "docs/*.md"):
        text = read(path)
        new = re.sub(r"`[^`\n]+`", lambda b: one.sub(lambda m: turned[m.group(1)], b.group(0)), text)
        if new != text:
            count += 1
            if not dry:
                with open(path, "w", encoding="utf-8") as f:
                    f.write(new)
    print(f"{len(turned)} names, {count} files")
    if dry:
        for old, new in sorted(turned.items()):
            print(f"  {old} -> {new}")


main()
