#!/usr/bin/env python3
"""Brings the names of this repository's definitions and lemmas to Rattle's spelling.

usage: python3 tools/spelling.py            at the top of a checkout: rewrites specs/, proofs/ and the clauses of src/
       python3 tools/spelling.py --list     prints each name with its new spelling, and changes nothing

Types (data, records, and definitions whose value is a type) are in camel case; all other names are in snake case.
Names that Rattle makes, of the library, of parameters and of the code are left as they are.
"""

import os
import re
import sys

# A name of antt: anything but white space, brackets and the marks that end a name.
NAME = re.compile(r"[^\s(){}\[\].,;:\"`«»λ→|·]+")
DECLARED = re.compile(r"^\s*(?:(?:abbrev|unfoldable|pub) )*(?:(data|record) )?([^\s(){}\[\].,;:\"«»λ→|·]+)(?: [({].*)? :(?:\s+(.*))?$")
WORDS = {"where", "let", "in", "elim", "use", "module", "pub", "mod", "open", "mutual", "infix"}
# what follows in a file of proofs that answers goals, and in the names of its goals
MADE = ("goal.", "need.", "given.")


# Names that would fall together with another, with the spelling of their own.
APART = {
    "Built-told": "BuiltLaw",
    "Claim-told": "ClaimLaw",
    "Found-told": "FoundLaw",
    "Refusals-told": "RefusalsLaw",
    "Register-told": "RegisterLaw",
    "Runs-told": "RunsLaw",
    "Stuck-told": "StuckLaw",
    "Wrong-told": "WrongLaw",
    "all-below": "all_bits_below",
    "bit-and": "bit_of_and",
    "bit-or": "bit_of_or",
    "by-claim": "over_by_claim",
    "by-walk": "over_by_walk",
    "byte-of": "byte_back",
    "count-of": "count_of_answer",
    "countBy": "count_answered",
    "count_by": "count_by_answer",
    "decoded-from": "decoded_from_lem",
    "is-image": "is_image_lem",
    "is-reply": "is_reply_lem",
    "part-written": "part_written_lem",
    "stepped-end": "stepped_to",
    "told-by": "told_by_plan",
    "units-written": "units_written_lem",
}


def files(top, *ends):
    for folder, dirs, names in os.walk(os.path.join(top, "crates")):
        dirs[:] = sorted(d for d in dirs if d not in ("out", "data"))
        for name in sorted(names):
            if name.endswith(ends):
                yield os.path.join(folder, name)


def read(path):
    with open(path, encoding="utf-8") as f:
        return f.read()


def snake(name):
    name = re.sub(r"(?<=[a-z0-9])(?=[A-Z])", "_", name)
    name = re.sub(r"(?<=[0-9A-Za-z'])-(?=[0-9A-Za-z])", "_", name)
    return name.lower()


def camel(name):
    return "".join(part[:1].upper() + part[1:] for part in name.split("-"))


def declared(top):
    """Each name that a file of specs/ or proofs/ declares, with True where it is a type."""
    found = {}
    for path in files(top, ".antt"):
        for line in read(path).split("\n"):
            if line.lstrip().startswith("--"):
                continue
            m = DECLARED.match(line)
            if not m or m.group(2) in WORDS or (m.group(3) or "").startswith(MADE):
                continue
            kind, name, rest = m.groups()
            is_type = kind is not None or name[:1].isupper()
            found[name] = found.get(name, False) or is_type
    return found


def table(top):
    new = {}
    for name, is_type in declared(top).items():
        if not re.fullmatch(r"[A-Za-z][A-Za-z0-9_'-]*", name):
            continue
        to = APART.get(name) or (camel(name) if is_type else snake(name))
        if to != name:
            new[name] = to
    return new


def turned(text, names):
    def to(m):
        # what follows `c.` in an answer is a step of the code, and keeps the code's name
        step = re.search(r"(?:^|\W)c\.$", text[max(0, m.start() - 3) : m.start()])
        return m.group(0) if step else names.get(m.group(0), m.group(0))

    return NAME.sub(to, text)


def clauses(text, names):
    """A source file, with the names turned in its ghost lines and clauses alone."""
    out = []
    for line in text.split("\n"):
        word = line.strip().split(" ")[0]
        out.append(turned(line, names) if word in ("ghost", "requires", "ensures", "ensures*", "requires*") else line)
    return "\n".join(out)


def write(path, text):
    if text != read(path):
        with open(path, "w", encoding="utf-8") as f:
            f.write(text)


def main():
    names = table(".")
    if "--list" in sys.argv:
        for name in sorted(names):
            print(name, names[name])
        return
    for path in files(".", ".antt"):
        write(path, turned(read(path), names))
    for path in files(".", ".rt"):
        write(path, clauses(read(path), names))


if __name__ == "__main__":
    main()
