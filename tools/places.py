#!/usr/bin/env python3
"""Lists the places in crates/*/src and crates/*/proofs at which today's forms of Rattle are to be weighed.

usage: python3 tools/places.py [POINT]     at the top of a checkout; with no POINT, all eight, each ended by its count

It goes by the text alone. What it lists is a candidate; docs/DESIGN-PASS.md says of each that is left why it stays.
Code of tests is left out.
"""

import collections
import glob
import re
import sys


def sources():
    """Each file of code without its tests, by its path and its lines."""
    for path in sorted(glob.glob("crates/*/src/**/*.rt", recursive=True)):
        text = open(path).read()
        cut = text.find("#[cfg(test)]")
        yield path, (text if cut < 0 else text[:cut])


FUNCTION = re.compile(r"^( *)(?:pub(?:\(crate\))? )?fn (\w+)(?:<[^>(]*>)?\(", re.M)


def ending(text, at, indent):
    """Where a function ends that has its result and clauses from a place on: behind its body, or at the ';' of one without."""
    place = at
    for row in text[at:].split("\n"):
        place += len(row) + 1
        if row == indent + "{" or row.endswith(" {"):
            return re.compile(r"^%s\}" % indent, re.M).search(text, place).end()
        if row == indent + "{}" or row.endswith(";"):
            return place
    return place


def functions():
    """Each function: path, line, name, the text of its parameters, of its result, of its clauses, and of its body."""
    for path, text in sources():
        for match in FUNCTION.finditer(text):
            depth, at = 1, match.end()
            while depth:
                depth += {"(": 1, ")": -1}.get(text[at], 0)
                at += 1
            params = " ".join(text[match.end() : at - 1].split())
            rest = text[at : ending(text, at, match.group(1))]
            opened = re.search(r"^%s\{" % match.group(1), rest, re.M) or re.search(r" \{$", rest, re.M)
            head, body = (rest[: opened.start()], rest[opened.start() :]) if opened else (rest, "")
            result = re.match(r"\s*->\s*([^\n;]*?)\s*(?:\{?$|;|\n)", head + "\n", re.M)
            clauses = re.findall(r"^\s*(?:requires|ensures)[^{\n]*\{ (.*) \};?$", head, re.M)
            line = text[: match.start()].count("\n") + 1
            yield path, line, match.group(2), params, result.group(1) if result else "", clauses, body


def split(params):
    """The parameters of a function without its receiver, each as a name and a type."""
    parts, depth, part = [], 0, ""
    for char in params:
        depth += {"(": 1, "[": 1, "<": 1, ")": -1, "]": -1, ">": -1}.get(char, 0)
        if char == "," and depth == 0:
            parts.append(part)
            part = ""
        else:
            part += char
    parts.append(part)
    return [tuple(p.strip().split(": ", 1)) for p in parts if ": " in p]


def point1():
    """Flags and numbers that may stand for kinds: u8 and bool in signatures and fields, tuples as results."""
    for path, line, name, params, result, _, _ in functions():
        small = [f"{n}: {t}" for n, t in split(params) if t in ("u8", "bool")]
        if re.search(r"(?<![\[<])\bu8\b", result) or re.search(r"\(\w+, ", result):
            small.append("-> " + result)
        if small:
            yield f"{path}:{line} {name}: {', '.join(small)}"
    for path, text in sources():
        for struct in re.finditer(r"^(?:pub )?struct (\w+)[^;{\n]*\{\n(.*?)^\}", text, re.M | re.S):
            for field in re.finditer(r"^ {4}(?:pub )?(\w+: (?:u8|bool)),", struct.group(2), re.M):
                yield f"{path} {struct.group(1)} has {field.group(1)}"


def point2():
    """Functions whose text is the same but for names of types, numbers and constants."""
    groups = collections.defaultdict(list)
    for path, line, name, params, result, _, body in functions():
        text = re.sub(r"\b[A-Z]\w*(::\w+)?|\b(?:0x[0-9A-F_]+|\d[\d_]*)\b|\"[^\"]*\"|\btrue\b|\bfalse\b|\bu(8|16|32|64|size)\b", "#", f"({params}) {result} {body}")
        if len(body.split()) > 2:
            groups[" ".join(text.split())].append(f"{path}:{line} {name}")
    for group in groups.values():
        if len(group) > 1:
            yield " = ".join(group)


def point3():
    """Loops over an index or a state that is kept by hand: while, loop, and for over a range."""
    for path, text in sources():
        for number, row in enumerate(text.split("\n"), 1):
            if re.match(r"\s*(?:let \w+ = )?(?:while |loop \{|for \w+ in [^ ]*\.\.)", row):
                yield f"{path}:{number} {row.strip()}"


def point4():
    """Types that derive no Debug, names written out by a function, and results taken apart only to be put together."""
    for path, text in sources():
        for match in re.finditer(r"((?:^#\[[^\n]*\]\n)*)^(?:pub )?(?:struct|enum) (\w+)", text, re.M):
            if "Debug" not in match.group(1):
                yield f"{path}:{text[: match.end()].count(chr(10)) + 1} type {match.group(2)} derives no Debug"
        for match in re.finditer(r"Ok\((?:\w+|\(\))\) => Ok\(.*\),\n\s*Err\((\w+)\) => Err\(", text):
            yield f"{path}:{text[: match.start()].count(chr(10)) + 1} result mapped by hand"
    for path, line, name, _, result, _, _ in functions():
        if "&'static str" in result:
            yield f"{path}:{line} {name} gives a text"


def point5():
    """Parameters that come together in three signatures or more, and clauses that three functions or more have."""
    pairs, clauses_by = collections.defaultdict(list), collections.defaultdict(list)
    for path, line, name, params, _, clauses, _ in functions():
        named = [f"{n}: {t}" for n, t in split(params)]
        for i, first in enumerate(named):
            for second in named[i + 1 :]:
                pairs[(first, second)].append(name)
        for clause in clauses:
            shape = re.sub(r"\b(?:self|host|below|bytes|words|image)\.(?:old|new|now)\b", "x", clause)
            clauses_by[shape].append(f"{path} {name}")
    for (first, second), names in sorted(pairs.items()):
        if len(names) > 2:
            yield f"{first}, {second}: {', '.join(names)}"
    for clause, names in sorted(clauses_by.items()):
        if len(names) > 2:
            yield f"{{ {clause} }}: {', '.join(names)}"


def point6():
    """Elements and parts reached by an index, and places of a slice kept beside it."""
    for path, text in sources():
        for number, row in enumerate(text.split("\n"), 1):
            code = row.split("//")[0]
            if re.search(r"ensures|requires|ghost|^\s*use |#\[", code):
                continue
            for match in re.finditer(r"\b[a-z_]+\[[^\]]+\]", code):
                yield f"{path}:{number} {match.group(0)}"
    for path, line, name, params, _, _, _ in functions():
        places = [f"{n}: {t}" for n, t in split(params) if t == "usize"]
        if places and ("[" in params or len(places) > 1):
            yield f"{path}:{line} {name}: {', '.join(places)}"


def point7():
    """Steps chosen by a flag or through a table of functions."""
    for path, line, name, params, _, _, body in functions():
        flags = [n for n, t in split(params) if t == "bool"]
        if any(re.search(r"\bif !?%s\b" % flag, body) for flag in flags) or "fn(" in params:
            yield f"{path}:{line} {name}: {params}"


def point8():
    """Answers, and lemmas of the crates' own."""
    answers = lemmas = 0
    for path in glob.glob("crates/*/proofs/**/*.antt", recursive=True):
        text = open(path).read()
        signatures = len(re.findall(r"^ *(?:pub )?\S+ : ", text, re.M))
        if path.endswith("Answers.antt"):
            answers += len(re.findall(r"^pub \S+ :", text, re.M))
        elif not path.endswith(("Invariants.antt", "Lib.antt")):
            lemmas += signatures
    yield f"answers: {answers}"
    yield f"lemmas and their definitions: {lemmas}"


POINTS = [point1, point2, point3, point4, point5, point6, point7, point8]
wanted = [int(word) for word in sys.argv[1:]] or range(1, 9)
for point in wanted:
    rows = list(POINTS[point - 1]())
    print(f"{point}. {POINTS[point - 1].__doc__}")
    print("\n".join("   " + row for row in rows))
    print(f"   = {len(rows)}")
