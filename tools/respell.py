#!/usr/bin/env python3
"""Respells the definitions and lemmas of specs/ and proofs/: snake case for functions, lemmas, fields and constructors, upper camel
case for facts. It was run once, over what the kit's own script had turned, and is kept so that the run can be repeated.

usage: python3 tools/respell.py [--list]      at the top of the repository; --list only prints what would change

Names of src/, of the library, and names that Rattle makes (goals, steps and their fields) stay, and so do comments and strings.
Where two names would fall together, OTHER says what the lemma is called.
"""

import collections
import glob
import re
import sys

# what would fall together with another name or would read badly
OTHER = {
    "Minimum-distance": "MinimumDistance",
    "Root-of-g4": "IsRootOfG4",
    "frame-bits": "frame_bits_lem",
    "half-bits": "half_bits_lem",
    "heard-bits": "heard_bits_lem",
    "line-bits": "line_bits_lem",
    "number-after": "number_after_lem",
    "numbers-last": "numbers_last_lem",
    "of-take": "of_take_lem",
    "re-encodes": "re_encodes_lem",
    "in_order": "in_order_lem",
    "passed_over": "passed_over_lem",
    "whole_take": "whole_take_lem",
    "no-codeword": "without_codeword",
    "wrong-crc": "with_wrong_crc",
    "unique-word": "without_unique_word",
    "bit-xor": "bit_xor_times",
    "takeAt": "nth_take",
}

NAME = re.compile(r"[A-Za-z_ℕℤ₀-₉][A-Za-z0-9_'₀-₉ℕℤ≤≢≡<-]*")
HEAD = re.compile(r"^( *)((?:abbrev |unfoldable |opaque |instance |pub )*)([A-Za-z][A-Za-z0-9_'₀-₉-]*) *((?:[({][^(){}]*[)}] *)*):(?![=:])(.*)$")
LIBRARY = re.compile(r"\buse (?:Rattle\.std\.|borrow\.|lib\.|native\.|mathlib\.|Prim\.)[^{};\n]*\{([^}]*)\}")


def snake(name):
    s = re.sub(r"(?<=[a-z0-9])(?=[A-Z])", "_", name).replace("-", "_")
    return s[0] + s[1:].lower()


def antt():
    return sorted(p for d in ("specs", "proofs") for p in glob.glob(f"crates/*/{d}/**/*.antt", recursive=True))


def definitions():
    """Each name that specs/ and proofs/ define, with the files; and those that are fields of a record."""
    found, fields = collections.defaultdict(set), set()
    for path in antt():
        record = None
        for line in open(path, encoding="utf-8"):
            indent = len(line) - len(line.lstrip())
            if line.strip() and record is not None and indent <= record:
                record = None
            if re.match(r" *(pub )?record\b", line):
                record = indent
                continue
            m = HEAD.match(line)
            if not m or line.lstrip().startswith(("use ", "--", "let ", "λ", "in ")) or re.search(r"\b(goal|given)\.", m[5]):
                continue
            found[m[3]].add(path)
            if record is not None:
                fields.add(m[3])
    return found, fields


def made():
    """The names of goals, invariants and measures, which Rattle makes."""
    names = set()
    for path in antt():
        for m in re.finditer(r"^(?:abbrev |pub )*([a-z][A-Za-z0-9_'-]*) : goal\.", open(path, encoding="utf-8").read(), re.M):
            names.add(m[1])
    return names


def renaming():
    found, fields = definitions()
    goals = made()
    new = {}
    for name in sorted(found):
        if name in goals:
            continue
        if name in OTHER:
            new[name] = OTHER[name]
        elif name[0].islower() and ("-" in name or re.search(r"[a-z0-9][A-Z]", name)):
            new[name] = snake(name)
    return found, fields, new


def imported(text):
    """What a file takes from the library."""
    names = set()
    for m in LIBRARY.finditer(text):
        names |= {w.strip() for part in m[1].split(",") for w in part.split(" as ")}
    return names


def blank(text, line_comment):
    """The stretches of a text that are comments, strings or characters."""
    out = []
    for m in re.finditer(re.escape(line_comment) + r"[^\n]*" + r'|b?"(?:[^"\\]|\\.)*"' + (r"|b?'(?:[^'\\]|\\.)'" if line_comment == "//" else ""), text):
        if line_comment == "--" and m[0].startswith("--") and m.start() and text[m.start() - 1] not in " \n\t":
            continue
        out.append((m.start(), m.end()))
    return out


def turn(path, new, fields):
    text = open(path, encoding="utf-8").read()
    skip = blank(text, "//" if path.endswith(".rt") else "--")
    keep = imported(text)
    aliases = set(re.findall(r"\buse [A-Za-z_.]+ as ([a-z_]+)", text)) - {"goal", "given"}
    said = []
    # names that a file gives to what it imports; a word of the library keeps its own name
    own = {a: snake(a) for line in re.findall(r"\buse [^;\n]*", text) for a in re.findall(r" as ([a-z][A-Za-z0-9_'-]*)", line) if re.search(r"[a-z0-9][A-Z]|-", a)}
    if "AllByRecursion as All" in text:
        own["All"] = "AllByRecursion"
    out, last, at = [], 0, 0
    for m in NAME.finditer(text):
        name = m[0]
        while at < len(skip) and skip[at][1] <= m.start():
            at += 1
        if at < len(skip) and skip[at][0] <= m.start():
            continue
        if name in own:
            out.append(text[last : m.start()] + own[name])
            last = m.end()
            continue
        if name not in new or name in keep:
            continue
        before = text[m.start() - 1] if m.start() else " "
        if before == "." and name not in fields:
            # a name behind a dot is a field of what Rattle makes, but for an item of a module
            word = re.search(r"([A-Za-z_]+)\.$", text[max(0, m.start() - 60) : m.start()])
            if not word or not (word[1][0].isupper() or word[1] in aliases):
                said.append(f"{path}: behind a dot, left: {name}")
                continue
        out.append(text[last : m.start()] + new[name])
        last = m.end()
    out.append(text[last:])
    return "".join(out).replace("AllByRecursion as AllByRecursion", "AllByRecursion"), said


def main():
    found, fields, new = renaming()
    taken = collections.defaultdict(set)
    for name in found:
        taken[new.get(name, name)].add(name)
    for s, names in sorted(taken.items()):
        if len(names) > 1:
            print("together:", s, sorted(names))
    changed = 0
    values = set(new.values())
    for path in antt() + sorted(glob.glob("crates/*/src/**/*.rt", recursive=True)):
        old = open(path, encoding="utf-8").read()
        text, said = turn(path, new, fields)
        for line in said:
            print(line)
        both = imported(text) & values
        if both and text != old:
            print("also from the library:", path, sorted(both))
        if path.endswith(".rt") and text != old:
            rust = {w for w in re.findall(r"\b(?:let(?: mut)?|pub|const|static|ghost)? *([a-z_][a-z0-9_]*): ", old)}
            used = {w for w in NAME.findall(text) if w in values}
            if rust & used:
                print("beside a field or a parameter:", path, sorted(rust & used))
        if text != old:
            changed += 1
            if "--list" not in sys.argv:
                open(path, "w", encoding="utf-8").write(text)
    print(len(new), "names,", changed, "files")


main()
