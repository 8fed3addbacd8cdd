#!/usr/bin/env python3
"""Respell this repository's own definitions and lemmas as today's Rattle spells names.

    python3 tools/respell.py            at the repository's top, once, right after port.py
    python3 tools/respell.py --list     print the map and the names that fall together; change nothing

Facts and types go to upper camel case (Is-linked: IsLinked), all other names to snake case (links-are: links_are).
Names that Rattle makes (goals, steps, invariants) and names of the library stay. Only specs/, proofs/ and the ghost
text of src/ are touched: code, strings, inputs and outputs keep their words.
"""
import collections
import os
import re
import sys

NAME = r"[A-Za-z][\w']*(?:-[\w'+]+)*"
TOKEN = re.compile(r"(?<![\w'◌])" + NAME)
WORDS = r"(?:(?:abbrev|unfoldable|pub|record|data) +)*"
PARAMS = r"(?:\s*(?:\{[^{}]*\}|\((?:[^()]|\([^()]*\))*\)))*"
SIGNATURE = re.compile(rf"^\s*{WORDS}({NAME}){PARAMS}\s*:(?!\S)(.*)$")
MADE = re.compile(r"^\s*(?:given|goal|step)\.")
# local names that stand in patterns and binders alone
LOCAL = """after-s at-s by-run d-0 d-5 d-8 down-s free-laws hub-k i-in in-j in-u in-v is-test j-in j-low j-top k-low
k-next k-top near-x no-mark no-p no-s none-else not-above not-here not-marked not-s opens-it other-down p-0 p-4 p-7""".split()
CAMEL = ["afterBy", "asLink", "headOf", "linkBy", "noHeads", "otherSide", "linksOf"]
# where the plain spelling is taken: another word for the same thing
OTHER = {
    "bit-and": "bit_of_and",
    "bit-or": "bit_of_or",
    "slot-of": "slot_having",
    "is-marked": "is_marked_lem",
    "rank-at": "rank_at_lem",
    "item-at": "item_at_lem",
    "linksOf": "row_links",
}


def files(endings):
    for folder, dirs, names in os.walk("crates"):
        dirs[:] = sorted(d for d in dirs if d not in ("out", "data"))
        for name in sorted(names):
            if name.endswith(endings):
                yield os.path.join(folder, name)


def read(path):
    with open(path, encoding="utf-8") as f:
        return f.read()


def snake(name):
    name = re.sub(r"(?<=[a-z0-9])([A-Z])", lambda m: "_" + m.group(1).lower(), name) if name[0].islower() else name
    return name.replace("-", "_")


def camel(name):
    parts = name.split("-")
    return parts[0] + "".join(p[0].upper() + p[1:] for p in parts[1:])


def defined():
    """The names with a dash that specs/ and proofs/ define, but for those whose statement Rattle makes."""
    own, made = set(), set()
    for path in files((".antt",)):
        for line in read(path).split("\n"):
            if line.lstrip().startswith("--"):
                continue
            m = SIGNATURE.match(line)
            if m and "-" in m.group(1):
                (made if MADE.match(m.group(2)) else own).add(m.group(1))
    return own - made


def the_map():
    names = defined() | set(LOCAL) | set(CAMEL)
    return {n: OTHER.get(n) or (camel(n) if n[0].isupper() else snake(n)) for n in sorted(names)}


def respelled(text, words):
    def new(m):
        step = m.start() and text[m.start() - 1] == "." and m.group(0) in OTHER
        return snake(m.group(0)) if step else words.get(m.group(0), m.group(0))

    return TOKEN.sub(new, text)


def ghost_parts(text):
    """The spans of a .rt file that speak antt: ghost use lines, clauses, ghost fields and members, and ghost lists."""
    for m in re.finditer(r"ghost use [^;]*;", text):
        yield m.span()
    for m in re.finditer(r"(?:requires|ensures|ghost|also_owns|also_shares)\*?(?: \w+)?:?(?: =)? ?\{", text):
        depth, i = 1, m.end()
        while depth and i < len(text):
            depth += {"{": 1, "}": -1}.get(text[i], 0)
            i += 1
        yield (m.end(), i)


def turned(path, text, words):
    if path.endswith(".antt"):
        return respelled(text, words)
    out, at = [], 0
    for a, b in sorted(ghost_parts(text)):
        if a < at:
            continue
        out += [text[at:a], respelled(text[a:b], words)]
        at = b
    return "".join(out) + text[at:]


def main():
    words = the_map()
    if "--list" in sys.argv[1:]:
        used = collections.defaultdict(set)
        for path in files((".antt", ".rt")):
            for m in TOKEN.finditer(re.sub(r"(?m)(?:--|//)(?: .*)?$", "", read(path))):
                used[m.group(0)].add(path)
        back = collections.defaultdict(list)
        for a, b in words.items():
            back[b].append(a)
            if b in used:
                print(f"taken: {a} -> {b}: {sorted(used[a])[:3]} and {sorted(used[b])[:4]}")
        for b, a in back.items():
            if len(a) > 1:
                print(f"fall together: {a} -> {b}")
        low = collections.defaultdict(set)
        for w in list(used) + list(words.values()):
            low[w.lower()].add(w)
        for a, b in words.items():
            if len(low[b.lower()]) > 1:
                print(f"but for case: {a} -> {b}: {sorted(low[b.lower()])}")
        print(len(words), "names")
        return
    for path in files((".antt", ".rt")):
        text = read(path)
        new = turned(path, text, words)
        if new != text:
            with open(path, "w", encoding="utf-8") as f:
                f.write(new)


if __name__ == "__main__":
    main()
