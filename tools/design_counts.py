#!/usr/bin/env python3
"""Counts, in the source files of a tree, the places that docs/DESIGN-PASS.md speaks of: design_counts.py TREE [--list]
TREE has crates/*/src. Each row is a point of the page, a name and a pattern; --list prints the lines that it found."""

import pathlib
import re
import sys

PATTERNS = [
    ("1", "a number answered for nothing", r"\bfn \w+(<[^>]*>)?\(\) -> u8\b"),
    ("1", "a number for a kind", r"\b(form|code|tag): u(8|16|32|size)\b"),
    ("1", "a flag beside a value", r"\b(unused: usize|spent: bool|refused: Option<)|\(+[\w:<>, ]+, bool\)"),
    ("1", "a refusal in an Option", r"-> Option<Refusal>"),
    ("1", "an Option or Result taken apart by hand", r"(None => (None|false|Err|Ok)|Some\(_\) => true|Ok\(_\) => false|Err\(_\) => (false|Err)|let Some\(\w+\) = .* else)"),
    ("1", "a number by which a case is known", r"^\s*Refusal::\w+ => \d+,"),
    ("2", "functions for a label and again for a passage", r"\bfn (read_passage|room_after_passage|put_passage|write_passage|passage_to_row|passage_from_row)\b"),
    ("2", "readers of one item each", r"\bfn take_(open|close|space|newline)\b"),
    ("2", "the same function under another test or word", r"\bfn (all_digits|all_lower|any_word|own_word|any_entry|own_entry|read_any|read_some)\b"),
    ("2", "one to measure and one to write", r"\bfn (?!has_)(\w+_room|room_\w+)\b"),
    ("2", "structs and impls that differ in a constant, a field or a word", r"\b(struct (Span|YearCount|Lock|Ceiling)\b|impl PartText for)"),
    ("2", "range checks written out", r"(< 1 \|\| \w+ > |\b(level|number|claim|n) > (\d+|\w+::(LAST|MOST)))"),
    ("2", "readers and writers of one side of a row", r"\bfn (key_of|next_of|head_of|with_next|with_head)\b"),
    ("3", "a loop that counts an index by hand", r"^\s*while [^l].*(<|<=|>) "),
    ("3", "a loop along a thread of slots", r"^\s*while let Some\(\w\) = (at|first)"),
    ("3", "a for over a range of numbers", r"^\s*for \w+ in .*\.\."),
    ("3", "a recursion that counts down", r"\b\w+\(.*(m - 1|n / 10)\)"),
    ("4", "equality, order or conversion by hand", r"\bfn (same|same_bytes|from_number|is_row)\b|\bfn number\(self\)|\bpub fn new\(\w+: u(8|32)\) -> Result"),
    ("4", "the greater of two by hand", r"if self\.\w+ < other\.\w+"),
    ("4", "bytes by number", r"^(?!\s*ensures).*((!=|==|<|>|<=|>=) (32|40|41|45|48|57|97|122)\b|(!=|==) 10\b|\b(48|97) <=)|^ +(10|32|40|41) => Some|split\(\w+, 10\)"),
    ("4", "comparison by index", r"\.index\(\) (<|<=|>|>=) (?!self\.n\b)"),
    ("5", "a table in order, asked or ensured", r"(requires|ensures)( \w+)? \{ Kept "),
    ("5", "tables in order of ranks, asked or ensured", r"(requires|ensures)( \w+)? \{ (Ordered|Sound) "),
    ("5", "sizes of tables, asked", r"requires( sizes| room)? \{ .*(length (marks|heads|own|labels|list)|Room )"),
    ("5", "clean marks, asked", r"requires clean"),
    ("5", "a place inside a text, asked", r"requires( \w+)? \{ at ≤ length text"),
    ("5", "rows, heads and tally as parameters", r"\b(heads: &(mut )?\[Heads\]|tally: (&mut )?Tally)"),
    ("5", "ranks and places as parameters", r"\b(rank_of|place_at): &(mut )?\["),
    ("5", "a low and a high rank as parameters", r"\blow: Rank"),
    ("6", "a text and a place in it as parameters", r"\btext: &('a )?\[u8\], at: usize|^\s*at: usize,"),
    ("6", "a buffer and a place in it as parameters", r"\bout: &mut \[u8\], at: usize"),
    ("6", "mark bytes and their number as parameters", r"\bmarks: &(mut )?\[u8\]"),
    ("6", "tables that stand beside one another", r"^\s*pub \w+: Vec<"),
    ("7", "a function for each case of a switch", r"\bfn (bring|own|link|unlink|label|explain|list|discard)_rest\b"),
    ("7", "a chain of tests by a word", r"(if |\|\| )(same_bytes\(|\w+ == b\")"),
]


def main():
    tree = pathlib.Path(sys.argv[1])
    files = sorted(tree.glob("crates/*/src/**/*.rt"))
    for point, name, pattern in PATTERNS:
        found = [
            (f.relative_to(tree), i, line.strip())
            for f in files
            for i, line in enumerate(f.read_text(encoding="utf-8").split("\n"), 1)
            if re.search(pattern, line) and not line.lstrip().startswith("//")
        ]
        print(f"{point}  {len(found):4}  {name}")
        if "--list" in sys.argv:
            for f, i, line in found:
                print(f"            {f}:{i}: {line[:120]}")
    answers = sum(len(f.read_text(encoding="utf-8").split("\n")) - 1 for f in tree.glob("crates/*/proofs/**/*.antt"))
    print(f"8  {answers:4}  lines in proofs/")
    goals = sum(len(re.findall(r"(?m)^pub [\w-]+ : goal\.", f.read_text(encoding="utf-8"))) for f in tree.glob("crates/*/proofs/**/Answers.antt"))
    print(f"8  {goals:4}  answers to goals")


main()
