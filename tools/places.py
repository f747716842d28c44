#!/usr/bin/env python3
"""Where crates/*/src has a form that docs/DESIGN-PASS.md counts. `python3 tools/places.py` prints how many lines each search finds; with a name of a
search after it, the lines. A line found is a place to look at, and not a fault: the page says of each what was changed, and why the others stay."""
import pathlib
import re
import sys

TOP = pathlib.Path(__file__).resolve().parent.parent
FILES = sorted(TOP.glob("crates/*/src/**/*.rt"))

# What is looked for in each line of code.
LINES = {
    "1-enums": r"^\s*(pub )?enum ",
    "1-flags": r"\) -> bool\b|^\) -> bool\b",
    "1-numbers": r"\b(kind|number|code|operator|relation): u(8|32)\b|\bconst [A-Z_]+: u(8|32) = [0-9]+;|\bmatch (kind|number) \{|\b(kind|code) [!=]= |\bnumber == 1\b",
    "1-refusals": r"\brefusal: 1[2-6]\b|\brefused\((text, )?1[0-9]?, ",
    "2-least-and-largest": r"^\s*(pub )?(const )?fn (larger|over|unless|any_of|space_of|room_of|first_word|one_more)\b|\bif \w+ < \w+ \{ [^}]* \} else \{ [^}]* \}",
    "2-constants": r"^\s*(pub )?const [A-Z_]+: (u|i)\w+ = [0-9]+;",
    "3-loops": r"\b(while|loop)\b.*\{",
    "4-derives": r"^\s*#\[derive\(",
    "4-conversions": r"\bstd::num::|u32::MAX - |^\s*(pub )?fn (number|node|word_of|remainder|in_numbers|in_bits|answer_of|refusals?_\w+)\(",
    "7-switches": r"\bmatch (kind|number|body_of\(kind\)|places::kind_of\(.*\)|.*\bkind_of\(.*\)) \{|\b(impl|F:) ?Fn|\bdyn\b",
}

# Facts that several contracts state, by the name of the fact.
FACTS = {"5-facts": r"\b(Placed|Visit|Below|Found|Marks|Readable|Narrow|most_bytes|most_input)\b"}

# Parameters that travel together.
GROUPS = {
    "5-parameters": [
        ("desc", "starts"),
        ("desc", "starts", "input"),
        ("values", "descs"),
        ("values", "descriptors"),
        ("lent", "at"),
        ("t", "name", "expected"),
    ],
    "6-lengths": [
        ("text", "at"),
        ("desc", "i"),
        ("widths", "mosts", "halves"),
        ("p", "buffer"),
        ("values", "count"),
        ("table", "i"),
    ],
}


def code_of(path):
    for at, line in enumerate(path.read_text().splitlines(), 1):
        if not line.lstrip().startswith("//"):
            yield at, line


def lines_with(pattern, only=r""):
    found = []
    for path in FILES:
        for at, line in code_of(path):
            if re.search(pattern, line) and re.search(only, line):
                found.append(f"{path.relative_to(TOP)}:{at}: {line.strip()}")
    return found


def functions():
    for path in FILES:
        text = path.read_text()
        for m in re.finditer(r"\bfn (\w+)(?:<[^>]*>)?\(([^)]*)\)", text):
            names = {p.split(":")[0].replace("mut ", "").strip() for p in m.group(2).split(",") if ":" in p}
            yield f"{path.relative_to(TOP)}:{text.count(chr(10), 0, m.start()) + 1}: {m.group(1)}", names


def places():
    for name, pattern in LINES.items():
        yield name, lines_with(pattern)
    for name, pattern in FACTS.items():
        yield name, lines_with(pattern, r"\brequires\b|\bensures\b|^\s*×")
    for name, groups in GROUPS.items():
        for group in groups:
            yield f"{name} {'+'.join(group)}", [where for where, names in functions() if names.issuperset(group)]


def main():
    for name, found in places():
        if len(sys.argv) < 2:
            print(f"{len(found):4} {name}")
        elif name.split()[0] == sys.argv[1] or name == sys.argv[1]:
            print(f"{len(found)} {name}", *("  " + line for line in found), sep="\n")


main()
