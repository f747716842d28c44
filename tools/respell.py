#!/usr/bin/env python3
"""Brings the repository's own definitions and lemmas to today's spelling: words in snake case, a dash only between two names.

usage: python3 tools/respell.py [--check]      at the top of the repository, once, after port.py

Turned are the names that .antt files of crates/ declare (definitions, lemmas, constructors, fields): in .antt files, in the clauses, the
`ghost use` items and the comments of .rt files, in must-fail edits, and in the code spans of README.md and docs/. Types, modules, what
Rattle makes of a source (the goals that a Proof.antt answers) and the functions of src/ keep their names. --check writes nothing.
Two names that would fall together are named, and nothing is written. A second run changes nothing.
"""
import glob
import re
import sys

WORD = r"[^\s(){}\[\],;.:`\"|]+"
DECLARED = re.compile(
    r"(?m)^[ \t]*(?:\| )?(?:(?:pattern|unfoldable|abbrev|pub|axiom)[ \t]+)*(" + WORD + r"(?:[ \t]+" + WORD + r")*)(?:[ \t]+\{[^{}\n]*\})?[ \t]+:[ \t]"
)
TOKEN = re.compile(WORD)
# A lemma that would have its definition's name ends in _lem.
LEMMAS = {it: it.replace("-", "_") + "_lem" for it in ("descriptor-words", "value-words", "nodes-of", "tree-of", "first_round")}
# Each of these stands in another crate than the definition that it would be spelled like, and no file has both.
APART = {"no_number", "second_at"}
MARKS = {"pattern", "unfoldable", "abbrev", "pub", "axiom", "data", "record", "let", "module", "use", "in"}


def snake(word):
    """A word in snake case; a leading capital is a type's and stays."""
    return re.sub(r"(?<=[a-z0-9₀-₉])([A-Z])", lambda m: "_" + m[1].lower(), word)


def code(text):
    return re.sub(r"--.*", "", text)


def antt_files(kind):
    return sorted(glob.glob(f"crates/*/{kind}/**/*.antt", recursive=True))


def is_walk(path):
    """A function's own proof: what it declares are goals, under the names that Rattle makes."""
    return "/proofs/" in path and path.split("/proofs/")[1].count("/") > 0


def declared():
    """The names that specs/ and the lemma files declare."""
    own = set()
    for path in antt_files("specs") + antt_files("proofs"):
        if is_walk(path):
            continue
        with open(path, encoding="utf-8") as f:
            text = code(f.read())
        for names in DECLARED.findall(text):
            words = names.split()
            if words[0] not in MARKS:
                own.update(words)
    return own


def library():
    """Names of std that a lemma's name may be joined of."""
    found = set()
    for path in antt_files("specs") + antt_files("proofs"):
        with open(path, encoding="utf-8") as f:
            for path_, names in re.findall(r"(?m)^use ([^\s{]+)\.\{([^}]*)\}", f.read()):
                if not path_.startswith("Rattle.") or path_.startswith("Rattle.std"):
                    found.update(it.strip() for it in names.split(","))
    return found


def spelling(own, known):
    """The table: each own name that changes, with its new spelling."""
    spelled = {snake(it) for it in own if "-" not in it} | known

    def new(name):
        if name[:1].isupper():
            return name
        parts = [snake(it) for it in name.split("-")]
        if "" in parts:
            return snake(name)
        out = parts[0]
        for i in range(1, len(parts)):
            joined = out in spelled and "_".join(parts[i:]) in spelled
            out += ("-" if joined else "_") + parts[i]
        return out

    # first_round is the lemma's name only as long as the definition is firstRound.
    lemmas = LEMMAS if "firstRound" in own else {}
    return {it: lemmas.get(it, new(it)) for it in own if lemmas.get(it, new(it)) != it}


def turn(text, table):
    return TOKEN.sub(lambda m: table.get(m[0], m[0]), text)


def turn_rt(text, table):
    """Clauses, ghost items and comments alone: the code's names and strings stay."""
    out, depth, clause = [], 0, False
    for line in text.split("\n"):
        bare = line.strip()
        begins = re.match(r"(pub )?(ghost|requires|ensures|where)\b", bare) is not None
        if not clause and begins and not bare.startswith("where"):
            clause, depth = True, 0
        if clause:
            out.append(turn(line, table))
            depth += bare.count("{") - bare.count("}")
            clause = depth > 0
        elif bare.startswith("//"):
            out.append(turn(line, table))
        else:
            out.append(line)
    return "\n".join(out)


def turn_spans(text, table):
    """The code spans and fenced blocks of a page."""
    parts = re.split(r"(```.*?```|`[^`\n]*`)", text, flags=re.S)
    return "".join(turn(it, table) if it.startswith("`") else it for it in parts)


def clashes(own, table):
    """Names that would fall together: of all that are declared, and in one file."""
    seen, bad = {}, []
    for it in sorted(own):
        to = table.get(it, it)
        if to in seen and to not in APART:
            bad.append((seen[to], it, to))
        seen.setdefault(to, it)
    for path in antt_files("specs") + antt_files("proofs"):
        with open(path, encoding="utf-8") as f:
            words = set(re.findall(rf"(?<![\w.-]){WORD}", code(f.read())))
        bad += [(it, path, table[it]) for it in words if it in table and table[it] in words and table[it] not in LEMMAS]
    return bad


def main():
    check = "--check" in sys.argv[1:]
    own = declared()
    table = spelling(own, library())
    bad = clashes(own, table)
    for a, b, to in bad:
        print(f"{a} and {b} would both be {to}")
    if bad:
        return 1
    # A page or an edit may still have the spelling of before port.py: it takes the name that stands now.
    now = own | set(table.values())
    older = {}
    for it in now:
        head, *rest = it.replace("-", "_").split("_")
        if rest and not it[:1].isupper():
            older[head + "".join(w[:1].upper() + w[1:] for w in rest)] = table.get(it, it)
            older["-".join([head, *rest])] = table.get(it, it)
    older = {k: v for k, v in older.items() if k not in now} | table
    changed = 0
    for path in antt_files("specs") + antt_files("proofs") + sorted(glob.glob("crates/*/src/**/*.rt", recursive=True)) + sorted(glob.glob("crates/*/must-fail/*.edit")) + ["README.md"] + sorted(set(glob.glob("docs/**/*.md", recursive=True)) - {"docs/PORT.md"}):
        with open(path, encoding="utf-8") as f:
            text = f.read()
        if path.endswith(".antt"):
            new = turn(text, walk_table(text, table) if is_walk(path) else table)
        elif path.endswith(".rt"):
            new = turn_rt(text, table)
        elif path.endswith(".edit"):
            new = turn(text, older)
        else:
            new = turn_spans(text, older)
        if new != text:
            changed += 1
            if not check:
                with open(path, "w", encoding="utf-8") as f:
                    f.write(new)
    print(f"{len(table)} names, {changed} files")
    return 0


def walk_table(text, table):
    """In a function's proof a name that it declares itself for a goal stays."""
    goals = set(re.findall(r"(?m)^(?:abbrev )?(?:pub )?(" + WORD + r") : (?:tie|goal)\.", code(text)))
    return {k: v for k, v in table.items() if k not in goals}


if __name__ == "__main__":
    raise SystemExit(main())
