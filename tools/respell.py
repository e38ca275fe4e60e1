#!/usr/bin/env python3
"""Spells the names that this repository's specs/ and proofs/ declare as today's library does.

usage: python3 tools/respell.py [--check]      at the top of the repository, once, right after the kit's port.py

Words in snake case (`digits-below`, `digitsBelow` -> `digits_below`), types in camel case (`Forms-stand` -> `FormsStand`).
A name is turned everywhere: in .antt files, in clauses and `ghost use` items of .rt files, in must-fail edits and in code spans of comments and pages.
Strings, names of Rust's, and names that the kit makes (goals, steps of a proof) stay. A name of the library's with the same spelling stays
in the files that import it. Prints what two names would fall together; --check writes nothing.
"""
import os
import re
import sys

NAME = r"[^\s(){}.;,@\"«»:]+"
DECLARED = re.compile(rf"^ *((?:pub |abbrev |unfoldable |data |record |\| )*)({NAME})((?: \{{[^{{}}]*\}})*)((?: \([^()]*\))*) : (.*)$")
MADE = re.compile(r"(?:need|goal|choice|given)\.")
TOKEN = re.compile(r"[^\s(){}.;,@\"«»\x60:]+'*")
STEP = re.compile(r"(?<![\w.-])(?:c|w|l|goal|need)\.\Z")
WORD = re.compile(r"[A-Za-z][A-Za-z0-9_'-]*")


# Names that would fall together with another when spelled so.
APART = {
    "Classes-right": "ClassesStand",
    "Labels-right": "LabelsStand",
    "Musts-right": "MustsStand",
    "Solutions-right": "SolutionsStand",
    "all-below": "all_below_each",
    "before-height": "second_spelled",
    "before-width": "first_spelled",
    "centre-bit": "centre_bit_in",
    "digits-on": "digits_on_step",
    "first-unknown": "first_unknown_is",
    "letter-of": "letter_of_mark",
    "neighbour-bit": "neighbour_bit_in",
    "said-centre": "said_centre_masked",
    "said-neighbours": "said_neighbours_masked",
    "said-successor": "said_successor_masked",
    "same-mark": "same_mark_self",
    "successor-bit": "successor_bit_in",
    "turnAt": "turned_at",
}

# Ghost members of traits.
MEMBERS = {"cellOf": "cell_of_rank", "rankOf": "rank_of_cell"}


def turned(name):
    """How a name is spelled today."""
    if name in APART:
        return APART[name]
    if name[0].isupper():
        return re.sub(r"-(.)", lambda m: m[1].upper(), name)
    words = re.sub(r"(?<=[a-z0-9])[A-Z]", lambda m: "_" + m[0].lower(), name)
    return words.replace("-", "_")


def files(root, *ends):
    for folder, dirs, names in os.walk(root):
        dirs[:] = sorted(d for d in dirs if d not in ("out", "target", ".git"))
        for n in sorted(names):
            if n.endswith(ends):
                yield os.path.join(folder, n)


def read(path):
    with open(path, encoding="utf-8") as f:
        return f.read()


def code(text):
    """An .antt text without comments and strings."""
    text = re.sub(r"(?m)(^|(?<=\s))--.*$", "", text)
    return re.sub(r'"(?:[^"\\\n]|\\.)*"', '""', text)


def collect():
    """The names to be turned, each with its new spelling."""
    table, made = dict(MEMBERS), set()
    for path in files("crates", ".antt"):
        for line in code(read(path)).split("\n"):
            m = DECLARED.match(line)
            if not m:
                continue
            name = m[2]
            if MADE.match(m[5]):
                made.add(name)
            elif WORD.fullmatch(name) and turned(name) != name:
                table[name] = turned(name)
    for name in made & set(table):
        print(f"look: {name} is also a name that the kit makes: stays")
        del table[name]
    return table


def imported(text):
    """The names that a file takes from a library of the kit."""
    found = set()
    for path, items in re.findall(r"use ([^\s;{]+)\.\{([^}]*)\}", text):
        if path.startswith(("Rattle.std", "Rattle.core", "Prim", "mathlib", "native", "borrow", "lib.")):
            for item in items.split(","):
                found.update(w.strip() for w in item.split(" as "))
    return found


def turn_code(text, table, prose=False, steps=False):
    """The text with each name of the table turned; in prose only those in code spans."""
    if prose:
        return re.sub(r"\x60[^\x60\n]+\x60", lambda m: turn_code(m[0], table), text)
    out, at = [], 0
    for m in re.finditer(r'"(?:[^"\\\n]|\\.)*"|(?m:(?:^|(?<=\s))--(?=\s|$).*$)', text):
        out.append(turn_words(text[at : m.start()], table, steps))
        out.append(turn_code(m[0], table, True) if m[0].startswith("--") else m[0])
        at = m.end()
    out.append(turn_words(text[at:], table, steps))
    return "".join(out)


def turn_words(text, table, steps):
    """The text with each name of the table turned; where it has steps, the kit's names of steps and goals stay."""
    return TOKEN.sub(lambda t: t[0] if steps and STEP.search(text, max(0, t.start() - 8), t.start()) else table.get(t[0], t[0]), text)


def turn_rust(text, table):
    out, at = [], 0
    for m in re.finditer(r'//[^\n]*|b?"(?:[^"\\]|\\.)*"', text):
        out.append(turn_code(text[at : m.start()], table))
        out.append(turn_code(m[0], table, True) if m[0].startswith("//") else m[0])
        at = m.end()
    out.append(turn_code(text[at:], table))
    return "".join(out)


def clashes(path, before, table):
    words = set(TOKEN.findall(code(before)))
    seen = {}
    for w in words:
        seen.setdefault(table.get(w, w), set()).add(w)
    for new, olds in sorted(seen.items()):
        if len(olds) > 1:
            print(f"look: {path}: {', '.join(sorted(olds))} fall together as {new}")


def main():
    write = "--check" not in sys.argv
    table = collect()
    print(f"{len(table)} names")
    for path in files(".", ".antt", ".rt", ".edit", ".md"):
        if path.startswith("./docs/PORT"):
            continue
        before = read(path)
        mine = {k: v for k, v in table.items() if k not in imported(before)}
        if path.endswith((".antt", ".rt")):
            clashes(path, before, mine)
            for k in sorted((set(table) - set(mine)) & set(TOKEN.findall(code(before)))):
                print(f"look: {path}: {k} is the library's here: stays")
        if path.endswith(".antt"):
            after = turn_code(before, mine, False, path.endswith(("/Answers.antt", "/Invariants.antt")))
        elif path.endswith(".rt"):
            after = turn_rust(before, mine)
        elif path.endswith(".edit"):
            after = turn_code(before, mine)
        else:
            after = turn_code(before, mine, True)
        if after != before and write:
            with open(path, "w", encoding="utf-8") as f:
                f.write(after)


main()
