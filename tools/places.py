#!/usr/bin/env python3
"""Counts, over crates/*/src, the places that docs/DESIGN-PASS.md speaks of.

usage: python3 tools/places.py [-v] [TREE]      TREE: the top of a checkout, by default the folder that this is run in

Each line is a point of that page, a search and how many places it finds; -v lists them. Files named tests.rt are left out.
"""
import collections
import glob
import os
import re
import sys

FN = re.compile(r"^(\s*)(?:pub(?:\(crate\))? )?(?:const )?fn (\w+)", re.M)


def functions(text):
    """Name, line, signature with clauses, and body of each function that has one."""
    lines = text.split("\n")
    for at, line in enumerate(lines):
        m = FN.match(line)
        if not m:
            continue
        indent = m.group(1)
        head, k = [], at
        while k < len(lines):
            line = lines[k]
            head.append(line)
            opens = line == indent + "{" or (line.endswith("{") and not re.match(r"\s+(requires|ensures)\b", line))
            if opens or (line.endswith(";") and not re.match(r"\s+(requires|ensures)\b", line)):
                break
            k += 1
        if k == len(lines) or not lines[k].endswith("{"):
            continue
        end = next(i for i in range(k, len(lines)) if lines[i] == indent + "}")
        yield m.group(2), at + 1, "\n".join(head), "\n".join(lines[k + 1:end])


def clauses(head):
    for m in re.finditer(r"\b(requires|ensures)\b(?: \w+)? \{(.*?)\}(?=\n|$)", head, re.S):
        yield m.group(1), re.sub(r"\s+", " ", m.group(2).strip())


WORD = re.compile(r"[A-Za-z_]\w*|\d[\w]*|b?'(?:[^'\\]|\\.)'|b?\"(?:[^\"\\]|\\.)*\"|\S")
KEEP = set("fn let mut if else match for in while loop return break self Some None Ok Err true false as &mut pub impl".split())


def shape(tail):
    """The body with its names, numbers and texts made alike."""
    out = []
    for t in WORD.findall(re.sub(r"//.*", "", tail)):
        if t in KEEP or not re.match(r"[A-Za-z_\d'\"b]", t):
            out.append(t)
        else:
            out.append("x")
    return " ".join(out)


def main():
    args = [a for a in sys.argv[1:] if a != "-v"]
    verbose = "-v" in sys.argv
    top = args[0] if args else "."
    files = sorted(glob.glob(os.path.join(top, "crates/*/src/*.rt")))
    texts = {os.path.relpath(f, top): open(f, encoding="utf-8").read() for f in files}
    code = {f: t for f, t in texts.items() if not f.endswith("tests.rt")}
    fns = [(f, *fn) for f, t in code.items() for fn in functions(t)]

    def show(point, what, found):
        found = list(found)
        print(f"{point}  {what}: {len(found)}")
        if verbose:
            for x in found:
                print("     ", x)

    def lines(pattern, within=code):
        for f, t in within.items():
            for i, line in enumerate(t.split("\n"), 1):
                if re.search(pattern, line) and not line.lstrip().startswith("//") and not line.startswith("ghost use"):
                    yield f"{f}:{i} {line.strip()}"

    show("1a", "functions that change something and answer a bool for success", (f"{f}:{n} {name}" for f, name, n, head, tail in fns if "&mut" in head and "-> bool" in head))
    show("1b", "functions that answer a number which means nothing (law functions)", (f"{f}:{n} {name}" for f, name, n, head, tail in fns if re.search(r"-> u8", head) and tail.strip() == "0"))
    show("1c", "flags among the fields of a struct", lines(r"^\s+(pub(\(crate\))? )?\w+: bool,$"))
    show("1d", "numbers for kinds", lines(r"\bkind: u(8|32)\b"))
    show("1e", "arms that only wrap an answer again", lines(r"Ok\((\w+|\(\))\) => Ok\(|Err\((\w+)\) => Err\(|Some\((\w+)\) => (\2|Some\(\2\))\b"))

    groups = collections.defaultdict(list)
    for f, name, n, head, tail in fns:
        s = shape(tail)
        if len(s.split()) > 14:
            groups[s].append(f"{f}:{n} {name}")
    twins = [g for g in groups.values() if len(g) > 1]
    show("2a", "functions whose bodies differ only in names, numbers and texts", (", ".join(g) for g in twins))
    print("    functions in these groups:", sum(map(len, twins)))

    loops = list(lines(r"^\s*(while|loop|for)\b.*\{$"))
    show("3a", "all loops", loops)
    show("3b", "while loops", (x for x in loops if " while " in x))
    show("3c", "for loops over a range of numbers", (x for x in loops if re.search(r"for \w+ in .*\.\.", x)))
    show("3d", "reads and writes by an index inside a function with a loop", (f"{f}:{n} {name}" for f, name, n, head, tail in fns if re.search(r"\b(while|for) ", tail) and re.search(r"\w\[(?!\.\.)[\w. ]+(?: as usize)?\]", tail)))

    show("4a", "casts by `as`", (m for m in lines(r" as (u8|u16|u32|u64|usize|i32|char)\b")))
    show("4b", "arms that make one enum's case of another's or of a number", lines(r"^\s*(\w+::\w+(\(\w+\))?|\d+|_|'.'|b'.'|Some\(\d+\)) => (Ok\(|Some\()?(\w+::\w+|b'.'|\d+)\)?,$"))
    show("4c", "impls of From, TryFrom, Display", lines(r"^impl.* (From|TryFrom|fmt::Display|Display)\b.* for "))

    by = collections.defaultdict(set)
    for f, name, n, head, tail in fns:
        for kind, c in clauses(head):
            c = re.sub(r"\.(old|now|new|entry)\b", "", c)
            for part in re.split(r" × | → ", c):
                part = part.strip("() ")
                if len(part) > 8:
                    by[(f.split("/")[1], part)].add(f"{f}:{n} {name}")
    many = {k: v for k, v in by.items() if len(v) >= 3}
    show("5a", "facts that stand in the contracts of three or more functions of a crate", (f"{k[0]}: {k[1]}  [{len(v)}]" for k, v in sorted(many.items(), key=lambda kv: -len(kv[1]))))
    pairs = collections.defaultdict(set)
    for f, name, n, head, tail in fns:
        sig = re.search(r"\((.*?)\)(?: ->|\s*$|\s*\{|\n)", head, re.S)
        ps = re.findall(r"(\w+): (&?(?:mut )?[\w<>\[\]']+)", sig.group(1)) if sig else []
        ps = [p for p in ps if p[0] != "self"]
        for i in range(len(ps)):
            for j in range(i + 1, len(ps)):
                pairs[(f.split("/")[1], ps[i][0], ps[j][0])].add(f"{f}:{n} {name}")
    show("5b", "pairs of parameters that stand in three or more functions of a crate", (f"{k[0]}: {k[1]}, {k[2]}  [{len(v)}]" for k, v in sorted(pairs.items(), key=lambda kv: -len(kv[1])) if len(v) >= 3))

    show("6a", "arrays among the fields of a struct", lines(r"^\s+(pub(\(crate\))? )?\w+: \[\w+; \w+\],$"))
    structs = []
    for f, t in code.items():
        for m in re.finditer(r"struct (\w+)[^{;]*\{(.*?)\n\}", t, re.S):
            vecs = re.findall(r"(\w+): Vec<", m.group(2))
            if len(vecs) > 1:
                structs.append(f"{f} {m.group(1)}: {', '.join(vecs)}")
    show("6b", "structs with several Vecs", structs)
    show("7a", "matches that call the same method in each arm", (f"{f}:{n} {name}" for f, name, n, head, tail in fns if len(re.findall(r"=> \w+\.(\w+)\(", tail)) >= 2 and len(set(re.findall(r"=> \w+\.(\w+)\(", tail))) == 1))
    proofs = glob.glob(os.path.join(top, "crates/*/proofs/**/*.antt"), recursive=True)
    n = sum(1 for p in proofs for _ in open(p, encoding="utf-8"))
    print(f"8   files and lines in proofs/: {len(proofs)}, {n}")
    answers = [p for p in proofs if p.endswith("Answers.antt")]
    print(f"8   files of answers: {len(answers)}")


main()
