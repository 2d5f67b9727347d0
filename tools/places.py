#!/usr/bin/env python3
"""Lists the places in crates/*/src that docs/DESIGN-PASS.md counts, point by point.

    python3 tools/places.py [--list] [TOP]

TOP is the top of a checkout (the current directory by default). Without --list only the counts are printed.
It goes by text: what it finds is looked at by a reader, and what only a reader finds stands on the page beside it.
"""
import re
import sys
from pathlib import Path

show = "--list" in sys.argv
args = [a for a in sys.argv[1:] if a != "--list"]
top = Path(args[0] if args else ".")
files = sorted(top.glob("crates/*/src/**/*.rt"))
texts = {f: f.read_text().splitlines() for f in files}


def code(line):
    """The line without its comment, and empty for a line of ghost imports."""
    return "" if line.lstrip().startswith(("//", "ghost use")) else line


def lines(pattern):
    """Each line of code that the pattern is found in."""
    return [(f, i + 1, l.strip()) for f, ls in texts.items() for i, l in enumerate(ls) if re.search(pattern, code(l))]


def after(head, body):
    """Each line that ends in `head` and is followed by one that holds `body`."""
    return [
        (f, i + 1, ls[i + 1].strip())
        for f, ls in texts.items()
        for i in range(len(ls) - 1)
        if re.search(head, code(ls[i])) and re.search(body, code(ls[i + 1]))
    ]


def heads():
    """Each function of src/: file, line, the text of its head up to its clauses or body."""
    for f, ls in texts.items():
        for i, l in enumerate(ls):
            if re.match(r"\s*(pub(\(crate\))? )?fn ", l):
                head = l
                j = i
                while not re.search(r"\)( -> [^{]*)?( \{.*)?$", head) and j + 1 < len(ls):
                    j += 1
                    head += " " + ls[j].strip()
                yield f, i + 1, head


def bodies():
    """Each function with its body, as text."""
    for f, i, head in heads():
        ls = texts[f]
        depth, body, started = 0, [], False
        for l in ls[i - 1 :]:
            if started or (re.match(r"\s*\{", l) or l.rstrip().endswith("{")) and "ensures" not in l and "requires" not in l:
                started = True
                body.append(l)
                depth += code(l).count("{") - code(l).count("}")
                if depth <= 0:
                    break
        yield f, i, head, "\n".join(body)


def flag_loops():
    """Functions that walk a list only to answer true or false."""
    return [
        (f, i, head.strip())
        for f, i, head, body in bodies()
        if "-> bool" in head and re.search(r"for \w+ in", body) and re.search(r"return (true|false);", body)
    ]


def parameters(least):
    """Functions of so many parameters."""
    found = []
    for f, i, head in heads():
        head = head.replace("pub(crate)", "pub")
        inner = head[head.find("(") + 1 :]
        depth, count, some = 1, 0, False
        for c in inner:
            if c in "(<[":
                depth += 1
            elif c in ")>]":
                depth -= 1
                if depth == 0:
                    break
            elif c == "," and depth == 1:
                count += 1
                some = False
                continue
            if not c.isspace():
                some = True
        count += 1 if some else 0
        if count >= least:
            found.append((f, i, f"{count}: {head.strip()[:80]}"))
    return found


def bare_types():
    """Structs and enums without a derived comparison."""
    found = []
    for f, ls in texts.items():
        for i, l in enumerate(ls):
            if re.match(r"\s*(pub(\(crate\))? )?(struct|enum) ", l):
                derive = ls[i - 1] if i and "derive" in ls[i - 1] else ""
                if "PartialEq" not in derive:
                    found.append((f, i + 1, f"{derive.strip()} {l.strip()}"))
    return found


points = [
    ("1a numbers in the place of refusals", lines(r"Result<[^;{]*, u32>|\w+\(u32\),?$|refusal: (u32|Option<u32>)|-> Option<\w*Refusal>") + after(r"struct Refused", r"index|number")),
    ("1b a Result of an Option", lines(r"Result<Option<")),
    ("1c let-else or match that only passes a none or an error on",
     after(r"else \{$", r"return (None|Ok\(None\)|Err\(|[A-Za-z]*String::from_str|b\"\?\")")
     + after(r"match .* \{$", r"Some\(.*=> (Some|Ok\(Some)|Ok\(.*=> Ok\(")),
    ("1d a case for 'none' in an enum of ours", lines(r"^\s*(Empty|None|Nothing|Absent),$")),
    ("3a loops over an index", lines(r"for \w+ in [\w.+]+\.\.|while .*(len\(\)|i \+ 1)")),
    ("3b loops that only answer true or false", flag_loops()),
    ("4a structs and enums without a derived comparison", bare_types()),
    ("4b functions that make text, numbers or names of a value", lines(r"fn [a-z_]*(_text|_name|_number|_line|^number)\(")),
    ("4c number() of a refusal or a fault", lines(r"fn number\(")),
    ("4d casts by `as`", lines(r" as (u8|u16|u32|u64|u128|usize|char)\b")),
    ("5a requires", lines(r"^\s*requires ")),
    ("5b of these on the width or the count of a table", lines(r"^\s*requires (wide|few|sizes|fits|orderly|cursor)\b|^\s*ensures wide\b")),
    ("5c functions of five parameters or more", parameters(5)),
    ("6a fixed arrays beside a count or a place", lines(r"\[[A-Za-z]+; (16|32|33|64)\]|at: usize,")),
    ("7a switches on which judge", lines(r"Desk::(Points|Steps|Empty)|JudgeName::")),
    ("8a functions for a theorem that answer a number", after(r"pub fn \w+(<.*>)?\(.*\) -> u8$", r"")),
]
for name, found in points:
    print(f"{len(found):4}  {name}")
    if show:
        for f, i, l in found:
            print(f"          {f.relative_to(top)}:{i}: {l}")

proofs = [p for p in top.glob("crates/*/proofs/**/*.antt")]
kinds = {}
for p in proofs:
    kind = p.name if p.name in ("Answers.antt", "Invariants.antt") else "lemma files"
    n, l = kinds.get(kind, (0, 0))
    kinds[kind] = (n + 1, l + len(p.read_text().splitlines()))
for kind in sorted(kinds):
    print(f"{kinds[kind][0]:4}  8b proof files: {kind}, {kinds[kind][1]} lines")
