#!/usr/bin/env python3
"""Gives this repository's own names in specs/ and proofs/ the spelling of today's Rattle: `least-good-point` becomes `least_good_point`.

usage: snake_names.py ROOT [--write]      (without --write it only lists)

It turns whole names only, in specs/, proofs/, src/, must-fail/, and in backquotes in comments, docs/ and README.md; strings and plain comments stay.
Types and modules keep their upper camel case. In a lemma's name a dash stays where it joins one of std's words (`length`, `take`, `cond`, ..) to another name, as in `length-joined`.
Names of std, of the kit and of the checker's goals are not touched: only a name that a file of specs/ or proofs/ declares is turned.
docs/PORT.md, which lists the old names, stays as it is.
"""
import glob
import os
import re
import sys

root = sys.argv[1]
write = "--write" in sys.argv
CRATES = "|".join(sorted(os.listdir(os.path.join(root, "crates"))))
WORD = re.compile(r"[A-Za-z_][\w'\-]*(?<!-)")
DECLARED = re.compile(r"(?m)^ *(?:abbrev |unfoldable |ruleset |record |data |pub )*([A-Za-z][\w'\-]*)(?: |\n +)(?=::|:|[({])")
IMPORTED = re.compile(r"(?m)^\s*(?:pub |ghost )*use (?!Rattle\.(?:%s)\.)\S+?\.\{([^}]*)\}" % CRATES)
JOINED = re.compile(r"(length|take|drop|cond|append|reverse)-\w+$")


def files(*parts):
    for part in parts:
        for path in sorted(glob.glob(os.path.join(root, part), recursive=True)):
            if "/out/" not in path and os.path.isfile(path):
                with open(path, encoding="utf-8") as f:
                    yield path, f.read()


def bare(text):
    return re.sub(r"--[^\n]*", "", text)


ANTT = "crates/*/specs/**/*.antt", "crates/*/proofs/**/*.antt"
declared, defined, foreign, words = set(), set(), set(), set()
for path, text in files(*ANTT, "crates/*/src/**/*.rt"):
    for names in IMPORTED.findall(text):
        foreign |= set(re.split(r"[,;\s]+| as ", names))
    if path.endswith(".antt"):
        text = bare(text)
        words |= set(WORD.findall(text))
        own = {m[1] for m in DECLARED.finditer(text) if not text[m.end():].startswith(": goal.")}
        declared |= own
        if "/specs/" in path:
            defined |= own
new = {n: n.replace("-", "_") for n in declared - foreign if "-" in n and (n in defined or not JOINED.match(n))}


def quoted(text):
    """A comment or a page: what stands in backquotes, but for paths of files. A name may have been turned before, by the kit's script."""
    def one(m):
        snake = m[0].replace("-", "_")
        return new.get(m[0], snake if snake in words else m[0])

    return re.sub(r"`[^`\n]*`", lambda q: q[0] if "/" in q[0] else WORD.sub(one, q[0]), text)


def code(text, comment):
    form = re.compile(comment + r'[^\n]*|"(?:[^"\\\n]|\\.)*"|' + WORD.pattern)

    def one(m):
        if m[0].startswith('"'):
            return m[0]
        return quoted(m[0]) if re.match(comment, m[0]) else new.get(m[0], m[0])

    return form.sub(one, text)


together = sorted(n for n in new if new[n] in words and new[n] in declared | foreign)
if together:
    sys.exit("these would fall together with a name that is there already: " + ", ".join(together))
if len(set(new.values())) != len(new):
    sys.exit("two names would become one")
count = 0
for path, text in files(*ANTT, "crates/*/src/**/*.rt", "crates/*/must-fail/*.edit", "docs/*.md", "README.md"):
    if path.endswith("PORT.md"):
        continue
    now = quoted(text) if path.endswith(".md") else code(text, "--" if path.endswith(".antt") else "//")
    if now != text:
        count += 1
        if write:
            with open(path, "w", encoding="utf-8") as f:
                f.write(now)
if not write:
    print("\n".join(f"{n} -> {new[n]}" for n in sorted(new)))
print(f"{len(new)} names in {count} files" + ("" if write else ", nothing written"))
