#!/usr/bin/env python3
"""Looks whether the code that docs/USING.md shows stands in the files that it names.

A block of code is indented by four spaces, and the paragraph before it ends in a colon and names the file, or says `the same file`.
Blocks of other paragraphs (commands, and what they write) are passed over.

usage: shown_code.py      the last line is `N blocks, 0 wrong`
"""
import os
import re
import sys

TOP = os.path.dirname(os.path.dirname(os.path.abspath(__file__)))
NAMED = re.compile(r"`(crates\.txt|crates/[\w/-]+(?:\.(?:rt|antt|edit)|/stdout))`")


def shown(lines):
    """Each block, with the number of its first line and the paragraph before it."""
    text, block, start = "", [], 0
    for number, line in enumerate(lines + ["."], 1):
        if line.startswith("    ") or (block and not line):
            start = start if block else number
            block.append(line[4:])
            continue
        if block:
            yield start, text, "\n".join(block).strip("\n")
            block, text = [], ""
        text = line or text


def main():
    with open(os.path.join(TOP, "docs", "USING.md"), encoding="utf-8") as page:
        lines = page.read().split("\n")
    path, blocks, wrong = None, 0, 0
    for start, text, block in shown(lines):
        named = NAMED.findall(text)
        if not text.endswith(":") or not (named or "the same file" in text):
            continue
        path = named[-1] if named else path
        blocks += 1
        with open(os.path.join(TOP, path), encoding="utf-8") as source:
            if block not in source.read():
                wrong += 1
                print(f"docs/USING.md:{start}: not so in {path}")
    print(f"{blocks} blocks, {wrong} wrong")
    sys.exit(wrong > 0)


main()
