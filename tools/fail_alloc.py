#!/usr/bin/env python3
"""Runs the two programs with their first allocation failing, then their second, and so on, until all runs end well.

Each run must end in an error, with nothing written but a front part of its whole text (the player: nothing at all), or well, with
the whole text.

usage: fail_alloc.py      some minutes; the last line is `N runs, 0 wrong`
"""
import os
import re
import subprocess
import sys
import tempfile

TOP = os.path.dirname(os.path.dirname(os.path.abspath(__file__)))
FILE = "52414B00014602000241000000010000000200000005037361775700000001"
RACK = "make 1 points F\nadmit 1 2 5 16\n"

# what each program is run on: the player a file, and the test program a script
CASES = {
    "player": {
        "line": open(os.path.join(TOP, "samples", "line.rak"), "rb").read(),
        "unreadable": b"RA",
    },
    "trial": {
        "share": b"share 40 100\n",
        "demand": b"demand 100 350 100 2 40 100 40 150\n",
        "judge": b"judge 40 150 1 40 100\n",
        "rehearse": b"rehearse 7 2 2 5 4 7 2 0 0 1 0\n",
        "trace": b"trace 7 2 2 5 4 7 2 0 0 1 0\n",
        "read": f"read {FILE}\n".encode(),
        "unreadable": b"read 5241\nplay 5241\n",
        "play": f"play {FILE}\n".encode(),
        "norack": b"admit 1 2 5 16\n",
        "refused": (RACK + "admit 2 5 5 16\n").encode(),
        "find": (RACK + "find 1\n").encode(),
        "load": (RACK + "load 0\n").encode(),
        "seats": (RACK + "seats 0\n").encode(),
        "withdrawn": (RACK + "withdraw 1\nwithdraw 1\n").encode(),
        "nocall": b"# a comment\n\nno call\n",
    },
}


def runs(program, folder, n):
    """Of each case, with allocation n failing: the text, the status, and how many allocations were made at least."""
    crate = os.path.join(TOP, "crates", program)
    made = subprocess.run(["rt", "try", "--fail-alloc", str(n), "--cases", folder], cwd=crate, capture_output=True)
    parts = re.split(rb"== (\w+)\n", made.stdout)
    texts = dict(zip(parts[1::2], parts[2::2]))
    ends = re.findall(rb"^allocations: (?:at least )?(\d+)\n(?:.*\n)*?case=(\w+) run=ended status=(\d+) ", made.stderr, re.M)
    if sorted(texts) != sorted(name for _, name, _ in ends):
        sys.exit(f"{program}, allocation {n}: a run has not ended\n{made.stderr.decode()}")
    return {name: (texts[name], int(status), int(count)) for count, name, status in ends}


def may_end_so(program, whole, text, status):
    if status == 0:
        return text == whole
    return status == 1 and whole.startswith(text) and not (program == "player" and text)


def tried(program, cases):
    """How many runs there were, and how many of them were wrong."""
    with tempfile.TemporaryDirectory() as folder:
        for name, given in cases.items():
            with open(os.path.join(folder, name), "wb") as case:
                case.write(given)
        whole = runs(program, folder, 10**6)
        # of a program that reads its arguments, as `player` does, `rt try` counts only those before it reads them
        least = max(count for _, _, count in whole.values())
        n, failed, wrong = 0, True, 0
        while n < least or failed:
            n, failed = n + 1, False
            for name, (text, status, _) in runs(program, folder, n).items():
                failed = failed or status != 0
                if not may_end_so(program, whole[name][0], text, status):
                    wrong += 1
                    print(f"{program} on {name.decode()}, allocation {n}: status {status}, {text!r}")
        print(f"{program}: allocations 1 to {n}", flush=True)
        return n * len(cases), wrong


def main():
    each = [tried(program, cases) for program, cases in CASES.items()]
    wrong = sum(bad for _, bad in each)
    print(f"{sum(count for count, _ in each)} runs, {wrong} wrong")
    sys.exit(wrong > 0)


if __name__ == "__main__":
    main()
