#!/usr/bin/env python3
"""Writes the rack files of the table of measured times in README.md into a folder that is there.

usage: measured_files.py FOLDER      then, once the player is built,  time crates/player/out/player < FOLDER/typical.rak > /dev/null

Every file asks for sixteen processors, labels have one byte, and the same files come out each time. `ones` is `worst` without its
ten refused records: its time is to be taken off, and the rest divided by ten.
"""
import os
import random
import struct
import sys

ROOM = 65536 - 9
LABEL = b"\x01x"


def admission(number, work, period):
    return b"A" + struct.pack(">III", number, work, period) + LABEL


def withdrawal(number):
    return b"W" + struct.pack(">I", number)


def rack_file(policy, records):
    return b"RAK" + struct.pack(">H", 1) + policy + bytes([16]) + struct.pack(">H", len(records)) + b"".join(records)


def filled(records, more):
    """The records, and then as many of `more` as still have room."""
    left = ROOM - sum(map(len, records))
    for record in more:
        left -= len(record)
        if left < 0:
            return records
        records.append(record)
    return records


def small(chance, number):
    period = chance.randrange(200, 10000)
    return admission(number, max(1, period // chance.randrange(50, 120)), period)


def changing(chance):
    seated, number = list(range(1, 513)), 512
    while True:
        number += 1
        at = chance.randrange(len(seated))
        yield withdrawal(seated[at])
        seated[at] = number
        yield small(chance, number)


def files():
    chance = random.Random(1)
    yield "typical", rack_file(b"B", filled([small(chance, n) for n in range(1, 513)], changing(chance)))
    full = [admission(n, 1, 64) for n in range(1, 497)]
    yield "refused", rack_file(b"W", filled(full, (admission(n, 63, 64) for n in range(497, 9999))))
    yield "periods", rack_file(b"F", filled([], (admission(n, 1, 0) for n in range(1, 9999))))
    ones = [admission(n, 1, 1) for n in range(1, 17)]
    yield "ones", rack_file(b"F", ones)
    yield "worst", rack_file(b"F", ones + [admission(17 + n, 1, 1000000) for n in range(10)])


for name, content in files():
    with open(os.path.join(sys.argv[1], name + ".rak"), "wb") as f:
        f.write(content)
