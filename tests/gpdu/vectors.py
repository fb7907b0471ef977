#!/usr/bin/env python3
"""Writes the input of the program trial_user and what it has to print: `vectors.py`, or `vectors.py --check` to compare only.

The expectation is this file's own reading of document 01, "User header" and "The numbers that come back"; nothing of it
comes from the Rattle code or from a run of the program. The number in vectors.tsv, which was given by hand, is compared too.
"""
import os
import sys

here = os.path.dirname(os.path.abspath(__file__))
crate = os.path.join(here, "..", "..", "crates", "trial_user")


def read(d):
    """(number, what, value, payload): what and value only where number is 0."""
    if len(d) < 8:
        return 3, None, None, b""
    version, protocol = d[0] >> 5, d[0] >> 4 & 1
    if version != 1 or protocol != 1:
        return 12, None, None, b""
    if int.from_bytes(d[2:4], "big") != len(d) - 8:
        return 6, None, None, b""
    if d[1] not in (1, 255):
        return 7, None, None, b""
    extended, sequenced, numbered = d[0] & 4, d[0] & 2, d[0] & 1
    rest = d[8:]
    sequence = 0
    if extended or sequenced or numbered:
        if len(rest) < 4:
            return 13, None, None, b""
        if sequenced:
            sequence = int.from_bytes(rest[0:2], "big")
        kind, rest = rest[3], rest[4:]
        while extended and kind != 0:
            if kind >= 128:
                return 14, None, None, b""
            units = rest[0] if rest else 0
            if units == 0 or len(rest) < 4 * units:
                return 13, None, None, b""
            header, rest = rest[: 4 * units], rest[4 * units :]
            kind = header[-1]
    if d[1] == 1:
        return 0, "echo", sequence, rest
    return 0, "packet", int.from_bytes(d[4:8], "big"), rest


def show(d):
    number, what, value, payload = read(d)
    return str(number) if number else f"0 {what} {value} {payload.hex()}"


def mark(d):
    number, _, _, payload = read(d)
    return f" {number}" if number else f" 0@{len(d) - len(payload)}"


def damaged(d, right):
    for flags in range(8):
        line = str(flags)
        for n in range(len(d) + 1):
            cut = bytearray(d[:n])
            if n:
                cut[0] = d[0] & 0xF8 | flags
            if right and n >= 8:
                cut[2:4] = (n - 8).to_bytes(2, "big")
            line += mark(bytes(cut))
        yield line


vectors = []
for line in open(os.path.join(here, "vectors.tsv")):
    if not line.startswith("#"):
        name, text, number, _ = line.rstrip("\n").split("\t")
        vectors.append((name, bytes.fromhex(text), int(number)))

given, wanted, forms = [], [], 0
for name, d, number in vectors:
    if read(d)[0] != number:
        sys.exit(f"{name}: read as {read(d)[0]}, and vectors.tsv has {number}")
    given.append(d.hex().upper())
    wanted.append(show(d))
    for right in (False, True):
        wanted.extend(damaged(d, right))
    forms += 1 + 16 * (len(d) + 1)

files = {"stdin": "".join(l + "\n" for l in given), "stdout": "".join(l + "\n" for l in wanted)}
for name, text in files.items():
    path = os.path.join(crate, name)
    if "--check" in sys.argv:
        if open(path).read() != text:
            sys.exit(f"{name} of trial_user is not what vectors.py makes")
    else:
        open(path, "w").write(text)
print(f"{len(vectors)} vectors, {forms} datagrams")
