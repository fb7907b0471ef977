#!/usr/bin/env python3
"""Writes stream.in and stream.out: many whole cases one after another, for a program in which a line N starts a fresh unit.

At a further N line such a program prints the L lines of the unit before it and starts anew; so the output is the cases' outputs one
after another. Taken are the cases of cases/ without a bad line and without a refused plan, whose last line has its end. Behind them
stand the datagrams made with scapy and checked with tshark (../requests/independent.tsv and ../gpdu/vectors.tsv), each on a unit where
place 0 is live in its use 1, then the replies among them where they are awaited, then all in a row on one unit. What they print is the
model's; its number for each is held to the one that stands beside the datagram. `stream.py --check` only compares.
"""
import os
import sys

sys.dont_write_bytecode = True

import cases
import model
from build import A, C, N, T, TAB, U, X, create, octets

HERE = os.path.dirname(os.path.abspath(__file__))


def good_cases():
    for name, _, text, out, _ in cases.expected():
        last = out.split("\n")[-2].split(TAB)
        if last[0] != "E" and last != ["16", "-"] and text.endswith("\n"):
            yield text, out


def rows(path, *columns):
    """The named columns of each row: name, number, datagram."""
    with open(os.path.join(HERE, "..", path)) as file:
        for row in file:
            if not row.startswith("#"):
                parts = row.rstrip("\n").split(TAB)
                yield [parts[column] for column in columns]


def vectors():
    """(name, number on a table where place 0 is live in its use 1, input line)"""
    for name, number, datagram in rows("requests/independent.tsv", 0, 1, 2):
        yield name, number, C(octets(datagram))
    for name, number, datagram in rows("gpdu/vectors.tsv", 0, 2, 1):
        # that file has the number before the table is asked; of its G-PDUs one has a number that was never given out
        yield name, "15" if name == "gpdu-dead" else number, U(octets(datagram))


def unit(*lines, e=60):
    text = "\n".join([N(e=e), A(), *lines]) + "\n"
    return text, model.run(text.encode()).decode()


def vector_units():
    every = list(vectors())
    at = {name: line for name, _, line in every}
    for name, number, line in every:
        text, out = unit(C(create(0x999)), line)
        if out.split("\n")[1].split(TAB)[0] != number:
            sys.exit("%s: %s stands beside it, the model says %s" % (name, number, out.split("\n")[1]))
        yield text, out
    # awaited: the unit's first own request has number 0, and so have these replies
    yield unit(C(create(0x999)), X(0), at["delbearer-resp"])
    yield unit(C(create(0x999)), X(0), at["delbearer-resp-rec"])
    yield unit(C(create(0x999)), T(), at["echo-resp"], at["echo-resp"], e=1)
    yield unit(*at.values())


def main():
    units = list(good_cases()) + list(vector_units())
    wanted = {"stream.in": "".join(text for text, _ in units), "stream.out": "".join(out for _, out in units)}
    if sys.argv[1:] == ["--check"]:
        stale = [name for name, text in wanted.items() if open(os.path.join(HERE, name), "rb").read() != text.encode()]
        print("stream: %s" % (", ".join(stale) + " not as written" if stale else "as written"))
        sys.exit(bool(stale))
    for name, text in wanted.items():
        with open(os.path.join(HERE, name), "wb") as file:
            file.write(text.encode())
    print("stream: %d units, %d lines in, %d lines out" % (len(units), *[text.count("\n") for text in wanted.values()]))


if __name__ == "__main__":
    main()
