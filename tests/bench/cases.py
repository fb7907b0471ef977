#!/usr/bin/env python3
"""Writes cases/NAME.in and cases/NAME.out of every case, and cases/LIST.md, which says what each shows.

The cases stand in cases_*.py. Where a case has its expected lines written by hand, those are written, and the model has to say the
same, or nothing is written and this fails. For the others the model's lines are written. `cases.py --check` only compares with what
is there. Run it after a change; `git diff` then shows what moved.
"""
import os
import sys

sys.dont_write_bytecode = True

import build
import model

import cases_header  # noqa: F401  each adds its cases to build.CASES
import cases_create  # noqa: F401
import cases_change  # noqa: F401
import cases_own  # noqa: F401
import cases_late  # noqa: F401
import cases_kept  # noqa: F401
import cases_share  # noqa: F401
import cases_user  # noqa: F401
import cases_down  # noqa: F401
import cases_bench  # noqa: F401

HERE = os.path.dirname(os.path.abspath(__file__))
FOLDER = os.path.join(HERE, "cases")


def expected():
    """Every case as (name, shows, input, output, by hand?), or an end with the first difference between hand and model."""
    for name, shows, text, hand in build.CASES:
        said = model.run(text.encode()).decode()
        if hand is not None and hand != said:
            pairs = zip(hand.split("\n") + ["(nothing)"], said.split("\n") + ["(nothing)"])
            at, (want, got) = next((k, pair) for k, pair in enumerate(pairs, 1) if pair[0] != pair[1])
            sys.exit("%s: line %d\n  by hand %s\n  model   %s" % (name, at, want, got))
        yield name, shows, text, said if hand is None else hand, hand is not None


def files():
    every = list(expected())
    if len({name for name, *_ in every}) != len(every):
        sys.exit("two cases have one name")
    by_hand = sum(hand for *_, hand in every)
    rows = ["# The cases", "", "%d cases; the expected output of %d is by hand, of %d the model's. Written by `cases.py`."
            % (len(every), by_hand, len(every) - by_hand), "", "| case | expected | shows |", "|---|---|---|"]
    for name, shows, text, out, hand in every:
        yield name + ".in", text
        yield name + ".out", out
        rows.append("| `%s` | %s | %s |" % (name, "hand" if hand else "model", shows))
    yield "LIST.md", "\n".join(rows) + "\n"


def main():
    wanted = dict(files())
    os.makedirs(FOLDER, exist_ok=True)
    present = set(os.listdir(FOLDER))
    if sys.argv[1:] == ["--check"]:
        stale = sorted(present ^ set(wanted)) + [name for name in sorted(present & set(wanted))
                                                 if open(os.path.join(FOLDER, name), "rb").read() != wanted[name].encode()]
        print("\n".join(stale + ["cases: %d files, %d not as written" % (len(wanted), len(stale))]))
        sys.exit(bool(stale))
    for name in present - set(wanted):
        os.remove(os.path.join(FOLDER, name))
    for name, text in wanted.items():
        with open(os.path.join(FOLDER, name), "wb") as file:
            file.write(text.encode())
    print("cases: %d written" % (len(wanted) // 2))


if __name__ == "__main__":
    main()
