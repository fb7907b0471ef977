"""table.py PROGRAM PICTURE: counts the instructions of each call, prints the table and draws the picture. On x86-64 callgrind counts,
elsewhere QEMU's user mode with the plugin that `run` has built from count.c.

The count of a call is that of 100 calls less that of none, by 100: what the host does to put the table back is in both columns.
Its parts, with all places live: around is a call that is lent a record too few and refuses them unread (the host, the store, the plan's limits,
the node in and out, copies of it included); rules is what checking the records takes, measured on a datagram of three octets with as many replies
kept; work is the rest.
On x86-64 nanoseconds a call are printed too, for information: they do not repeat. A call over its limit fails the run.
"""
import os
import platform
import shutil
import subprocess
import sys

sys.dont_write_bytecode = True
sys.path.insert(0, os.path.join(os.path.dirname(os.path.abspath(__file__)), "..", "bench"))

from figures import PLACES

ROWS = 32

CALLS = [("packet", "G-PDU"), ("packet+1", "G-PDU, 1 kept"), ("packet+32", "G-PDU, 32 kept"), ("user-echo", "user echo"),
         ("down-128", "downlink, 128"), ("down-1400", "downlink, 1,400"), ("echo", "control echo"), ("late", "echo, late"),
         ("create", "Create accepted"), ("repeat", "Create repeated"), ("no-room", "Create, no room"), ("no-filler", "Create, IMSI wrong"),
         ("modify", "Modify"), ("modify-again", "Modify again"), ("delete", "Delete"), ("delete-again", "Delete again"),
         ("delete+32", "Delete, 32 kept"), ("delete-again+31", "again, 32 kept"), ("tick", "tick"), ("tick+32", "tick, 32 kept"),
         ("tick-closing", "tick, all closing"), ("send", "send"), ("close", "close"), ("line", "line")]
LIVE = (0, PLACES // 2, PLACES)
# the most that a call may cost, as a multiple of the plain implementation; where it is not named, MOST. With a full store two calls are over
# MOST where few places are live (docs/SPEED.md): these are held to what they have
MOST = 1.2
LIMITS = {"down-128": 1.1, "down-1400": 1.1, "packet+32": 1.25, "delete-again+31": 1.25}
# the same with all places live, and the most instructions there
FULL = {call: 1.1 for call in ("packet", "packet+1", "packet+32", "modify", "modify-again", "delete", "delete-again")}
AIMS = {"packet": 4215, "packet+1": 4365, "packet+32": 5715}
TIMES = 100
NATIVE = platform.machine() == "x86_64"


def counted(program, way, call, live, times, less=0):
    counter = (["valgrind", "--tool=callgrind", "--callgrind-out-file=/dev/null"] if NATIVE
               else ["qemu-x86_64", "-cpu", "max", "-plugin", "target/tests/count.so"])
    # no environment: its length moves the stack, and with it the copies of memory by up to 40 instructions a call
    command = [shutil.which(counter[0])] + counter[1:] + [program, way, call, str(live), str(times), str(PLACES - less), str(ROWS)]
    done = subprocess.run(command, capture_output=True, text=True, env={})
    if done.returncode == 3:
        return None
    if done.returncode != 0:
        sys.exit("speed: %s %s with %d live failed: %s" % (way, call, live, done.stderr[-300:]))
    return int(done.stderr.split("Collected :" if NATIVE else "instructions")[1].split()[0])


def instructions(program, way, call, live, less=0):
    """Of one call; `less` records fewer than there should be are lent."""
    none = counted(program, way, call, live, 0, less)
    return None if none is None else (counted(program, way, call, live, TIMES, less) - none) // TIMES


def kept(call):
    """How many replies are kept when the call is made."""
    return (int(call.split("+")[1]) if "+" in call else 0) + ("-again" in call)


def parts(program, full):
    """A line a call with all places live: around, rules and work, of the library and of the plain implementation."""
    print("\n%-18s%26s%26s" % ("%d live" % PLACES, "library", "plain"))
    print("%-18s" % "" + "%26s" % "around  rules   work" * 2)
    short = {0: "user-short", 1: "user-short+1", ROWS: "user-short+32"}
    checked = {n: [instructions(program, way, short[n], PLACES) - instructions(program, way, short[n], PLACES, 1)
                   for way in ("library", "plain")] for n in short}
    for (call, name), counts in full:
        rules = checked[kept(call)]
        around = [instructions(program, way, call, PLACES, 1) for way in ("library", "plain")]
        print("%-18s" % name + "".join("%12d %6d %6d" % (a, r, n - a - r) for a, r, n in zip(around, rules, counts)), flush=True)


def times(program, full):
    """Nanoseconds a call with all places live, of both."""
    print("\n%-18s%13s%13s" % ("%d live" % PLACES, "library, ns", "plain, ns"))
    for (call, name), _ in full:
        took = [subprocess.run([program, "time", way, call, str(PLACES), "200000"], capture_output=True, text=True).stdout.split()[1] for way in ("library", "plain")]
        print("%-18s%13s%13s" % (name, *took), flush=True)


def picture(rows, path):
    """Bars of the calls with all places live: the library's over the plain one's."""
    most, left, wide, step = max(max(r[1], r[2]) for r in rows), 130, 470, 34
    out = ['<svg xmlns="http://www.w3.org/2000/svg" width="%d" height="%d" font-family="sans-serif" font-size="12">' % (left + wide + 130, 50 + step * len(rows)),
           '<text x="10" y="20">Instructions a call with %d live sessions: proved library (dark), plain C (light), ratio</text>' % PLACES]
    for k, (name, ours, plain) in enumerate(rows):
        y = 36 + step * k
        out.append('<text x="%d" y="%d" text-anchor="end">%s</text>' % (left - 8, y + 17, name))
        for value, dy, colour in ((ours, 0, "#1f4e79"), (plain, 13, "#9dc3e6")):
            out.append('<rect x="%d" y="%d" width="%.1f" height="12" fill="%s"/>' % (left, y + dy, wide * value / most, colour))
        out.append('<text x="%.1f" y="%d">%s / %s = %.2f</text>' % (left + wide * max(ours, plain) / most + 6, y + 17, ours, plain, ours / plain))
    with open(path, "w") as file:
        file.write("\n".join(out + ["</svg>"]) + "\n")


def main():
    program, path = sys.argv[1:]
    print("%-18s" % "call" + "".join("%26s" % ("%d live" % live) for live in LIVE))
    print("%-18s" % "" + "%26s" % "library  plain  ratio" * len(LIVE))
    full, over = [], []
    for call, name in CALLS:
        cells = []
        for live in LIVE:
            ours, plain = (instructions(program, way, call, live) for way in ("library", "plain"))
            cells.append("%26s" % "-" if ours is None else "%12d %6d %6.2f" % (ours, plain, ours / plain))
            limit = FULL.get(call, LIMITS.get(call, MOST)) if live == PLACES else LIMITS.get(call, MOST)
            if ours is not None and ours > plain * limit:
                over.append("%s with %d live: %.2f, not %.2f" % (name, live, ours / plain, limit))
            if live == PLACES and ours is not None:
                full.append(((call, name), (ours, plain)))
                if ours > AIMS.get(call, ours):
                    over.append("%s: %d, not %d" % (name, ours, AIMS[call]))
        print("%-18s" % name + "".join(cells), flush=True)
    parts(program, full)
    if NATIVE:
        times(program, full)
    picture([(name, *counts) for (_, name), counts in full], path)
    if over:
        sys.exit("speed: over the limit: " + "; ".join(over))


main()
