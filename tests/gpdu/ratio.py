#!/usr/bin/env python3
"""ratio.py SAID COUNTED: instructions a packet of the two readers, from what `host count` said and from callgrind's annotation or
the emulator's trace of each instruction. Ends with 1 where the answers differ or the ratio is over its limit.

The reader alone, behind a boundary of its own: some 14 of its 67 instructions keep and restore the registers that the
walk over extension headers is called with. Within the call the two readers cost the same (tests/speed)."""
import re
import sys

LIMIT = 1.45
said = open(sys.argv[1]).read().split("\n")
packets = int(said[0].split()[0])
proved, plain, end, start, stop = (int(x, 16) for x in said[1].split())
counts = {"gpdu_read": 0, "reading_packet": 0}
now = None
for line in open(sys.argv[2], errors="replace"):
    traced = re.match(r"Trace \d+: \S+ \[[0-9a-f]+/([0-9a-f]+)/", line)
    if traced:
        pc = int(traced.group(1), 16)
        now = {proved: "gpdu_read", plain: "reading_packet", end: None}.get(pc, now)
        if now and not start <= pc < stop:
            counts[now] += 1
    else:
        annotated = re.match(r"\s*([\d,]+) .*[:/](gpdu_read|reading_packet)\b", line)
        if annotated:
            counts[annotated.group(2)] = int(annotated.group(1).replace(",", ""))

if not all(counts.values()):
    sys.exit("a reader was not counted")
ratio = counts["gpdu_read"] / counts["reading_packet"]
print(said[0])
for name, what in (("gpdu_read", "the proved reader"), ("reading_packet", "plain C")):
    print(f"{what}: {counts[name]} instructions, {counts[name] / packets:.1f} a packet")
print(f"ratio {ratio:.3f}")
sys.exit(0 if ratio <= LIMIT and "the same answers" in said[0] else 1)
