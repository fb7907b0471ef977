#!/usr/bin/env python3
"""Writes the input and the expected output of the program `trial_control`.

The datagrams are those of independent.tsv and damaged forms that are built here. What is expected is computed here, by a reading of
document 01 in Python that shares nothing with the Rattle code or with fuzz.c: it cuts a message into fields by slices of bytes and goes
down a table of the fields in document 01's order. For the independent datagrams its number is also held to the one that stands beside
them. Run it after a change of the cases; `git diff` then shows what moved."""
import os
import sys

HERE = os.path.dirname(os.path.abspath(__file__))
sys.dont_write_bytecode = True
sys.path.insert(0, os.path.join(HERE, "..", "bench"))

from figures import NAME_LENGTH

CRATE = os.path.join(HERE, "..", "..", "crates", "trial_control")
PLAN = [b"\x04data", b"\x03net", bytes([NAME_LENGTH - 1]) + bytes(97 + i % 26 for i in range(NAME_LENGTH - 1))]
SESSION_EBI = 5
# what a line of a request has behind type, TEID and sequence number
COLUMNS = "number named field instance kind imsi ebi control controladdr user useraddr point recovery moved context usermoved replyto".split()


class Refused(Exception):
    """cause, and the field as (type, instance) or None"""


class Overrun(Exception):
    pass


# ---- the reading
def cut(octets):
    """The fields of a run of octets; the first of a type and instance stays."""
    found = {}
    while octets:
        if len(octets) < 4 or len(octets) < 4 + int.from_bytes(octets[1:3], "big"):
            raise Overrun
        size = int.from_bytes(octets[1:3], "big")
        found.setdefault((octets[0], octets[3] % 16), octets[4:4 + size])
        octets = octets[4 + size:]
    return found


def request(octets):
    """The fields of a request and of its first Bearer Context; an overrun in either is 67 and names no field."""
    try:
        outer = cut(octets)
        return outer, cut(outer[93, 0]) if (93, 0) in outer else None
    except Overrun:
        raise Refused(67, None)


def field(fields, name, least, right=lambda value: True):
    if name not in fields:
        raise Refused(70, name)
    if len(fields[name]) < least:
        raise Refused(67, name)
    if not right(fields[name]):
        raise Refused(69, name)
    return fields[name]


def digits(value):
    text = "".join(f"{x & 15:X}{x >> 4:X}" for x in value[:8])
    return text[:15] if text[:15].isdecimal() and text[15] == "F" else None


def is_tunnel(interface):
    return lambda v: v[0] >= 128 and v[0] % 64 == interface and any(v[1:5])


def ends(names, value):
    """TEID and address of an F-TEID, under the names that they have in a line."""
    return dict(zip(names, (int.from_bytes(value[1:5], "big"), int.from_bytes(value[5:9], "big"))))


def recovery(fields):
    """The Recovery value, 256 for none."""
    return fields[3, 0][0] if fields.get((3, 0)) else 256


def create(octets):
    outer, inner = request(octets)
    imsi = field(outer, (1, 0), 8, digits)
    field(outer, (82, 0), 1, lambda v: v[0] in (1, 6))
    sender = field(outer, (87, 0), 9, is_tunnel(6))
    name = field(outer, (71, 0), 0)
    address = field(outer, (79, 0), 5)
    field(outer, (93, 0), 0)
    ebi = field(inner, (73, 0), 1, lambda v: 5 <= v[0] % 16)
    user = field(inner, (87, 2), 9, is_tunnel(4))
    field(inner, (80, 0), 22)
    if name not in PLAN:
        raise Refused(78, None)
    if address[0] % 8 != 1:
        raise Refused(83, None)
    return {
        "kind": 32, "imsi": int(digits(imsi)), "ebi": ebi[0] % 16, "point": PLAN.index(name), "recovery": recovery(outer),
        **ends(("control", "controladdr"), sender), **ends(("user", "useraddr"), user),
    }


def reply_to(octets):
    try:
        return int.from_bytes(field(request(octets)[0], (87, 0), 9, is_tunnel(6))[1:5], "big")
    except Refused:
        return 0


def modify(octets):
    outer, inner = request(octets)
    line = {"kind": 34}
    if (87, 0) in outer:
        line.update(ends(("control", "controladdr"), field(outer, (87, 0), 9, is_tunnel(6))), moved=1)
    if inner is not None:
        line["context"] = 1
        field(inner, (73, 0), 1, lambda v: v[0] % 16 == SESSION_EBI)
        if (87, 1) in inner:
            line.update(ends(("user", "useraddr"), field(inner, (87, 1), 9, is_tunnel(4))), usermoved=1)
    return line


def delete(octets):
    outer, _ = request(octets)
    if (73, 0) in outer and field(outer, (73, 0), 1)[0] % 16 != SESSION_EBI:
        raise Refused(64, None)
    return {"kind": 36, "ebi": SESSION_EBI}


def carried(octets):
    """What types 1, 2 and 100 carry: the Recovery of an Echo, whether an Echo's answer is unreadable and its Recovery, the same of a Delete Bearer Response and its Cause."""
    try:
        fields = cut(octets)
    except Overrun:
        return 256, 1, 0, 1, 0
    cause = fields.get((2, 0), b"")
    readable = len(cause) >= 2
    return recovery(fields), 0, recovery(fields), int(not readable), cause[0] if readable else 0


def number(d):
    if len(d) < 8:
        return 3
    version, p, t, kind = d[0] >> 5, d[0] >> 4 & 1, d[0] >> 3 & 1, d[1]
    if version != 2:
        return 5
    if p:
        return 4
    flag = {1: 0, 2: 0, 3: 0, 32: 1, 34: 1, 36: 1, 100: 1}.get(kind)
    if flag is None:
        return 7
    if flag != t:
        return 8
    if int.from_bytes(d[2:4], "big") != len(d) - 4 or len(d) < 8 + 4 * t:
        return 6
    return 8 if kind == 32 and any(d[4:8]) else 0


def answer(d):
    """The line of a datagram, and document 01's number as far as the decoder settles it."""
    n = number(d)
    if n:
        return str(n), n
    kind, t = d[1], d[0] >> 3 & 1
    teid, after = (int.from_bytes(d[4:8], "big"), d[8:]) if t else (0, d[4:])
    line = f"0 {kind} {teid} {int.from_bytes(after[:3], 'big')}"
    octets = after[4:]
    if kind not in (32, 34, 36):
        return f"{line} {' '.join(map(str, carried(octets)))}", 0
    try:
        read = {"number": 0, **{32: create, 34: modify, 36: delete}[kind](octets)}
    except Refused as r:
        cause, name = r.args
        read = {"number": cause}
        if name:
            read.update(named=1, field=name[0], instance=name[1])
    if kind == 32:
        read["replyto"] = reply_to(octets)
    return f"{line} {' '.join(str(read.get(c, 0)) for c in COLUMNS)}", read["number"]


# ---- the cases
def ie(kind, value, instance=0, stated=None):
    return bytes([kind]) + (len(value) if stated is None else stated).to_bytes(2, "big") + bytes([instance]) + value


def tunnel_value(first, teid, address="0A010008"):
    return bytes([first]) + bytes.fromhex(teid + address)


IMSI = bytes.fromhex("44101032547698F0")
GOOD = [(1, 0, IMSI), (82, 0, b"\6"), (87, 0, tunnel_value(0x86, "00001111")), (71, 0, b"\4data"), (79, 0, b"\1\0\0\0\0"), (93, 0, None), (3, 0, b"\3")]
INNER = [(73, 0, b"\5"), (87, 2, tunnel_value(0x84, "00002222")), (80, 0, b"\x61\x09" + bytes(20))]
FIELD = {1: "IMSI", 82: "RAT", 87: "F-TEID", 71: "APN", 79: "PAA", 93: "Bearer Context", 3: "Recovery", 73: "EBI", 80: "QoS"}
# what is wrong with a value, field by field
WRONG = {
    (1, 0): [("a digit A", b"\x4A" + IMSI[1:]), ("a high half F in the middle", IMSI[:3] + b"\xF2" + IMSI[4:]), ("last half 0", IMSI[:7] + b"\x00"), ("last digit F", IMSI[:7] + b"\xFF")],
    (82, 0): [("value 0", b"\0"), ("value 2", b"\2"), ("value 7", b"\7"), ("value 22 (low half 6)", b"\x16"), ("value 1", b"\1")],
    (87, 0): [("no V4", tunnel_value(0x06, "00001111")), ("V6 alone", tunnel_value(0x46, "00001111")), ("V4 and V6", tunnel_value(0xC6, "00001111")), ("interface 7", tunnel_value(0x87, "00001111")), ("interface 38", tunnel_value(0xA6, "00001111")), ("TEID 0", tunnel_value(0x86, "00000000")), ("address 0", tunnel_value(0x86, "00001111", "00000000"))],
    (71, 0): [("empty", b""), ("capitals", b"\4DATA"), ("one octet more", b"\4dataa"), ("one octet less", b"\4dat"), ("net", b"\3net"), ("63 octets, known", PLAN[2]), ("63 octets, unknown", PLAN[2][:-1] + b"!"), ("64 octets", PLAN[2] + b"k")],
    (79, 0): [("type 0", bytes(5)), ("type 2", b"\2" + bytes(4)), ("type 3", b"\3" + bytes(4)), ("spare bits set", b"\xF9" + bytes(4)), ("type 7", b"\xFF" * 5)],
    (73, 0): [("4", b"\4"), ("0", b"\0"), ("15", b"\x0F"), ("high half set", b"\xF5"), ("high half alone", b"\x50")],
    (87, 2): [("no V4", tunnel_value(0x04, "00002222")), ("interface 5", tunnel_value(0x85, "00002222")), ("interface 6", tunnel_value(0x86, "00002222")), ("TEID 0", tunnel_value(0x84, "00000000"))],
    (80, 0): [("all FF", b"\xFF" * 22)],
}


def message(kind, octets, teid="00000000", sequence="000100"):
    t = kind in (32, 34, 36, 100)
    body = (bytes.fromhex(teid) if t else b"") + bytes.fromhex(sequence) + b"\0" + octets
    return bytes([0x48 if t else 0x40, kind]) + len(body).to_bytes(2, "big") + body


def built(fields, inner):
    return b"".join(ie(k, b"".join(inner) if v is None else v, i) for k, i, v in fields)


def plain(inner):
    return [ie(k, v, i) for k, i, v in inner]


def forms(fields, name):
    """Damaged forms of one field of a list of (type, instance, value): note, and the list of octets of all its fields."""
    at = next(i for i, f in enumerate(fields) if f[:2] == name)
    kind, instance, value = fields[at]
    value = b"".join(plain(INNER)) if value is None else value
    rest = [ie(k, b"".join(plain(INNER)) if v is None else v, i) for k, i, v in fields]
    put = lambda *own: rest[:at] + list(own) + rest[at + 1:]
    bad = value[:1] if len(value) > 1 else b""
    yield "missing", put()
    if name not in ((71, 0), (93, 0)):
        yield "short by one", put(ie(kind, value[:-1], instance))
        yield "empty", put(ie(kind, b"", instance))
        yield "doubled, the first short", put(ie(kind, bad, instance), rest[at])
    yield "longer", put(ie(kind, value + (b"\0\0\0\0" if kind == 93 else b"\xFF\xFF"), instance))
    yield "doubled, the second empty", put(rest[at], ie(kind, b"", instance))
    yield "of another instance", put(ie(kind, value, 3))
    yield "of another instance, then right", put(ie(kind, bad, 3), rest[at])
    yield "high bits of the instance set", put(ie(kind, value, 0xA0 + instance))
    yield "last in the list", rest[:at] + rest[at + 1:] + [rest[at]]
    yield "stated length one over, last", rest[:at] + rest[at + 1:] + [ie(kind, value, instance, len(value) + 1)]
    for note, v in WRONG.get(name, []):
        yield note, put(ie(kind, v, instance))


def cases():
    inner = b"".join(plain(INNER))
    good = built(GOOD, plain(INNER))
    yield "Create: sound", message(32, good)
    for kind, instance, _ in GOOD:
        for note, octets in forms(GOOD, (kind, instance)):
            yield f"Create, {FIELD[kind]}: {note}", message(32, b"".join(octets))
    for kind, instance, _ in INNER:
        for note, octets in forms(INNER, (kind, instance)):
            yield f"Create, in the Bearer Context, {FIELD[kind]}: {note}", message(32, built(GOOD, octets))
    yield "Create: all fields the other way round", message(32, built(GOOD[::-1], plain(INNER[::-1])))
    for n in (1, 2, 3):
        yield f"Create: {n} octets left over", message(32, good + bytes(n))
        yield f"Create: {n} octets left over in the Bearer Context", message(32, built(GOOD, plain(INNER) + [bytes(n)]))
    yield "Create: an overrun hides the missing IMSI", message(32, built(GOOD[1:], plain(INNER)) + b"\1")
    second = ie(93, b"\x49\0\2\0\5")
    yield "Create: an overrun in a second Bearer Context counts for nothing", message(32, good + second)
    yield "Create: an overrun in a Bearer Context of instance 1 counts for nothing", message(32, ie(93, b"\x49\0\2\0\5", 1) + good)
    yield "Create: an overrun in a Bearer Context within the Bearer Context counts for nothing", message(32, built(GOOD, plain(INNER) + [second]))
    yield "Create: no fields", message(32, b"")
    yield "Create: unknown fields between", message(32, b"".join(ie(200 + i, bytes(i)) + ie(k, inner if v is None else v, j) for i, (k, j, v) in enumerate(GOOD)))
    yield "Create: IMSI and Sender F-TEID at fault, the reply goes to 0", message(32, built([(1, 0, b"\0"), (87, 0, tunnel_value(0x87, "00001111"))] + GOOD[3:], plain(INNER)))
    yield "Create: unknown APN before the PAA's type", message(32, built(GOOD[:3] + [(71, 0, b"\1x"), (79, 0, b"\2" + bytes(4))] + GOOD[5:], plain(INNER)))
    yield "Create: QoS missing before the unknown APN", message(32, built(GOOD[:3] + [(71, 0, b"\1x")] + GOOD[4:], plain(INNER[:2])))

    sender, ebi, user = ie(*[87, tunnel_value(0x86, "000000FF")]), ie(73, b"\5"), ie(87, tunnel_value(0x84, "0000AAAA"), 1)
    for note, octets in [
        ("nothing", b""), ("Sender F-TEID", sender), ("Bearer Context with EBI", ie(93, ebi)), ("Bearer Context with EBI and F-TEID", ie(93, ebi + user)),
        ("all", sender + ie(93, ebi + user)), ("all, the other way round", ie(93, user + ebi) + sender),
        ("Sender F-TEID short", ie(87, tunnel_value(0x86, "000000FF")[:8])), ("Sender F-TEID of interface 4", ie(87, tunnel_value(0x84, "000000FF"))),
        ("Sender F-TEID without V4", ie(87, tunnel_value(0x06, "000000FF"))), ("Sender F-TEID 0", ie(87, tunnel_value(0x86, "00000000"))),
        ("Sender F-TEID of instance 1", ie(87, tunnel_value(0x84, "00000000"), 1)), ("Sender F-TEID wrong before EBI missing", ie(93, b"") + ie(87, tunnel_value(0x87, "000000FF"))),
        ("Bearer Context empty", ie(93, b"")), ("EBI empty", ie(93, ie(73, b""))), ("another EBI", ie(93, ie(73, b"\6"))), ("EBI 4", ie(93, ie(73, b"\4"))),
        ("EBI with a high half", ie(93, ie(73, b"\xE5"))), ("another EBI before the F-TEID", ie(93, ie(73, b"\6") + ie(87, b"", 1))),
        ("F-TEID short", ie(93, ebi + ie(87, bytes(8), 1))), ("F-TEID of interface 6", ie(93, ebi + ie(87, tunnel_value(0x86, "0000AAAA"), 1))),
        ("F-TEID of instance 2 is not read", ie(93, ebi + ie(87, b"", 2))), ("F-TEID 0", ie(93, ebi + ie(87, tunnel_value(0x84, "00000000"), 1))),
        ("overrun", sender + b"\x5D"), ("overrun in the Bearer Context", sender + ie(93, ebi + b"\x57\0\1")), ("overrun by one", ie(87, tunnel_value(0x86, "000000FF"), 0, 10)),
        ("Bearer Context of instance 1 is not read", ie(93, b"\1\2\3", 1)), ("doubled Sender F-TEID, the first short", ie(87, b"") + sender),
    ]:
        yield f"Modify: {note}", message(34, octets, "00000100")
    for note, octets in [
        ("nothing", b""), ("EBI", ebi), ("another EBI", ie(73, b"\6")), ("EBI empty", ie(73, b"")), ("EBI with a high half", ie(73, b"\xF5")), ("EBI 0", ie(73, b"\0")),
        ("EBI longer", ie(73, b"\5\6")), ("EBI of instance 1 is not read", ie(73, b"", 1)), ("doubled, the first another", ie(73, b"\6") + ebi), ("doubled, the second another", ebi + ie(73, b"\6")),
        ("overrun", ebi + b"\0"), ("overrun before another EBI", ie(73, b"\6") + b"\0\0\1\0"), ("overrun in a Bearer Context", ebi + ie(93, b"\1")), ("Bearer Context", ie(93, ie(73, b"\6"))),
    ]:
        yield f"Delete: {note}", message(36, octets, "00000100")
    for kind, what in ((1, "Echo Request"), (2, "Echo Response")):
        for note, octets in [
            ("Recovery", ie(3, b"\5")), ("none", b""), ("Recovery empty", ie(3, b"")), ("an empty Recovery hides a second", ie(3, b"") + ie(3, b"\5")), ("Recovery 0", ie(3, b"\0")),
            ("Recovery of instance 1", ie(3, b"\5", 1)), ("overrun", ie(3, b"\5") + b"\0\0\0"), ("overrun by one", ie(3, b"\5", 0, 2)), ("a Bearer Context is not looked into", ie(93, b"\1") + ie(3, b"\5")),
        ]:
            yield f"{what}: {note}", message(kind, octets)
    for note, octets in [
        ("Cause", ie(2, b"\x10\0")), ("Cause 64", ie(2, b"\x40\0")), ("Cause longer", ie(2, b"\x10\0\0\0\0\0")), ("Cause short", ie(2, b"\x10")), ("Cause empty", ie(2, b"")), ("none", b""),
        ("Cause of instance 1", ie(2, b"\x10\0", 1)), ("overrun", ie(2, b"\x10\0") + b"\2"), ("a Bearer Context is not looked into", ie(93, b"\1") + ie(2, b"\x10\0")),
    ]:
        yield f"Delete Bearer Response: {note}", message(100, octets, "00000105")
    yield "Version Not Supported: its fields are not walked", message(3, b"\1")

    d = message(32, good)
    yield "header: 7 octets", d[:7]
    yield "header: 8 octets of a type with TEID", bytes.fromhex("4820000400000000")
    yield "header: 11 octets of a type with TEID", bytes.fromhex("4824000700000100000000")
    yield "header: length one over", d + b"\0"
    yield "header: length one under", d[:-1]
    for first in (0x00, 0x20, 0x28, 0x68, 0x88, 0xE8):
        yield f"header: first octet {first:02X}", bytes([first]) + d[1:]
    yield "header: P", bytes([0x58]) + d[1:]
    yield "header: version before P", bytes([0x38]) + d[1:]
    yield "header: P before the type", bytes([0x58, 33]) + d[2:]
    yield "header: Create without T", bytes([0x40]) + d[1:]
    yield "header: Echo with T", bytes([0x48, 1]) + d[2:]
    yield "header: ignored bits", bytes([0x4F]) + d[1:]
    yield "header: T before the length", bytes([0x40]) + d[1:-1]
    yield "header: Create with a TEID", message(32, good, "00000001")
    yield "header: the length before Create's TEID", message(32, good, "00000001")[:-1]
    for kind in (0, 4, 33, 35, 37, 99, 101, 255):
        yield f"header: type {kind}", bytes([0x48, kind]) + d[2:]
    yield "header: largest sequence number", message(36, b"", "FFFFFFFF", "FFFFFF")


def main():
    head = "# Of a request, behind 0, type, TEID and sequence number: " + " ".join(COLUMNS)
    notes, lines, count, independent = [head], [head], 0, 0
    for row in open(os.path.join(HERE, "independent.tsv")):
        row = row.rstrip("\n")
        if row.startswith("#"):
            notes.append(row), lines.append(row)
            continue
        name, stated, octets, note = row.split("\t")
        line, n = answer(bytes.fromhex(octets))
        # 9 is not the decoder's to say: whether a reply is awaited stands in the table
        if stated != "9" and n != int(stated):
            raise SystemExit(f"{name}: {stated} is stated, {n} was read")
        notes += [f"# {name}" + (f": {note}" if note else ""), octets]
        lines += [notes[-2], line]
        independent += 1
    for part in (notes, lines):
        part.append("# Damaged forms, built from document 01.")
    for note, d in cases():
        line, _ = answer(d)
        notes += ["# " + note, d.hex().upper()]
        lines += ["# " + note, line]
        count += 1
    text = "\n".join(notes) + "\n"
    assert len(text) < 65536, len(text)
    open(os.path.join(CRATE, "stdin"), "w").write(text)
    open(os.path.join(CRATE, "stdout"), "w").write("\n".join(lines) + "\n")
    print(f"{independent} independent datagrams, {count} damaged forms, {len(text)} octets")


if __name__ == "__main__":
    main()
