"""What the unit sent, by the bench and by tshark."""
import os
import struct
import subprocess

from host import ROOT, port_of, replay
from link import OWN_CONTROL, OWN_USER

BENCH = os.path.join(ROOT, "target", "bin", "bench")


def on_the_bench(c, runs, sent):
    """The journals through the bench: the same numbers, lines and octets, in the order of the capture."""
    told, unsent, starts = [], 0, {}
    for name, words, _ in runs.done:
        if name not in starts:
            starts[name] = replay(BENCH, runs.file(name + ".journal"), "-u" in words)
    for name, words, (lines, numbers, counts) in runs.done:
        start = starts[name].pop(0)
        c.same("journal %s on the bench: each number as often" % name, numbers, start.numbers)
        c.same("journal %s on the bench: the places' lines" % name, lines, start.places)
        unsent += counts["unsent"]
        told += [(port_of(kind), octets) for kind, octets in start.sent
                 if not ("-e" in words and kind == "D" and octets[1] == 1)]
    c.check("journals: no start is left over", not any(starts.values()), starts)
    # what the machine refused to send is on the bench only
    at, missing = 0, 0
    for datagram in told:
        if at < len(sent) and sent[at] == datagram:
            at += 1
        else:
            missing += 1
    c.same("capture and bench: the same datagrams in the same order (%d), but for what was counted as unsent (%d)"
           % (len(sent), unsent), (at, missing), (len(sent), unsent))


def told_by_tshark(path, where):
    """One row a packet: its number, protocols, malformed, expert items' severities and messages."""
    fields = ["frame.number", "frame.protocols", "_ws.malformed", "_ws.expert.severity", "_ws.expert.message"]
    command = ["tshark", "-n", "-r", path, "-Y", where, "-T", "fields"]
    for field in fields:
        command += ["-e", field]
    done = subprocess.run(command, stdout=subprocess.PIPE, stderr=subprocess.DEVNULL, text=True, timeout=300)
    return [line.split("\t") for line in done.stdout.splitlines()]


def complaints(rows):
    """Rows that are malformed, have an expert item, or are neither a message of GTP nor a packet in a G-PDU."""
    found = []
    for row in rows:
        inner = row[1].split(":")[4:]
        if row[2] or row[3] or not (inner in (["gtp", "gtpv2"], ["gtp"]) or inner[:2] == ["gtp", "ip"]):
            found.append(row)
    return found


def cut_short(sent, path):
    """Each kind that was sent once more, with its last octet cut and lengths of IP and UDP that fit."""
    kinds = {}
    for port, octets in sent:
        kinds.setdefault((port, octets[1], len(octets)), octets)
    with open(path, "wb") as out:
        out.write(struct.pack("<IHHiIII", 0xA1B2C3D4, 2, 4, 0, 0, 65535, 1))
        for second, ((port, _, _), octets) in enumerate(sorted(kinds.items())):
            octets = octets[:-1]
            ip = struct.pack(">BBHHHBBH", 0x45, 0, 28 + len(octets), 1, 0, 64, 17, 0) + bytes([10, 0, 0, 1, 10, 0, 0, 8])
            udp = struct.pack(">HHHH", port, port, 8 + len(octets), 0)
            frame = bytes(12) + b"\x08\x00" + ip + udp + octets
            out.write(struct.pack("<IIII", 60 * second, 0, len(frame), len(frame)) + frame)
    return len(kinds)


def by_tshark(c, wire, sent, folder):
    where = "udp && (ip.src == %s || ip.src == %s)" % (OWN_CONTROL, OWN_USER)
    rows = told_by_tshark(wire.capture, where)
    c.same("tshark: it reads every datagram of the unit", len(rows), len(sent))
    bad = complaints(rows)
    c.check("tshark: no complaint about any of them", len(rows) > 0 and not bad, "%d, as %s" % (len(bad), bad[:3]))
    path = os.path.join(folder, "cut.pcap")
    kinds = cut_short(sent, path)
    c.same("tshark: the %d kinds with their last octet cut are all complained about" % kinds,
           len(complaints(told_by_tshark(path, "udp"))), kinds)
