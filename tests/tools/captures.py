"""Captures made octet by octet for the tests, without the tools' own writer, and a reader of packet comments."""
import struct

UNIT, USER, PEER = b"\x0a\0\0\1", b"\x0a\0\0\2", b"\x0a\1\0\x08"
START = 1_700_000_000


def summed(octets):
    """The sum that a right checksum makes FFFF."""
    total = 0
    for at in range(0, len(octets), 2):
        total += int.from_bytes(octets[at:at + 2].ljust(2, b"\0"), "big")
    while total > 0xFFFF:
        total = (total & 0xFFFF) + (total >> 16)
    return total


def ip(letter, octets, target=None, port=None, more=0, protocol=17):
    """An IPv4 packet to the unit; checksums are not looked at."""
    port = port or (2123 if letter == "C" else 2152)
    udp = struct.pack(">4H", port, port, 8 + len(octets), 0) + octets
    target = target or (UNIT if letter == "C" else USER)
    return struct.pack(">2B3H2BH", 0x45, 0, 20 + len(udp), 1, more, 64, protocol, 0) + PEER + target + udp


LINKS = {
    "Ethernet": (1, bytes(12) + b"\x08\0"), "Ethernet with a tag": (1, bytes(12) + b"\x81\0\0\x05\x08\0"),
    "Ethernet with two tags": (1, bytes(12) + b"\x88\xa8\0\x05\x81\0\0\x06\x08\0"),
    "cooked v1": (113, bytes(14) + b"\x08\0"), "cooked v2": (276, b"\x08\0" + bytes(18)), "raw IP": (101, b""),
    "raw IP of BSD": (12, b""), "IPv4": (228, b""), "loopback, little": (0, b"\2\0\0\0"),
    "loopback, big": (0, b"\0\0\0\2"), "loopback of OpenBSD": (108, b"\0\0\0\2"),
}


def pcap(order, nano, link, frames):
    """frames: (seconds, fraction as it is in the file, octets kept, octets on the wire)."""
    magic = 0xA1B23C4D if nano else 0xA1B2C3D4
    parts = [struct.pack(order + "IHHiIII", magic, 2, 4, 0, 0, 65535, link)]
    for seconds, part, kept, size in frames:
        parts.append(struct.pack(order + "4I", seconds, part, len(kept), size) + kept)
    return b"".join(parts)


def block(order, kind, body):
    body += bytes(-len(body) % 4)
    return struct.pack(order + "2I", kind, 12 + len(body)) + body + struct.pack(order + "I", 12 + len(body))


def pcapng(order, link, resolution, frames, simple=False):
    """frames: (time in units of the resolution, octets)."""
    option = struct.pack(order + "2H", 9, 1) + bytes([resolution, 0, 0, 0]) + struct.pack(order + "2H", 0, 0)
    parts = [block(order, 0x0A0D0D0A, struct.pack(order + "IHHq", 0x1A2B3C4D, 1, 0, -1)),
             block(order, 1, struct.pack(order + "HHI", link, 0, 0) + option), block(order, 0x0BAD, b"skipped")]
    for time, octets in frames:
        head = struct.pack(order + "5I", 0, time >> 32, time & 0xFFFFFFFF, len(octets), len(octets))
        parts.append(block(order, 3, struct.pack(order + "I", len(octets)) + octets) if simple else
                     block(order, 6, head + octets))
    return b"".join(parts)


def made(lines):
    """(name, capture, the lines that are wanted): a tick passes between the second datagram and the third."""
    sent = [(letter, bytes.fromhex(octets)) for letter, octets in lines]
    plain = ["\t".join(line) for line in lines]
    wanted = plain[:2] + ["T"] + plain[2:]
    for name, (link, head) in LINKS.items():
        for order in "<>":
            for nano in (False, True):
                frames = []
                for k, (letter, octets) in enumerate(sent):
                    frame = head + ip(letter, octets) + (b"padding" if link == 1 else b"")
                    frames.append((START + (k > 1), k * 1000, frame, len(frame)))
                yield f"pcap, {name}, {order}, nano {nano}", pcap(order, nano, link, frames), wanted
            for resolution in (3, 6, 9, 0x94):
                units = 2 ** (resolution & 127) if resolution & 128 else 10 ** resolution
                frames = [((START + (k > 1)) * units + k, head + ip(letter, octets))
                          for k, (letter, octets) in enumerate(sent)]
                yield f"pcapng, {name}, {order}, {resolution}", pcapng(order, link, resolution, frames), wanted
    frames = [(0, ip(letter, octets)) for letter, octets in sent]
    yield "simple packets, without a time", pcapng("<", 101, 6, frames, True), plain
    others = [(0, bytes(12) + b"\x08\0" + one) for _, one in frames[2:]]
    both = pcapng("<", 101, 6, frames[:2]) + pcapng(">", 1, 9, others)
    yield "two sections of two byte orders", both, plain
    yield from left_out(sent[0], plain[0])


def left_out(one, line):
    """What is not taken, beside one datagram that is."""
    letter, octets = one
    good, whole = ip(letter, octets), ip(letter, octets)
    others = {
        "another address": ip(letter, octets, target=PEER), "another port": ip(letter, octets, port=53),
        "user port at the control address": ip("U", octets, target=UNIT),
        "a first fragment": ip(letter, octets, more=0x2000),
        "a later fragment": ip(letter, octets, more=0x00B9), "TCP": ip(letter, octets, protocol=6),
        "IPv6": b"\x60" + bytes(47), "nothing": b"", "a cut header": whole[:15], "a cut UDP header": whole[:24],
        "over 2,048 octets": ip(letter, bytes(2049)),
        "a UDP length over the packet's": whole[:2] + struct.pack(">H", len(whole) - 1) + whole[4:],
    }
    for name, frame in others.items():
        frames = [(START, 0, frame, len(frame)), (START, 0, good, len(good))]
        yield f"left out: {name}", pcap("<", False, 101, frames), [line]
    cut = pcap("<", False, 101, [(START, 0, whole[:60], len(whole)), (START, 0, good, len(good))])
    yield "left out: a packet that the capture cut", cut, [line]
    yield "left out: a link type", pcap("<", False, 147, [(START, 0, good, len(good))]), []
    most = pcap("<", False, 101, [(START, 0, ip("U", bytes(2048)), 2076)])
    yield "a datagram of 2,048 octets", most, ["U\t" + "00" * 2048]
    yield from sent_down()
    back = pcap("<", False, 101, [(START + away, 0, good, len(good)) for away in (0, -9, 0)])
    yield "a clock that goes back", back, [line] * 3


def sent_down():
    """G-PDUs that the unit sends: a line D with the packet in them, where they are as the unit writes them."""
    packet = bytes.fromhex("4500001612344000401100000808080864400001ABCD")
    head = b"\x30\xff\0\x16\0\0\x22\x22"
    yield "a G-PDU of the unit", lone(head + packet), ["D\t" + packet.hex().upper()]
    yield "a G-PDU of the unit without a packet", lone(b"\x30\xff" + bytes(6)), ["D\t"]
    most = b"\x30\xff\x08\0\0\0\x22\x22" + bytes(2048)
    yield "a G-PDU of the unit with 2,048 octets", lone(most), ["D\t" + "00" * 2048]
    others = {"a length that does not fit": head + packet[:-1], "an echo reply": b"\x32\2\0\6" + bytes(10),
              "an optional part": b"\x32\xff\0\x1a\0\0\x22\x22" + bytes(4) + packet, "nothing": b"",
              "over 2,048 octets": b"\x30\xff\x08\1\0\0\x22\x22" + bytes(2049)}
    for name, octets in others.items():
        yield f"left out: {name}, sent by the unit", lone(octets), []
    yield "left out: a G-PDU from another port", lone(head + packet, port=53), []


def lone(octets, port=2152):
    """A capture of one user datagram from the unit to its peer."""
    frame = ip("U", octets, target=PEER, port=port)
    frame = frame[:12] + USER + frame[16:]
    return pcap("<", False, 101, [(START, 0, frame, len(frame))])


def damaged():
    """(name, a file that has to be refused)."""
    frame = ip("C", b"12345678")
    good = pcap("<", False, 101, [(START, 0, frame, len(frame))])
    section = pcapng("<", 101, 6, [(0, frame)])
    yield "an empty file", b""
    yield "a text", b"N\t0A000001\t0A000002\n" * 9
    yield "more kept than sent", pcap("<", False, 101, [(START, 0, frame, 5)])
    yield "a million microseconds", pcap("<", False, 101, [(START, 1_000_000, frame, len(frame))])
    yield "octets behind the last packet", good + b"\0\0"
    yield "a section without a byte order", section[:8] + b"\0\0\0\0" + section[12:]
    yield "two lengths that differ", section[:-1] + b"\1"
    yield "a block of 5 octets", section + struct.pack("<2I", 6, 5) + bytes(20)
    head = block("<", 0x0A0D0D0A, struct.pack("<IHHq", 0x1A2B3C4D, 1, 0, -1))
    raw = block("<", 1, struct.pack("<HHI", 101, 0, 0))
    yield "a packet without an interface", head + block("<", 6, struct.pack("<5I", 0, 0, 0, 4, 4) + b"abcd")
    yield "a packet longer than its block", head + raw + block("<", 6, struct.pack("<5I", 0, 0, 0, 400, 400) + b"abcd")
    yield "an option longer than its block", head + block("<", 1, struct.pack("<HHI2H", 101, 0, 0, 9, 400))
    frame = ip("C", bytes(8), target=b"\x7f\0\0\1")
    yield "years between two datagrams", pcap("<", False, 101, [(1, 0, frame, 36), (START, 0, frame, 36)])


class Whole:
    def __init__(self, link, octets):
        self.link, self.octets, self.whole, self.time = link, octets, True, None


def commented(data):
    """The packets of a little-endian pcapng with raw IP, each with its comment."""
    at = 0
    while at < len(data):
        kind, size = struct.unpack("<2I", data[at:at + 8])
        body = data[at + 8:at + size - 4]
        if kind == 6:
            kept = struct.unpack("<I", body[12:16])[0]
            here, comment = 20 + (kept + 3) // 4 * 4, ""
            while here + 4 <= len(body):
                code, length = struct.unpack("<2H", body[here:here + 4])
                if code == 1:
                    comment = body[here + 4:here + 4 + length].decode()
                here += 4 + (length + 3) // 4 * 4
            yield Whole(101, body[20:20 + kept]), comment
        at += size
