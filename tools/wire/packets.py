"""Capture files: pcap and pcapng are read, pcapng is written; UDP datagrams over IPv4 in and out of packets.

A file that breaks its form, or is cut, is refused with Damaged: one sentence that says where.
"""
import struct

# link types (https://www.tcpdump.org/linktypes.html)
NULL, ETHERNET, RAW_BSD, RAW_OPEN, RAW, LOOP, COOKED, IPV4, COOKED2 = 0, 1, 12, 14, 101, 108, 113, 228, 276
LINKS = (NULL, ETHERNET, RAW_BSD, RAW_OPEN, RAW, LOOP, COOKED, IPV4, COOKED2)
# Ethernet types
IP, TAGS = 0x0800, (0x8100, 0x88A8, 0x9100)
AF_INET = 2
UDP = 17
BILLION = 1_000_000_000
# pcap: the four octets at the start, with byte order and fractions of a second
PCAP = {b"\xa1\xb2\xc3\xd4": (">", 1_000_000), b"\xd4\xc3\xb2\xa1": ("<", 1_000_000),
        b"\xa1\xb2\x3c\x4d": (">", BILLION), b"\x4d\x3c\xb2\xa1": ("<", BILLION)}
# pcapng: block types
SECTION, INTERFACE, OLD_PACKET, SIMPLE, ENHANCED = 0x0A0D0D0A, 1, 2, 3, 6
ORDERS = {b"\x1a\x2b\x3c\x4d": ">", b"\x4d\x3c\x2b\x1a": "<"}
COMMENT, RESOLUTION, OFFSET, NAME, FLAGS = 1, 9, 14, 2, 2
# more than any packet of a capture has, so that a wrong length is not taken for one
MOST = 1 << 24


class Damaged(Exception):
    pass


class Packet:
    """A packet of a capture: its time in nanoseconds (None where none is said), its link type and its octets;
    `whole` is false where the capture kept only its beginning."""

    def __init__(self, time, link, octets, whole):
        self.time, self.link, self.octets, self.whole = time, link, octets, whole


def packets(data):
    """The packets of a capture file."""
    if data[:4] in PCAP:
        return read_pcap(data)
    if data[:4] == struct.pack(">I", SECTION):
        return read_pcapng(data)
    raise Damaged("it is neither a pcap nor a pcapng file")


def read_pcap(data):
    order, unit = PCAP[data[:4]]
    if len(data) < 24:
        raise Damaged("the header of the file is cut")
    link = struct.unpack(order + "I", data[20:24])[0] & 0x0FFFFFFF
    at, count = 24, 0
    while at < len(data):
        count += 1
        if at + 16 > len(data):
            raise Damaged(f"the header of packet {count} is cut, at octet {at}")
        seconds, part, kept, size = struct.unpack(order + "4I", data[at:at + 16])
        if kept > MOST or kept > size or part >= unit:
            raise Damaged(f"the header of packet {count}, at octet {at}, makes no sense")
        at += 16
        if at + kept > len(data):
            raise Damaged(f"packet {count} is cut: {kept} octets from octet {at} on, {len(data) - at} are there")
        yield Packet(seconds * BILLION + part * (BILLION // unit), link, data[at:at + kept], kept == size)
        at += kept


def read_pcapng(data):
    order, interfaces, at = None, [], 0
    while at < len(data):
        if at + 12 > len(data):
            raise Damaged(f"a block is cut, at octet {at}")
        if data[at:at + 4] == struct.pack(">I", SECTION):
            order, interfaces = ORDERS.get(data[at + 8:at + 12]), []
            if order is None:
                raise Damaged(f"a section without a byte order, at octet {at}")
        kind, size = struct.unpack(order + "2I", data[at:at + 8])
        if size < 12 or size % 4 or size > MOST:
            raise Damaged(f"a block of {size} octets, at octet {at}")
        if at + size > len(data):
            raise Damaged(f"a block is cut: {size} octets from octet {at} on, {len(data) - at} are there")
        if data[at + size - 4:at + size] != data[at + 4:at + 8]:
            raise Damaged(f"the two lengths of a block differ, at octet {at}")
        body = data[at + 8:at + size - 4]
        if kind == INTERFACE:
            interfaces.append(read_interface(order, body, at))
        elif kind in (ENHANCED, OLD_PACKET, SIMPLE):
            yield read_block(order, kind, body, interfaces, at)
        at += size


def read_interface(order, body, at):
    """(link type, time units a second, offset in seconds, most octets kept)"""
    if len(body) < 8:
        raise Damaged(f"an interface is cut, at octet {at}")
    link, _, most = struct.unpack(order + "HHI", body[:8])
    units, offset = 1_000_000, 0
    for code, value in options(order, body[8:], at):
        if code == RESOLUTION and len(value) == 1:
            units = 2 ** (value[0] & 127) if value[0] & 128 else 10 ** value[0]
        if code == OFFSET and len(value) == 8:
            offset = struct.unpack(order + "q", value)[0]
    return link, units, offset, most


def options(order, body, at):
    """The options of a block, up to the one that ends them."""
    here = 0
    while here + 4 <= len(body):
        code, size = struct.unpack(order + "2H", body[here:here + 4])
        if code == 0:
            return
        if here + 4 + size > len(body):
            raise Damaged(f"an option is cut, in the block at octet {at}")
        yield code, body[here + 4:here + 4 + size]
        here += 4 + (size + 3) // 4 * 4


def read_block(order, kind, body, interfaces, at):
    head = {ENHANCED: 20, OLD_PACKET: 20, SIMPLE: 4}[kind]
    if len(body) < head:
        raise Damaged(f"a packet block is cut, at octet {at}")
    index, time = 0, None
    if kind == SIMPLE:
        size = struct.unpack(order + "I", body[:4])[0]
        kept = min(size, len(body) - head)
    elif kind == ENHANCED:
        index, high, low, kept, size = struct.unpack(order + "5I", body[:20])
    else:
        index, _, high, low, kept, size = struct.unpack(order + "2H4I", body[:20])
    if index >= len(interfaces):
        raise Damaged(f"a packet of an interface that was not named, at octet {at}")
    link, units, offset, most = interfaces[index]
    if kind == SIMPLE:
        kept = min(kept, most) if most else kept
    else:
        time = ((high << 32 | low) * BILLION) // units + offset * BILLION
    if head + kept > len(body) or kept > size:
        raise Damaged(f"the length of a packet makes no sense, at octet {at}")
    return Packet(time, link, body[head:head + kept], kept == size)


# ---- packets and datagrams

class Other(Exception):
    """A packet that is not taken; its text says of which kind it is."""


def network(packet):
    """The IPv4 packet in a packet of a capture."""
    octets, link = packet.octets, packet.link
    if link not in LINKS:
        raise Other(f"of link type {link}, which is not read")
    kind, start = IP, 0
    if link in (NULL, LOOP):
        start, family = 4, octets[:4]
        # NULL has the family in the byte order of the machine that captured, LOOP in network order
        kind = IP if AF_INET in (int.from_bytes(family, "big"), int.from_bytes(family, "little")) else None
    elif link == COOKED:
        start, kind = 16, int.from_bytes(octets[14:16], "big")
    elif link == COOKED2:
        start, kind = 20, int.from_bytes(octets[:2], "big")
    elif link == ETHERNET:
        start, kind = 14, int.from_bytes(octets[12:14], "big")
    while kind in TAGS:
        start, kind = start + 4, int.from_bytes(octets[start + 2:start + 4], "big")
    if kind != IP or (octets[start:start + 1] or b"\0")[0] >> 4 != 4:
        raise Other("not IPv4")
    return octets[start:]


def datagram(packet):
    """The UDP datagram in a packet: (source address and port, destination address and port, octets)."""
    ip = network(packet)
    start = (ip[0] & 15) * 4
    if len(ip) < 20 or start < 20 or len(ip) < start:
        raise Other("with an IPv4 header that is cut")
    total = int.from_bytes(ip[2:4], "big")
    if ip[9] != UDP:
        raise Other("not UDP")
    if int.from_bytes(ip[6:8], "big") & 0x3FFF:
        raise Other("fragments of a datagram")
    # what stands behind the total length pads the frame; a total of 0 is left to the network card
    udp = ip[start:total] if total else ip[start:]
    if len(udp) < 8 or int.from_bytes(udp[4:6], "big") < 8:
        raise Other("with a UDP header that is cut")
    size = int.from_bytes(udp[4:6], "big")
    if len(udp) < size:
        raise Other("cut by the capture" if not packet.whole else "with a UDP length over the packet's")
    ports = struct.unpack(">2H", udp[:4])
    return (ip[12:16], ports[0]), (ip[16:20], ports[1]), udp[8:size]


def checksum(octets):
    total = sum(struct.unpack(f">{(len(octets) + 1) // 2}H", octets + bytes(len(octets) % 2)))
    while total >> 16:
        total = (total & 0xFFFF) + (total >> 16)
    return total ^ 0xFFFF


def packed(source, target, octets):
    """A UDP datagram as an IPv4 packet, with both checksums; source and target are (address, port)."""
    size = 8 + len(octets)
    udp = struct.pack(">4H", source[1], target[1], size, 0) + octets
    sum_ = checksum(source[0] + target[0] + struct.pack(">2H", UDP, size) + udp) or 0xFFFF
    head = struct.pack(">2B3H2BH4s4s", 0x45, 0, 20 + size, 0, 0x4000, 64, UDP, 0, source[0], target[0])
    return head[:10] + struct.pack(">H", checksum(head)) + head[12:] + udp[:6] + struct.pack(">H", sum_) + octets


# ---- writing pcapng

def block(kind, body):
    size = 12 + len(body)
    return struct.pack("<2I", kind, size) + body + struct.pack("<I", size)


def option(code, value):
    return struct.pack("<2H", code, len(value)) + value + bytes(-len(value) % 4)


def section(comment):
    """The head of a file, with a comment on all of it."""
    return block(SECTION, struct.pack("<IHHq", 0x1A2B3C4D, 1, 0, -1) + option(COMMENT, comment.encode()[:65000])
                 + option(0, b""))


def interface(name):
    """An interface of raw IP packets, times in microseconds."""
    return block(INTERFACE, struct.pack("<HHI", RAW, 0, 0) + option(NAME, name.encode()) + option(RESOLUTION, b"\6")
                 + option(0, b""))


def enhanced(index, time, octets, comment, outbound):
    """A packet with a comment; time in microseconds."""
    head = struct.pack("<5I", index, time >> 32, time & 0xFFFFFFFF, len(octets), len(octets))
    ends = option(COMMENT, comment.encode()[:65000]) + option(FLAGS, struct.pack("<I", 2 if outbound else 1))
    return block(ENHANCED, head + octets + bytes(-len(octets) % 4) + ends + option(0, b""))
