"""Has tshark decode the lines of crates/trial_messages ("KIND HEX" each) and holds what it reads to the sample values.

decode.py LINES FOLDER writes FOLDER/messages.pcap, one packet a line, and asks tshark for every field of every packet. A packet
that is malformed, or on which tshark has a warning or an error, is a fault; so is a field that is not as it should be, one that is
missing or too many, and a kind that has no line. Then each message is damaged in its last octet, and one that still passes is a
fault too. Ends with status 1 if there was a fault.
"""
import struct
import subprocess
import sys
import xml.etree.ElementTree as tree

CONTROL, USER = 2123, 2152


def folded(octets):
    """The one's complement sum of 16-bit words that IP and UDP check with."""
    if len(octets) % 2:
        octets += b"\0"
    total = sum(struct.unpack(f">{len(octets) // 2}H", octets))
    while total >> 16:
        total = (total & 0xFFFF) + (total >> 16)
    return ~total & 0xFFFF


def packet(message, port):
    """The message in UDP and IPv4, from the unit (10.0.0.1) to the exchange (10.0.0.9)."""
    ends = bytes([10, 0, 0, 1]) + bytes([10, 0, 0, 9])
    size = 8 + len(message)
    udp = struct.pack(">HHHH", port, port, size, 0)
    check = folded(ends + struct.pack(">BBH", 0, 17, size) + udp + message) or 0xFFFF
    udp = struct.pack(">HHHH", port, port, size, check)
    ip = struct.pack(">BBHHHBBH", 0x45, 0, 20 + size, 0, 0, 64, 17, 0) + ends
    ip = ip[:10] + struct.pack(">H", folded(ip)) + ip[12:]
    return ip + udp + message


def write_pcap(path, packets):
    raw_ip = 101
    with open(path, "wb") as out:
        out.write(struct.pack("<IHHiIII", 0xA1B2C3D4, 2, 4, 0, 0, 65535, raw_ip))
        for second, octets in enumerate(packets):
            # a minute apart, so that none is taken for the repeat of another
            out.write(struct.pack("<IIII", 60 * second, 0, len(octets), len(octets)) + octets)


# ---- what tshark calls the fields that are looked at, in the order in which they stand in a message
HEADER = ["gtpv2.version", "gtpv2.p", "gtpv2.t", "gtpv2.message_type", "gtpv2.msg_length", "gtpv2.teid", "gtpv2.seq", "gtpv2.spare"]
FIELD = ["gtpv2.ie_type", "gtpv2.ie_len", "gtpv2.instance"]
CAUSE = ["gtpv2.cause", "gtpv2.pce", "gtpv2.bce", "gtpv2.cs"]
TUNNEL = ["gtpv2.f_teid_v4", "gtpv2.f_teid_v6", "gtpv2.f_teid_interface_type", "gtpv2.f_teid_gre_key", "gtpv2.f_teid_ipv4"]
ADDRESS = ["gtpv2.pdn_type", "gtpv2.pdn_addr_and_prefix.ipv4"]
ONE = {3: "gtpv2.rec", 73: "gtpv2.ebi", 127: "gtpv2.apn_rest"}
USER_HEADER = ["gtp.flags.version", "gtp.flags.payload", "gtp.flags.e", "gtp.flags.s", "gtp.flags.pn", "gtp.message", "gtp.length"]
USER_REST = ["gtp.teid", "gtp.seq_number", "gtp.recovery", "gtp.teid_data", "gtp.gsn_address_length", "gtp.gsn_ipv4"]
CARRIED = ["ip.len", "ip.proto", "ip.src", "ip.dst"]
LOOKED_AT = set(HEADER + FIELD + CAUSE + TUNNEL + ADDRESS + list(ONE.values()) + USER_HEADER + USER_REST + CARRIED) | {"gtpv2.cause_off_ie_t"}


def control(kind, size, teid, seq, *fields):
    """A control message: type, length, TEID (None: T = 0), sequence number, and its fields."""
    values = [2, 0, 0 if teid is None else 1, kind, size, teid, seq, 0]
    header = [(name, value) for name, value in zip(HEADER, values) if value is not None]
    return header + [pair for field in fields for pair in field]


def field(kind, size, instance, names, values):
    return list(zip(FIELD + names, [kind, size, instance] + values))


def cause(value):
    return field(2, 2, 0, CAUSE, [value, 0, 0, 0])


def fault(value, kind, instance):
    """A cause that names a field: its type, a length of 0, its instance."""
    named = ["gtpv2.cause_off_ie_t", "gtpv2.ie_len", "gtpv2.instance"]
    return field(2, 6, 0, CAUSE + named, [value, 0, 0, 0, kind, 0, instance])


def tunnel(instance, interface, teid, address):
    return field(87, 9, instance, TUNNEL, [1, 0, interface, teid, address])


def one(kind, value):
    return field(kind, 1, 0, [ONE[kind]], [value])


def group(size, *fields):
    return field(93, size, 0, [], []) + [pair for inner in fields for pair in inner]


def user(kind, size, *rest):
    return list(zip(USER_HEADER, [1, 1, 0, 1, 0, kind, size])) + list(rest)


# ---- the samples: what each kind is to be read as
PEER, SEQ, RECOVERY = 0x11223344, 0x0A0B0C, one(3, 7)
SAMPLES = {
    "version_not_supported": control(3, 4, None, 0),
    "echo_response": control(2, 9, None, SEQ, RECOVERY),
    "own_echo": control(1, 9, None, 5, RECOVERY),
    "create_accepted": control(
        33, 74, PEER, SEQ,
        cause(16),
        tunnel(1, 7, 261, "10.0.0.1"),
        field(79, 5, 0, ADDRESS, [1, "100.64.0.6"]),
        one(127, 0),
        group(24, one(73, 5), cause(16), tunnel(2, 5, 389, "10.0.0.2")),
        RECOVERY,
    ),
    "create_cause": control(33, 14, PEER, SEQ, cause(73)),
    "create_fault": control(33, 18, PEER, SEQ, fault(70, 87, 2)),
    "modify_accepted": control(35, 14, PEER, SEQ + 1, cause(16)),
    "modify_bearer": control(35, 29, PEER, SEQ + 1, cause(16), group(11, one(73, 5), cause(16))),
    "modify_cause": control(35, 14, 0, SEQ + 1, cause(64)),
    "modify_fault": control(35, 18, PEER, SEQ + 1, fault(69, 73, 0)),
    "delete_accepted": control(37, 14, PEER, SEQ + 2, cause(16)),
    "delete_cause": control(37, 14, PEER, SEQ + 2, cause(64)),
    "delete_fault": control(37, 18, PEER, SEQ + 2, fault(67, 73, 0)),
    "delete_bearer": control(99, 13, PEER, 8388607, one(73, 15)),
    "user_echo": user(2, 6, ("gtp.teid", 0), ("gtp.seq_number", 4660), ("gtp.recovery", 0)),
    "error_indication": user(
        26, 16,
        ("gtp.teid", 0),
        ("gtp.seq_number", 0),
        ("gtp.teid_data", 389),
        ("gtp.gsn_address_length", 4),
        ("gtp.gsn_ipv4", "10.0.0.2"),
    ),
    "gpdu": list(zip(USER_HEADER, [1, 1, 0, 0, 0, 255, 20])) + [
        ("gtp.teid", 0x55667788),
        *zip(CARRIED, [20, 254, "192.0.2.1", "100.64.0.6"]),
    ],
}
WARNING = 0x600000


def told(text):
    """A value as tshark shows it: a number, or an address."""
    return text if "." in text else int(text, 0)


def faults(kind, found):
    """What is wrong with one decoded packet."""
    wrong = []
    read = []
    # what stands behind the frame's own IPv4 and UDP headers, which `packet` wrote
    inside = [part for proto in found.findall("proto")[4:] for part in proto.iter()]
    for element in inside:
        name = element.get("name") or ""
        if name == "_ws.malformed":
            wrong.append("malformed")
        if name == "_ws.expert.severity" and int(element.get("show"), 0) >= WARNING:
            wrong.append("tshark warns: " + (element.get("showname") or ""))
        if name in LOOKED_AT:
            read.append((name, told(element.get("show"))))
    if read != SAMPLES[kind]:
        for at, (have, want) in enumerate(zip(read + [None] * len(SAMPLES[kind]), SAMPLES[kind])):
            if have != want:
                wrong.append(f"field {at}: read {have}, and it is to be {want}")
                break
        else:
            wrong.append(f"more is read than is to be there: {read[len(SAMPLES[kind])]}")
    return wrong


def decoded(lines, folder):
    """The faults of each line, in their order."""
    pcap = folder + "/messages.pcap"
    write_pcap(pcap, [packet(octets, USER if SAMPLES[kind][0][0].startswith("gtp.") else CONTROL) for kind, octets in lines])
    said = subprocess.run(["tshark", "-n", "-r", pcap, "-T", "pdml"], capture_output=True, text=True, check=True)
    packets = tree.fromstring(said.stdout).findall("packet")
    if len(packets) != len(lines):
        sys.exit(f"tshark read {len(packets)} packets of {len(lines)}")
    return [faults(kind, found) for (kind, _), found in zip(lines, packets)]


def main():
    lines = []
    for line in open(sys.argv[1]):
        kind, octets = line.split()
        lines.append((kind, bytes.fromhex(octets)))
    if [kind for kind, _ in lines] != list(SAMPLES):
        sys.exit("the lines are not the kinds that there are samples of")
    bad = 0
    for (kind, octets), wrong in zip(lines, decoded(lines, sys.argv[2])):
        print(f"{kind} ({len(octets)} octets): {'as it is to be' if not wrong else '; '.join(wrong)}")
        bad += bool(wrong)
    # that this can fail: with its last octet damaged no message passes
    damaged = [(kind, octets[:-1] + bytes([octets[-1] ^ 1])) for kind, octets in lines]
    for (kind, _), wrong in zip(damaged, decoded(damaged, sys.argv[2])):
        if not wrong:
            print(f"{kind}: a damaged octet is not noticed")
            bad += 1
    print(f"{len(lines)} messages, {bad} faults")
    sys.exit(1 if bad else 0)


if __name__ == "__main__":
    main()
