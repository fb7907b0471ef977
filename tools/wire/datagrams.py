"""Datagrams in words: what stands in a control or user datagram, field by field, also where it is damaged.

`control` and `user` answer a list of phrases, the first of them the head. Nothing is refused: a datagram that is cut
is told as far as it can be read, and the last phrase begins with ENDS and says where and why. `sent` is true for
what the unit writes: there a header TEID is the peer's and an F-TEID the unit's own; in what comes in it is the other
way round.
"""
from .meanings import (CONTROL_TYPES, FIELDS, INTERFACES, PAA_TYPES, PROTOCOLS, RAT_TYPES, USER_TYPES, cause_words,
                       fault_words)

PLACES, USER_BIT = 64, 128
ENDS = "it ends here: "
# the interface types of the unit's own tunnel numbers
OWN_USER, OWN_CONTROL = 5, 7
BEARER, SHORT = 93, 67
# the types without a TEID in their header
BARE_TYPES = (1, 2, 3)


def number(octets):
    return int.from_bytes(octets, "big")


def dotted(octets):
    """An address of 4 octets, or of a number."""
    return ".".join(str(part) for part in (octets.to_bytes(4, "big") if isinstance(octets, int) else octets))


def counted(count, word="octet"):
    return f"{count} {word}" if count == 1 else f"{count} {word}s"


def hexed(octets, most=24):
    """Octets in hex, a long run of them cut."""
    return octets.hex().upper() if len(octets) <= most else octets[:most].hex().upper() + ".."


def name_text(name):
    """An access point name as text: its labels joined with dots; in hex where it is not made of labels."""
    labels, at = [], 0
    while at < len(name):
        label = name[at + 1:at + 1 + name[at]]
        if not label or len(label) < name[at] or not all(33 <= octet <= 126 for octet in label):
            return f"hex {hexed(name, 63)}"
        labels.append(label.decode("ascii"))
        at += 1 + name[at]
    return '"' + ".".join(labels) + '"'


def own_teid(teid, control=True):
    """A tunnel number of the unit with its place and use."""
    use, low = divmod(teid, 256)
    kind = "control" if control else "user"
    place = low if control else low - USER_BIT
    if 0 <= place < PLACES and use:
        return f"{kind} TEID {teid:08X}: place {place}, use {use}"
    other = low - USER_BIT if control else low
    if 0 <= other < PLACES and use:
        belongs = "user" if control else "control"
        return f"{kind} TEID {teid:08X}: no {kind} number (the {belongs} number of place {other}, use {use})"
    return f"{kind} TEID {teid:08X}: no number of the unit"


# ---- fields: each reader takes a value that is long enough, the instance, the direction and the plan's names

def imsi(value, instance, sent, names):
    halves = "".join(f"{octet & 15:X}{octet >> 4:X}" for octet in value[:8])
    good = halves[:15].isdecimal() and halves[15] == "F"
    return f"IMSI {halves[:15]}" if good else f"IMSI {halves}, not 15 digits and F"


def cause(value, instance, sent, names):
    text = cause_words(value[0])
    if len(value) >= 6:
        return f"{text}, at fault: {fault_words(value[2], value[5] & 15)}"
    return text + (", no field named: an overrun" if sent and value[0] == SHORT else "")


def recovery(value, instance, sent, names):
    return f"Recovery {value[0]}"


def apn(value, instance, sent, names):
    if names is None:
        return f"access point {name_text(value)}"
    known = f"number {names.index(value)} in the plan" if value in names else "not in the plan"
    return f"access point {name_text(value)} ({known})"


def ebi(value, instance, sent, names):
    return f"EBI {value[0] & 15}"


def paa(value, instance, sent, names):
    kind = value[0] & 7
    named = PAA_TYPES.get(kind, "no type of the standard")
    return f"PAA {dotted(value[1:5])}" if kind == 1 else f"PAA of type {kind} ({named}) {hexed(value[1:])}"


def qos(value, instance, sent, names):
    return f"Bearer QoS with QCI {value[1]}"


def rat(value, instance, sent, names):
    return f"RAT Type {value[0]} ({RAT_TYPES.get(value[0], 'no type of the standard')})"


def fteid(value, instance, sent, names):
    interface, teid = value[0] & 63, number(value[1:5])
    where = f"at {dotted(value[5:9])}" if value[0] & 0x80 else f"with the V4 flag off, behind it {hexed(value[5:])}"
    if sent and interface in (OWN_USER, OWN_CONTROL):
        text = f"{own_teid(teid, interface == OWN_CONTROL)}, {where}"
    else:
        kind = " ".join(word for word in ("" if sent else "peer", INTERFACES.get(interface)) if word)
        text = f"{kind} TEID {teid:08X} {where}".strip()
    named = "" if interface in INTERFACES else ", none of S5/S8"
    return f"{text} (F-TEID instance {instance}, interface {interface}{named})"


def restriction(value, instance, sent, names):
    return f"APN Restriction {value[0]}"


def bearer(value, instance, sent, names):
    inner = fields(value, sent, names)
    return "Bearer Context (" + ("; ".join(inner) or "empty") + ")"


READERS = {1: imsi, 2: cause, 3: recovery, 71: apn, 73: ebi, 79: paa, 80: qos, 82: rat, 87: fteid, 93: bearer,
           127: restriction}


def fields(octets, sent, names):
    """The fields behind a header or in a Bearer Context, a phrase each."""
    found, seen, at = [], set(), 0
    while at < len(octets):
        rest = octets[at:]
        if len(rest) < 4:
            return found + [f"{ENDS}{counted(len(rest))} left over ({hexed(rest)}), a field needs 4"]
        kind, size, instance = rest[0], number(rest[1:3]), rest[3] & 15
        value = rest[4:4 + size]
        name, least = FIELDS.get(kind, ("unknown", 0))
        label = f"{name} (type {kind}, instance {instance})"
        if len(value) < size:
            inner = f", in it: {'; '.join(fields(value, sent, names)) or 'nothing'}" if kind == BEARER else ""
            return found + [f"{ENDS}{label} says {counted(size)} and {len(value)} are left"
                            + (inner or f" ({hexed(value) or 'none'})")]
        if len(value) < least:
            text = f"{label} is short: {counted(len(value))}, it needs {least} ({hexed(value) or 'none'})"
        elif kind in READERS:
            text = READERS[kind](value, instance, sent, names)
            text += f" (instance {instance})" if instance and kind != 87 else ""
        else:
            text = f"{label}, {counted(size)} ({hexed(value) or 'none'})"
        found.append(text + (" (again; the first counts)" if (kind, instance) in seen else ""))
        seen.add((kind, instance))
        at += 4 + size
    return found


# ---- datagrams

def cut_header(kind, d):
    return [f"{counted(len(d))}, no {kind} header ({hexed(d) or 'none'})", f"{ENDS}a header has at least 8 octets"]


def control(d, sent=False, names=None):
    """A control datagram in phrases."""
    if len(d) < 8:
        return cut_header("control", d)
    version, piggyback, tunnel, kind = d[0] >> 5, d[0] & 0x10, d[0] & 8, d[1]
    head = f"{CONTROL_TYPES.get(kind, 'unknown type')} ({kind}), {counted(len(d))}"
    if version != 2:
        return [f"version {version}, type {kind}, {counted(len(d))} ({hexed(d)})",
                f"{ENDS}only version 2 is GTP for control"]
    notes = ["P flag set"] if piggyback else []
    if bool(tunnel) == (kind in BARE_TYPES) and kind in CONTROL_TYPES:
        notes.append(f"T flag {'set' if tunnel else 'not set'}")
    if number(d[2:4]) != len(d) - 4:
        notes.append(f"length says {counted(number(d[2:4]))} behind the first 4, there are {len(d) - 4}")
    start = 12 if tunnel else 8
    if tunnel:
        teid = number(d[4:8])
        if teid == 0:
            notes.append("header TEID 0")
        elif sent:
            notes.append(f"to TEID {teid:08X} of the peer")
        else:
            notes.append(f"header {own_teid(teid)}")
    if len(d) < start:
        return [", ".join([head] + notes), f"{ENDS}the header is cut, it has 12 octets with a TEID"]
    notes.insert(0, f"sequence number {number(d[start - 4:start - 1])}")
    # what stands behind the length that the header says is another message, or nothing that can be named
    end = min(len(d), 4 + number(d[2:4]))
    found = [", ".join([head] + notes)] + fields(d[start:end], sent, names)
    left = len(d) - max(end, start)
    if left > 0 and not found[-1].startswith(ENDS):
        found.append(f"{ENDS}{counted(left)} behind the length that the header says ({hexed(d[-left:])})")
    return found


def payload_words(payload, what="payload", behind=""):
    """What a payload or a packet is, where it looks like an IPv4 packet."""
    text = f"{what} of {counted(len(payload))}{behind}"
    if len(payload) >= 20 and payload[0] >> 4 == 4:
        protocol = PROTOCOLS.get(payload[9], f"protocol {payload[9]}")
        return f"{text}: IPv4 from {dotted(payload[12:16])} to {dotted(payload[16:20])}, {protocol}"
    return text + (f" ({hexed(payload)})" if payload else "")


def unfit_words(packet):
    """Why a packet of the carrier's side is not one whole IPv4 packet, a phrase a ground."""
    if len(packet) < 20:
        return [f"{ENDS}an IPv4 header has at least 20 octets"]
    version, header, total = packet[0] >> 4, 4 * (packet[0] & 15), number(packet[2:4])
    found = [f"version {version}, not 4"] if version != 4 else []
    found += [f"header length {header}, under 20"] if header < 20 else []
    found += [f"header length {header}, over the total"] if header > total else []
    found += [f"total length says {counted(total)}, there are {len(packet)}"] if total != len(packet) else []
    return found


def user(d, sent=False, names=None):
    """A user datagram in phrases."""
    if len(d) < 8:
        return cut_header("user", d)
    kind, teid = d[1], number(d[4:8])
    head = f"{USER_TYPES.get(kind, 'unknown type')} ({kind}), {counted(len(d))}"
    if d[0] >> 5 != 1 or not d[0] & 0x10:
        wrong = f"version {d[0] >> 5}, PT {d[0] >> 4 & 1}, type {kind}, {counted(len(d))} ({hexed(d)})"
        return [wrong, f"{ENDS}no version 1 of GTP with PT 1"]
    notes = [own_teid(teid, False)] if not sent and (kind == 255 or teid) else []
    notes += [f"to TEID {teid:08X} of the peer"] if sent and kind == 255 else []
    if number(d[2:4]) != len(d) - 8:
        notes.append(f"length says {counted(number(d[2:4]))} behind the first 8, there are {len(d) - 8}")
    at, following = 8, 0
    if d[0] & 7:
        if len(d) < 12:
            return [", ".join([head] + notes), f"{ENDS}the optional part is cut: {counted(len(d) - 8)} of 4"]
        at, following = 12, d[11] if d[0] & 4 else 0
        notes += [f"sequence number {number(d[8:10])}"] if d[0] & 2 else []
        notes += [f"N-PDU number {d[10]}"] if d[0] & 1 else []
    found = [", ".join([head] + notes)]
    while following:
        label = f"extension header of type {following}" + (", which must be understood" if following >= 128 else "")
        size = 4 * d[at] if at < len(d) else 0
        if size == 0 or at + size > len(d):
            why = "nothing behind it" if at >= len(d) else f"says {size} octets and {counted(len(d) - at)} left"
            return found + [f"{ENDS}{label}, {why}"]
        found.append(f"{label}, {size} octets ({hexed(d[at:at + size])})")
        at, following = at + size, d[at + size - 1]
    return found + user_rest(kind, d[at:])


def user_rest(kind, rest):
    """What stands behind the header of a user datagram."""
    if kind == 255:
        return [payload_words(rest)]
    if kind == 26 and len(rest) == 12 and rest[0] == 0x10 and rest[5:8] == b"\x85\0\4":
        return [f"about {own_teid(number(rest[1:5]), False)}", f"user address {dotted(rest[8:12])}"]
    if kind == 2 and len(rest) == 2 and rest[0] == 14:
        return [f"Recovery {rest[1]}"]
    return [f"{counted(len(rest))} behind the header ({hexed(rest)})"] if rest else []
