"""What the numbers that come back, the message types and the fields are called: the one table for all tools.

NUMBERS has to say what the headings of docs/NUMBERS.md and the enum of include/grugavorn.h say, FAULTS what the list
of fields in docs/NUMBERS.md says; `tools/meanings --check` compares. The names of types and fields are those of
TS 29.274 and TS 29.281, as Wireshark shows them.
"""
import re

# number: (its name in C behind GRUGAVORN_, its meaning)
NUMBERS = {
    0: ("TAKEN", "taken"),
    1: ("REPLY_SHORT", "the reply buffer is short"),
    2: ("RULES_BROKEN", "the table breaks its rules"),
    3: ("UNDER_EIGHT", "the datagram has under 8 octets"),
    4: ("FLAG_P_SET", "the P flag is set"),
    5: ("OTHER_VERSION", "a control version other than 2"),
    6: ("LENGTH_UNFIT", "the length does not fit, or the header is cut"),
    7: ("TYPE_NOT_TAKEN", "the type is not taken"),
    8: ("TEID_UNFIT", "the T flag, or the TEID of a Create, does not fit"),
    9: ("NOT_AWAITED", "a reply that nobody awaits, or that cannot be read"),
    10: ("NO_PLACE", "no such place, or a free place to close"),
    11: ("NO_FREE_PLACE", "admitted, but no place is free"),
    12: ("NOT_USER", "the user version or PT is wrong"),
    13: ("PART_CUT", "the optional part or an extension header is cut"),
    14: ("MUST_UNDERSTAND", "an extension header that must be understood"),
    15: ("USER_NOT_LIVE", "the user TEID is not live"),
    16: ("PLAN_BREAKS", "the plan breaks a limit"),
    17: ("NOTHING_DUE", "nothing is due"),
    18: ("PACKET_UNFIT", "a packet that is not one whole IPv4 packet"),
    19: ("NO_SESSION", "no session has the destination address"),
    20: ("OUTPUT_SHORT", "the output buffer is under the packet plus 8"),
    64: ("NOT_LIVE", "no such session"),
    67: ("SHORT", "a field is short, or overruns"),
    69: ("WRONG", "a field has a wrong value"),
    70: ("MISSING", "a field is missing"),
    73: ("NO_ROOM", "no room by the sharing rule"),
    78: ("UNKNOWN_APN", "the access point name is unknown"),
    83: ("ADDRESS_TYPE", "the address type is not IPv4"),
}

# the fields that a cause reply can name, by type and instance
FAULTS = {
    (1, 0): "IMSI",
    (82, 0): "RAT Type",
    (87, 0): "Sender F-TEID",
    (71, 0): "APN",
    (79, 0): "PAA",
    (93, 0): "Bearer Context",
    (73, 0): "EBI",
    (87, 2): "F-TEID for user packets in a Create",
    (87, 1): "F-TEID for user packets in a Modify",
    (80, 0): "Bearer QoS",
}

CONTROL_TYPES = {
    1: "Echo Request", 2: "Echo Response", 3: "Version Not Supported Indication",
    32: "Create Session Request", 33: "Create Session Response",
    34: "Modify Bearer Request", 35: "Modify Bearer Response",
    36: "Delete Session Request", 37: "Delete Session Response",
    38: "Change Notification Request", 39: "Change Notification Response",
    64: "Modify Bearer Command", 65: "Modify Bearer Failure Indication",
    66: "Delete Bearer Command", 67: "Delete Bearer Failure Indication",
    68: "Bearer Resource Command", 69: "Bearer Resource Failure Indication",
    95: "Create Bearer Request", 96: "Create Bearer Response",
    97: "Update Bearer Request", 98: "Update Bearer Response",
    99: "Delete Bearer Request", 100: "Delete Bearer Response",
}
USER_TYPES = {
    1: "Echo Request", 2: "Echo Response", 26: "Error Indication", 31: "Supported Extension Headers Notification",
    254: "End Marker", 255: "G-PDU",
}
# type of field: (its name, the octets that it needs at least)
FIELDS = {
    1: ("IMSI", 8), 2: ("Cause", 2), 3: ("Recovery", 1), 71: ("APN", 0), 72: ("AMBR", 0), 73: ("EBI", 1),
    75: ("MEI", 0), 76: ("MSISDN", 0), 77: ("Indication", 0), 78: ("PCO", 0), 79: ("PAA", 5), 80: ("Bearer QoS", 22),
    82: ("RAT Type", 1), 83: ("Serving Network", 0), 86: ("ULI", 0), 87: ("F-TEID", 9), 93: ("Bearer Context", 0),
    94: ("Charging ID", 0), 95: ("Charging Characteristics", 0), 99: ("PDN Type", 0), 114: ("UE Time Zone", 0),
    127: ("APN Restriction", 1), 128: ("Selection Mode", 0),
}
RAT_TYPES = {1: "UTRAN", 2: "GERAN", 3: "WLAN", 4: "GAN", 5: "HSPA Evolution", 6: "EUTRAN", 7: "Virtual"}
PAA_TYPES = {1: "IPv4", 2: "IPv6", 3: "IPv4v6"}
# S5/S8: the exchange is the SGW (4, 6), the unit the PGW (5, 7)
INTERFACES = {4: "user", 5: "user", 6: "control", 7: "control"}
PROTOCOLS = {1: "ICMP", 6: "TCP", 17: "UDP"}
ACCEPTED = 16


def number_words(number):
    """A number with its meaning."""
    return f"{number}: {NUMBERS[number][1]}" if number in NUMBERS else f"{number}: no number of docs/NUMBERS.md"


def cause_words(cause):
    """A cause with its meaning, where it is one that the unit writes."""
    if cause == ACCEPTED:
        return f"Cause {cause} (accepted)"
    return f"Cause {cause} ({NUMBERS[cause][1]})" if cause in NUMBERS and cause >= 64 else f"Cause {cause}"


def fault_words(kind, instance):
    """The field at fault by name."""
    name = FAULTS.get((kind, instance)) or FIELDS.get(kind, ("a field without a name here", 0))[0]
    return f"{name} (type {kind}, instance {instance})"


def headings(text):
    """The numbers of docs/NUMBERS.md with the words of their headings, in order."""
    return [(int(number), words) for number, words in re.findall(r"^## (\d+): (.*)$", text, re.M)]


def named_faults(text):
    """The fields that docs/NUMBERS.md says a cause reply names: ((type, instance), name)."""
    part = text.partition("\n## Which field a cause reply names\n")[2].partition("\n## ")[0]
    found = re.findall(r"^- \*\*(\w\w) (\w\w)\*\* (.*) \((\d+)\)$", part, re.M)
    return [((int(kind, 16), int(instance, 16)), name, int(decimal)) for kind, instance, name, decimal in found]


def enumerated(text):
    """The numbers of enum grugavorn_number with their names."""
    body = re.search(r"enum grugavorn_number \{(.*?)\}", text, re.S)
    plain = re.sub(r"/\*.*?\*/", "", body.group(1), flags=re.S) if body else ""
    return [(int(number), name) for name, number in re.findall(r"GRUGAVORN_(\w+)\s*=\s*(\d+)", plain)]


def differences(document, header):
    """What docs/NUMBERS.md and the header say otherwise than the table: a line each."""
    words_of = {number: words for number, (_, words) in NUMBERS.items()}
    name_of = {number: name for number, (name, _) in NUMBERS.items()}
    for title, found, own in (
            ("docs/NUMBERS.md, heading", headings(document), words_of),
            ("include/grugavorn.h, enum grugavorn_number", enumerated(header), name_of),
            ("docs/NUMBERS.md, field", [(key, name) for key, name, _ in named_faults(document)], FAULTS)):
        for key, words in found:
            if own.get(key) != words:
                yield f"{title} {key}: '{words}', the table has {repr(own[key]) if key in own else 'nothing'}"
        for key in own:
            count = sum(key == other for other, _ in found)
            if count != 1:
                yield f"{title} {key}: stands {count} times, the table has {own[key]!r}"
    for (kind, instance), name, decimal in named_faults(document):
        if kind != decimal:
            yield f"docs/NUMBERS.md, field {name}: {kind:02X} {instance:02X} is not type {decimal}"
