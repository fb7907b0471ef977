"""The octets of document 01: how control fields are read, and what each reply and own request looks like. Behind them the
downlink's: the carrier's packet and its G-PDU.

Half of the test oracle (model.py is the other half). Written from the papers and their readings alone, without the program's code;
plain and slow on purpose. A value is read from a `bytes`, and every writer returns a `bytes`.
"""

# Types of message and of field that document 01 names.
ECHO, ECHO_REPLY, UNSUPPORTED, CREATE, MODIFY, DELETE, DELETE_BEARER, BEARER_REPLY = 1, 2, 3, 32, 34, 36, 99, 100
IMSI, CAUSE, RECOVERY, APN, EBI, PAA, QOS, RAT, FTEID, BEARER, RESTRICTION = 1, 2, 3, 71, 73, 79, 80, 82, 87, 93, 127
ACCEPTED = 16

# "Types taken: 1, 2, 3 with T = 0; 32, 34, 36, 100 with T = 1."
T_FLAG = {ECHO: 0, ECHO_REPLY: 0, UNSUPPORTED: 0, CREATE: 1, MODIFY: 1, DELETE: 1, BEARER_REPLY: 1}


class Refused(Exception):
    """A cause, and the field it names: (type, instance), or None."""

    def __init__(self, cause, field=None):
        self.cause, self.field = cause, field


def number(octets):
    return int.from_bytes(octets, "big")


# ---- reading fields

def fields(octets):
    """The fields in their order as (type, instance, value); None if one runs past the end.

    "A field is type, 2-octet length, instance (low 4 bits), value." "Fewer than 4 octets left over is an overrun too."
    """
    found, at = [], 0
    while at < len(octets):
        if at + 4 > len(octets):
            return None
        end = at + 4 + number(octets[at + 1:at + 3])
        if end > len(octets):
            return None
        found.append((octets[at], octets[at + 3] & 15, octets[at + 4:end]))
        at = end
    return found


def first(found, kind, instance=0):
    """"Unknown fields are skipped; of equal type and instance the first counts.\""""
    return next((value for k, i, value in found if (k, i) == (kind, instance)), None)


def message_fields(octets):
    """The fields of Create, Modify or Delete: an overrun in the message "or its first Bearer Context (instance 0)" is None."""
    found = fields(octets)
    if found is not None:
        bearer = first(found, BEARER)
        if bearer is not None and fields(bearer) is None:
            return None
    return found


def taken(found, kind, instance, size, good=lambda value: True):
    """A field that has to be there: "missing 70, short 67, wrong 69"."""
    value = first(found, kind, instance)
    if value is None:
        raise Refused(70, (kind, instance))
    if len(value) < size:
        raise Refused(67, (kind, instance))
    if not good(value):
        raise Refused(69, (kind, instance))
    return value


def good_imsi(value):
    """"8 octets; 15 digits, last high half F": low half first."""
    halves = [half for octet in value[:8] for half in (octet & 15, octet >> 4)]
    return all(half <= 9 for half in halves[:15]) and halves[15] == 15


def imsi_digits(value):
    return "".join("%d%d" % (octet & 15, octet >> 4) if octet >> 4 < 10 else "%d" % (octet & 15) for octet in value[:8])


def good_fteid(interface):
    """"F-TEID: 9 octets, V4 flag set, TEID not 0", and its interface; the V6 bit is not looked at."""
    return lambda value: value[0] & 0x80 and value[0] & 0x3F == interface and number(value[1:5]) != 0


def fteid_parts(value):
    return number(value[1:5]), number(value[5:9])


def recovery(found):
    """"Absent or empty: ignored." The first counts, also where it is empty."""
    value = None if found is None else first(found, RECOVERY)
    return value[0] if value else None


# ---- writing

def field(kind, value, instance=0):
    return bytes([kind]) + len(value).to_bytes(2, "big") + bytes([instance]) + value


def fteid(interface, teid, address, instance):
    return field(FTEID, bytes([0x80 | interface]) + teid.to_bytes(4, "big") + address.to_bytes(4, "big"), instance)


def header(kind, teid, sequence, body):
    """"A header we write has octet 1 40 (T = 0) or 48 (T = 1), hex; spare bits 0." teid None: T = 0."""
    rest = (b"" if teid is None else teid.to_bytes(4, "big")) + sequence.to_bytes(3, "big") + b"\0" + body
    return bytes([0x40 if teid is None else 0x48, kind]) + len(rest).to_bytes(2, "big") + rest


def cause_reply(kind, teid, sequence, cause, named=None):
    """"Cause value is the cause and 00; for 69, 70 and a short field also its type, 00 00, its instance.\""""
    value = bytes([cause, 0]) + (bytes([named[0], 0, 0, named[1]]) if named else b"")
    return header(kind, teid, sequence, field(CAUSE, value))


def bearer_reply(ebi, more=b""):
    return field(BEARER, field(EBI, bytes([ebi])) + field(CAUSE, bytes([ACCEPTED, 0])) + more)


def created(to, sequence, control, control_address, address, ebi, user, user_address, own_recovery):
    """The accepted reply (33), 78 octets, its fields in the order of the paper."""
    return header(33, to, sequence,
                  field(CAUSE, bytes([ACCEPTED, 0])) + fteid(7, control, control_address, 1)
                  + field(PAA, b"\1" + address.to_bytes(4, "big")) + field(RESTRICTION, b"\0")
                  + bearer_reply(ebi, fteid(5, user, user_address, 2)) + field(RECOVERY, bytes([own_recovery])))


def modified(to, sequence, bearer_ebi):
    """Reply (35): Cause 16, "and if a Bearer Context came, one with EBI and Cause 16"."""
    return header(35, to, sequence, field(CAUSE, bytes([ACCEPTED, 0])) + (b"" if bearer_ebi is None else bearer_reply(bearer_ebi)))


def echo(kind, sequence, own_recovery):
    return header(kind, None, sequence, field(RECOVERY, bytes([own_recovery])))


def delete_bearer(to, sequence, ebi):
    return header(DELETE_BEARER, to, sequence, field(EBI, bytes([ebi])))


VERSION_REPLY = bytes.fromhex("4003000400000000")


def user_echo_reply(sequence):
    """"32 02 00 06, TEID 0, sequence (0 if S is unset), 00 00 0E 00.\""""
    return bytes.fromhex("3202000600000000") + sequence + bytes.fromhex("00000E00")


def error_indication(teid, address):
    """"32 1A 00 10, TEID 0, four 00, 10 and the TEID, 85 00 04 and the unit's user address.\""""
    return bytes.fromhex("321A00100000000000000000") + b"\x10" + teid + bytes.fromhex("850004") + address.to_bytes(4, "big")


# ---- downlink (document 02, request 1)

def whole_packet(d):
    """Not whole: "under 20 octets, of a version other than 4, with a header length under 20 octets or over the total, or with a total
    length other than what was given". Nothing else of the header is read."""
    if len(d) < 20:
        return False
    version, header, total = d[0] >> 4, 4 * (d[0] & 15), number(d[2:4])
    return version == 4 and 20 <= header <= total and total == len(d)


def destination(d):
    return number(d[16:20])


def gpdu(teid, packet):
    """"octet 1 30, type 255, the peer's user TEID, no optional part"; the length is the packet's."""
    return b"\x30\xFF" + len(packet).to_bytes(2, "big") + teid.to_bytes(4, "big") + packet
