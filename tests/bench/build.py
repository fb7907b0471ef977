"""What the cases are written with: input lines and datagrams built octet by octet, and expected lines spelled out by hand.

Shares nothing with the model but the figures: a slip in the one's octets is not a slip in the other's. Hex texts may have spaces for the eye.
"""

from figures import DATAGRAM, KEPT, LIFE, NAME_LENGTH, PLACES  # noqa: F401  the cases have them from here

CASES = []  # (name, what it shows, input text, by hand: expected text or None)
TAB = "\t"


def octets(text):
    return bytes.fromhex(text.replace(" ", ""))


# ---- input lines
def N(control="0A000001", user="0A000002", pool="64400000", recovery=7, t=3, n=2, e=60):
    return TAB.join(["N", control, user, pool, str(recovery), str(t), str(n), str(e)])


def A(name=b"\x04data", g=1, c=PLACES):
    return TAB.join(["A", name.hex().upper(), str(g), str(c)])


def C(datagram):
    return "C" + TAB + datagram.hex().upper()


def U(datagram):
    return "U" + TAB + datagram.hex().upper()


def D(packet):
    return "D" + TAB + packet.hex().upper()


def X(place):
    return "X" + TAB + str(place)


def T(times=1):
    return "\n".join(["T"] * times)


PLAN = (N(), A())  # the plan of document 01's whole case
TWO = (N(), A(b"\x04data", 1, PLACES), A(b"\x03net", 0, PLACES))


# ---- fields; NONE in place of a field leaves it out
NONE = b""


def field(kind, value, instance=0, length=None):
    """length: what the length octets say, where it is not the value's."""
    return bytes([kind]) + (len(value) if length is None else length).to_bytes(2, "big") + bytes([instance]) + value


def imsi(digits="440101234567890", last="F"):
    """Low half first: octet 1 has digit 2 in its high half and digit 1 in its low half."""
    halves = digits + last
    return field(1, bytes.fromhex("".join(halves[k + 1] + halves[k] for k in range(0, 16, 2))))


def rat(value=6):
    return field(82, bytes([value]))


def fteid(first, teid, address, instance):
    """first: the whole first octet, 80 (V4) and the interface."""
    return field(87, bytes([first]) + teid.to_bytes(4, "big") + octets(address), instance)


def sender(teid=0x1111, address="0A010008", first=0x86):
    return fteid(first, teid, address, 0)


def user(teid=0x2222, address="0A010009", first=0x84, instance=2):
    return fteid(first, teid, address, instance)


def apn(name=b"\x04data"):
    return field(71, name)


def paa(kind=1, address="00000000"):
    return field(79, bytes([kind]) + octets(address))


def ebi(value=5):
    return field(73, bytes([value]))


def qos():
    return field(80, octets("61 09") + bytes(20))


def bearer(*inner):
    return field(93, b"".join(inner))


def recovery(value):
    return field(3, bytes([value]))


def cause(value=16, size=2):
    return field(2, bytes([value, 0])[:size])


# ---- control datagrams
def message(first, kind, rest):
    """first: octet 1; rest: all behind the length octets."""
    return bytes([first, kind]) + len(rest).to_bytes(2, "big") + rest


def with_teid(kind, teid, seq, *fields):
    return message(0x48, kind, teid.to_bytes(4, "big") + seq.to_bytes(3, "big") + b"\0" + b"".join(fields))


def without_teid(kind, seq, *fields):
    return message(0x40, kind, seq.to_bytes(3, "big") + b"\0" + b"".join(fields))


def create(seq=1, teid=0, more=NONE, **other):
    """A sound Create; `other` replaces fields by name (NONE leaves one out), `more` stands behind them."""
    part = dict(imsi=imsi(), rat=rat(), sender=sender(), apn=apn(), paa=paa(), ebi=ebi(), user=user(), qos=qos())
    part.update(other)
    context = other["bearer"] if "bearer" in other else bearer(part["ebi"], part["user"], part["qos"])
    return with_teid(32, teid, seq, part["imsi"], part["rat"], part["sender"], part["apn"], part["paa"], context, more)


def person(k):
    """An IMSI of its own for each k."""
    return imsi("44010%010d" % k)


def crowd(first, count, name=b"\x04data"):
    """Creates of `count` different people, the first of them number `first`; their sequence numbers are those numbers too."""
    return "\n".join(C(create(k, imsi=person(k), apn=apn(name))) for k in range(first, first + count))


def modify(teid=0x100, seq=0x20, *fields):
    return with_teid(34, teid, seq, *fields)


def delete(teid=0x100, seq=0x30, *fields):
    return with_teid(36, teid, seq, *fields)


def echo(seq=0x40, *fields):
    return without_teid(1, seq, *fields)


def echo_reply(seq, *fields):
    return without_teid(2, seq, *fields)


def bearer_deleted(teid, seq, *fields):
    return with_teid(100, teid, seq, *fields)


# ---- user datagrams
def gpdu(teid=0x180, rest=b"", first=0x30, kind=255, length=None):
    """rest: all behind the first 8 octets, optional part and extension headers included."""
    return bytes([first, kind]) + (len(rest) if length is None else length).to_bytes(2, "big") + teid.to_bytes(4, "big") + rest


# ---- packets of the carrier's side
def packet(to="64400001", rest=b"", first=0x45, total=None, source="C6336401"):
    """An IPv4 packet; rest: all behind the first 20 octets, options included; total: what its total length says, where it is not its size."""
    size = 20 + len(rest) if total is None else total
    return bytes([first, 0]) + size.to_bytes(2, "big") + octets("1234 4000 40 11 0000" + source + to) + rest


# ---- expected lines, spelled out by hand
def line(*parts):
    return TAB.join(str(part).replace(" ", "") for part in parts)


def accepted(to="00001111", seq="000001", control="00000100", address="64400001", ebi="05", user="00000180"):
    """The accepted reply: "78 octets, to the peer's control TEID: Cause 16; F-TEID instance 1 (interface 7); PAA; APN Restriction 0;
    Bearer Context with EBI, Cause 16, F-TEID instance 2 (interface 5); Recovery", under the addresses and Recovery of PLAN."""
    return line(0, "48 21 004A" + to + seq + "00"
                + "02 0002 00 10 00" + "57 0009 01 87" + control + "0A000001" + "4F 0005 00 01" + address + "7F 0001 00 00"
                + "5D 0018 00" + "49 0001 00" + ebi + "02 0002 00 10 00" + "57 0009 02 85" + user + "0A000002"
                + "03 0001 00 07")


SESSION = line(0, 1, "L", 0, "440101234567890", 5, 4369, "0A010008", 8738, "0A010009", 1)  # what create() leaves at place 0


def freed(place=0, use=1):
    """"free ones have - in each field from the fourth"."""
    return line(place, use, "F", *["-"] * 8)


def seated(place, person, use=1):
    """The accepted reply to one of crowd(), who gets this place: "Control TEID = use x 256 + place; user TEID = use x 256 + 128 + place"; "address
    is pool base + 1 + place"."""
    return accepted(seq="%06X" % person, control="%06X%02X" % (use, place), address="644000%02X" % (1 + place), user="%06X%02X" % (use, 128 + place))


def record(place, person, point=0, use=1, state="L"):
    return line(place, use, state, point, "44010%010d" % person, 5, 4369, "0A010008", 8738, "0A010009", person)


def case(name, shows, *lines, plan=PLAN, out=None, end="\n"):
    """out: the expected lines by hand; without it the model's are taken. end: what stands behind the last line."""
    text = "\n".join(plan + lines)
    CASES.append((name, shows, text + end if plan + lines else "", None if out is None else "".join(part + "\n" for part in out)))
