"""Cases of the downlink: packets of the carrier's side, to sessions and to nobody.

By hand, from request 1 of document 02: "A packet from the carrier's side, IPv4, is matched by destination address to a live session and written
into a lent buffer as a G-PDU: octet 1 30, type 255, the peer's user TEID, no optional part. The peer's address comes back with it."
"Refusals: 2, then 18 for a packet under 20 octets, of a version other than 4, with a header length under 20 octets or over the total, or
with a total length other than what was given; 19 for no session; 20 for an output buffer under the packet plus 8; all silent."
Document 01: "Its address is pool base + 1 + place"; a closing place "stays live until freed".
"""
from build import *

SMALL = "45 00 0014 1234 4000 40 11 0000 C6336401 64400001"  # packet(): the shortest there is, to place 0 of PLAN
UNFIT, NOBODY = line(18, "-"), line(19, "-")
LIVE = line("L", 1), SESSION
MOVED = user(0x3333, "0A01000B", instance=1)


def raw(text):
    return D(octets(text))


def written(packet, size, teid="00002222", to="0A010009"):
    """The G-PDU octet by octet; size: of the packet, as the length octets have it."""
    return line(0, "30 FF" + size + teid + packet, to)


def modified(seq="000020", bearer=""):
    return line(0, "48 23" + ("001D" if bearer else "000E") + "00001111" + seq + "00 02 0002 00 10 00" + bearer)


BEARER = "5D 000B 00 49 0001 00 05 02 0002 00 10 00"

# ---- whose packet it is
case("down-live", "a packet to a live place: the G-PDU to the peer's user TEID, and the peer's user address; 20 octets exactly, and 28",
     C(create()), raw(SMALL), raw("45 00 001C 0001 0000 40 11 FFFF 08080808 64400001 0035 1388 0008 0000"),
     out=[accepted(), written(SMALL, "0014"), written("45 00 001C 0001 0000 40 11 FFFF 08080808 64400001 0035 1388 0008 0000", "001C"), *LIVE])

case("down-closing", "a closing place is live: its packets are written down until it is freed, here by the answer to its Delete Bearer",
     C(create()), X(0), raw(SMALL), T(), raw(SMALL), C(bearer_deleted(0x100, 0, cause())), raw(SMALL),
     out=[accepted(), line(0, "-"), line("D", "48 63 000D 00001111 000000 00 49 0001 00 05"), written(SMALL, "0014"), line(0, "-"),
          written(SMALL, "0014"), line(0, "-"), NOBODY, line("L", 0), freed()])

case("down-given-up", "a closing place that is given up is free: 19", C(create()), X(0), T(3), raw(SMALL), T(3), raw(SMALL),
     out=[accepted(), line(0, "-"), line("D", "48 63 000D 00001111 000000 00 49 0001 00 05"), line(0, "-"), line(0, "-"), line(0, "-"),
          line("D", "48 63 000D 00001111 000000 00 49 0001 00 05"), written(SMALL, "0014"), line(0, "-"), line(0, "-"), line(0, "-"), NOBODY,
          line("L", 0), freed()])

case("down-after-modify", "after a Modify of the bearer the new TEID and address; one of the Sender alone leaves both",
     C(create()), C(modify(0x100, 0x20, bearer(ebi(), MOVED))), raw(SMALL), C(modify(0x100, 0x21, sender(0x4444, "0A01000C"))), raw(SMALL),
     out=[accepted(), modified("000020", BEARER), written(SMALL, "0014", "00003333", "0A01000B"),
          line(0, "48 23 000E 00004444 000021 00 02 0002 00 10 00"), written(SMALL, "0014", "00003333", "0A01000B"),
          line("L", 1), line(0, 1, "L", 0, "440101234567890", 5, 17476, "0A01000C", 13107, "0A01000B", 1)])

case("down-after-refused-modify", "a refused Modify moves nothing: the old TEID and address",
     C(create()), C(modify(0x100, 0x20, bearer(ebi(6), MOVED))), raw(SMALL),
     out=[accepted(), line(69, "48 23 0012 00001111 000020 00 02 0006 00 45 00 49 0000 00"), written(SMALL, "0014"), *LIVE])

case("down-after-delete", "after a Delete: 19", C(create()), C(delete()), raw(SMALL),
     out=[accepted(), line(0, "48 25 000E 00001111 000030 00 02 0002 00 10 00"), NOBODY, line("L", 0), freed()])

case("down-after-restart", "after a restart of the exchange: 19", C(create(more=recovery(4))), raw(SMALL), C(echo(0x40, recovery(5))), raw(SMALL),
     out=[accepted(), written(SMALL, "0014"), line(0, "40 02 0009 000040 00 03 0001 00 07"), NOBODY, line("L", 0), freed()])

case("down-next-use", "the place taken anew: the peer of the session that it has now",
     C(create(1)), C(create(2, user=user(0x5555, "0A01000D"))), raw(SMALL),
     out=[accepted(), accepted(seq="000002", control="00000200", user="00000280"), written(SMALL, "0014", "00005555", "0A01000D"),
          line("L", 1), line(0, 2, "L", 0, "440101234567890", 5, 4369, "0A010008", 21845, "0A01000D", 2)])

case("down-two-sessions", "each session by its own address, whatever its access point; a packet of one of them to the other too",
     C(create(1)), C(create(2, imsi=person(2), apn=apn(b"\x03net"), user=user(0x5555, "0A01000D"))), D(packet("64400002")), D(packet("64400001")),
     D(packet("64400002", source="64400001")), plan=TWO,
     out=[accepted(), seated(1, 2), written("45 00 0014 1234 4000 40 11 0000 C6336401 64400002", "0014", "00005555", "0A01000D"),
          written(SMALL, "0014"), written("45 00 0014 1234 4000 40 11 0000 64400001 64400002", "0014", "00005555", "0A01000D"),
          line("L", 2), SESSION, line(1, 1, "L", 1, "440100000000002", 5, 4369, "0A010008", 21845, "0A01000D", 2)])

case("down-no-session", "19: nobody is there yet; a free place; the pool base itself; one under it; other addresses; the source is not looked at",
     D(packet()), C(create()), *[D(packet(to)) for to in ("64400002", "64400000", "643FFFFF", "64400101", "64410001", "65400001", "00000001",
                                                         "FFFFFFFF", "00000000", "0A000002", "0A010009")],
     D(packet("64400002", source="64400001")),
     out=[NOBODY, accepted()] + [NOBODY] * 12 + [*LIVE])

case("down-last-place", "the last place's address, pool base + 64, and the one past it",
     crowd(1, PLACES), D(packet("64400040")), D(packet("64400041")), D(packet("64400001")),
     out=[seated(k, k + 1) for k in range(PLACES)]
     + [written("45 00 0014 1234 4000 40 11 0000 C6336401 64400040", "0014"), NOBODY, written(SMALL, "0014"), line("L", PLACES)]
     + [record(k, k + 1) for k in range(PLACES)])

case("down-pool-at-the-top", "pool base FFFFFF00: FFFFFF01 is place 0, FFFFFF00 and 00000001 are nobody's",
     C(create()), *[D(packet(to)) for to in ("FFFFFF01", "FFFFFF00", "00000001")], plan=(N(pool="FFFFFF00"), A()),
     out=[accepted(address="FFFFFF01"), written("45 00 0014 1234 4000 40 11 0000 C6336401 FFFFFF01", "0014"), NOBODY, NOBODY, *LIVE])

case("down-address-zero", "a peer's user address of 0 comes back as it is", C(create(user=user(0xFFFFFFFF, "00000000"))), raw(SMALL),
     out=[accepted(), written(SMALL, "0014", "FFFFFFFF", "00000000"),
          line("L", 1), line(0, 1, "L", 0, "440101234567890", 5, 4369, "0A010008", 4294967295, "00000000", 1)])

case("down-read-back", "a G-PDU that was written, read by the unit: the peer's number, here equal to our own, and the packet; under another 15",
     C(create(user=user(0x180))), raw(SMALL), U(octets("30 FF 0014 00000180" + SMALL)), U(octets("30 FF 0014 00002222" + SMALL)),
     out=[accepted(), written(SMALL, "0014", "00000180"), line(0, "-", SMALL), line(15, "32 1A 0010 00000000 00000000 10 00002222 85 0004 0A000002"),
          line("L", 1), line(0, 1, "L", 0, "440101234567890", 5, 4369, "0A010008", 384, "0A010009", 1)])

# ---- 18, each cause by itself
case("down-under-20", "0 to 19 octets: 18, also where the total length says so",
     C(create()), *[D(packet(total=size)[:size]) for size in range(20)], *[D(packet()[:size]) for size in (1, 4, 19)],
     out=[accepted()] + [UNFIT] * 23 + [*LIVE])

case("down-version", "each version other than 4: 18", C(create()), *[D(packet(first=version << 4 | 5)) for version in range(16) if version != 4],
     out=[accepted()] + [UNFIT] * 15 + [*LIVE])

case("down-header-length-under-20", "a header length of 0 to 16 octets: 18", C(create()), *[D(packet(first=0x40 | k)) for k in range(5)],
     *[D(packet(first=0x40 | k, rest=bytes(40))) for k in range(5)],
     out=[accepted()] + [UNFIT] * 10 + [*LIVE])

case("down-header-length-over-the-total", "a header length of 24 to 60 octets over the total: 18", C(create()),
     *[D(packet(first=0x40 | k)) for k in range(6, 16)], *[D(packet(first=0x40 | k, rest=bytes(4 * k - 21))) for k in range(6, 16)],
     out=[accepted()] + [UNFIT] * 20 + [*LIVE])

case("down-options", "a header with options, up to the total: written down whole",
     C(create()), raw("46 00 0018 1234 4000 40 11 0000 C6336401 64400001 01 01 01 00"),
     raw("46 00 001A 1234 4000 40 11 0000 C6336401 64400001 01 01 01 00 AB CD"), D(packet(first=0x4F, rest=b"\1" * 40)),
     out=[accepted(), written("46 00 0018 1234 4000 40 11 0000 C6336401 64400001 01 01 01 00", "0018"),
          written("46 00 001A 1234 4000 40 11 0000 C6336401 64400001 01 01 01 00 AB CD", "001A"),
          written("4F 00 003C 1234 4000 40 11 0000 C6336401 64400001" + "01" * 40, "003C"), *LIVE])

case("down-total-length", "a total length other than what was given: 18; one more, one less, 0, FFFF, turned round, without the header",
     C(create()), *[D(packet(rest=b"\0" * 8, total=total)) for total in (29, 27, 0, 0xFFFF, 0x1C00, 8, 36, 20)], D(packet(total=21)),
     out=[accepted()] + [UNFIT] * 9 + [*LIVE])

case("down-18-before-19", "what is no whole packet is 18 also where nobody has its destination address",
     D(b""), D(packet(first=0x65)), D(packet(first=0x44)), D(packet(first=0x46)), D(packet(total=21)), D(packet()),
     out=[UNFIT] * 5 + [NOBODY, line("L", 0)])

case("down-rest-not-read", "nothing else of the header is read: service, identification, fragments, time to live, protocol, checksum, source",
     C(create()), raw("45 FF 0014 FFFF 2000 00 00 FFFF 00000000 64400001"), raw("45 00 0014 0000 1FFF FF FF 0000 FFFFFFFF 64400001"),
     out=[accepted(), written("45 FF 0014 FFFF 2000 00 00 FFFF 00000000 64400001", "0014"),
          written("45 00 0014 0000 1FFF FF FF 0000 FFFFFFFF 64400001", "0014"), *LIVE])

# ---- sizes, and what it leaves
case("down-of-2048", "the longest packet a line may have, 2,048 octets: a G-PDU of 2,056", C(create()), D(packet(rest=b"\xA5" * (DATAGRAM - 20))),
     out=[accepted(), written("45 00 0800 1234 4000 40 11 0000 C6336401 64400001" + "A5" * (DATAGRAM - 20), "0800"), *LIVE])

case("down-sizes", "20 to 80 octets, 255 to 257, 1,500: the length is the packet's", C(create()),
     *[D(packet(rest=bytes(range(size - 20)) if size < 200 else b"\x5A" * (size - 20))) for size in [*range(20, 81), 255, 256, 257, 1500]])

case("down-changes-nothing", "packets change nothing: sessions, uses, timers and numbers go on as before",
     C(create()), X(0), D(packet()), T(), D(packet()), D(packet("64400002")), T(), D(b"\x45"), T(), D(packet()), C(create(2, imsi=person(2))),
     D(packet("64400002")), T(3), D(packet()), D(packet("64400002")),
     out=[accepted(), line(0, "-"), line("D", "48 63 000D 00001111 000000 00 49 0001 00 05"), written(SMALL, "0014"), line(0, "-"),
          written(SMALL, "0014"), NOBODY, line(0, "-"), UNFIT, line(0, "-"), line("D", "48 63 000D 00001111 000000 00 49 0001 00 05"),
          written(SMALL, "0014"), seated(1, 2), written("45 00 0014 1234 4000 40 11 0000 C6336401 64400002", "0014"),
          line(0, "-"), line(0, "-"), line(0, "-"), NOBODY, written("45 00 0014 1234 4000 40 11 0000 C6336401 64400002", "0014"),
          line("L", 1), freed(), record(1, 2)])

case("down-sends-nothing", "behind a packet nothing due is printed; the echo and its number go on with the ticks",
     C(create()), T(), D(packet()), D(packet("64400009")), T(), D(packet()), plan=(N(e=2), A()),
     out=[accepted(), line(0, "-"), written(SMALL, "0014"), NOBODY, line(0, "-"), line("D", "40 01 0009 000000 00 03 0001 00 07"),
          written(SMALL, "0014"), *LIVE])
