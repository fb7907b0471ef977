"""Cases of the user side: G-PDUs with every optional part, extension headers, echoes, Error Indications.

By hand: "Error Indication, 24 octets: 32 1A 00 10, TEID 0, four 00, 10 and the TEID, 85 00 04 and the unit's user address"; "Echo
reply, 14 octets: 32 02 00 06, TEID 0, sequence (0 if S is unset), 00 00 0E 00".
"""
from build import *


def raw(text):
    return U(octets(text))


def dead(teid):
    return line(15, "32 1A 0010 00000000 00000000 10" + teid + "85 0004 0A000002")


def taken(payload):
    return line(0, "-", payload)


LIVE = line("L", 1), SESSION

case("gpdu-plain", "the pairs of document 01: payload octets 8 to 11; a length of 5: 6; the control number: 15",
     C(create()), raw("30 FF 00 04 00 00 01 80 45 00 00 00"), raw("30 FF 00 05 00 00 01 80 45 00 00 00"), raw("30 FF 00 04 00 00 01 00 45 00 00 00"),
     out=[accepted(), taken("45000000"), line(6, "-"), dead("00000100"), *LIVE])

case("gpdu-extension", "the pairs of document 01: payload at 16; type C0: 14; extension length 0: 13",
     C(create()), raw("34 FF 00 0C 00 00 01 80 00 00 00 40 01 12 34 00 45 00 00 01"), raw("34 FF 00 0C 00 00 01 80 00 00 00 C0 01 12 34 00 45 00 00 01"),
     raw("34 FF 00 0C 00 00 01 80 00 00 00 40 00 12 34 00 45 00 00 01"),
     out=[accepted(), taken("45000001"), line(14, "-"), line(13, "-"), *LIVE])

case("gpdu-empty-payload", "a payload of no octets is printed -, with and without optional part and extension header",
     C(create()), raw("30 FF 00 00 00 00 01 80"), raw("32 FF 00 04 00 00 01 80 00 01 00 00"), raw("34 FF 00 08 00 00 01 80 00 00 00 01 01 00 00 00"),
     out=[accepted(), taken("-"), taken("-"), taken("-"), *LIVE])

case("gpdu-s-set", "S set: 4 octets are skipped", C(create()), raw("32 FF 00 05 00 00 01 80 12 34 00 00 AB"),
     out=[accepted(), taken("AB"), *LIVE])

case("gpdu-pn-without-s", "PN set and S unset: the 4 optional octets are there all the same", C(create()), raw("31 FF 00 05 00 00 01 80 00 00 07 00 AB"),
     out=[accepted(), taken("AB"), *LIVE])

case("gpdu-next-type-without-e", "with E unset the next-type octet says nothing, 128 and more too",
     C(create()), raw("32 FF 00 05 00 00 01 80 12 34 00 C0 AB"), raw("31 FF 00 05 00 00 01 80 00 00 07 40 AB"), raw("33 FF 00 05 00 00 01 80 00 00 07 FF AB"),
     out=[accepted(), taken("AB"), taken("AB"), taken("AB"), *LIVE])

case("gpdu-e-without-extension", "E set and next type 0: no extension header follows", C(create()), raw("34 FF 00 05 00 00 01 80 00 00 00 00 AB"),
     raw("37 FF 00 05 00 00 01 80 12 34 56 00 AB"),
     out=[accepted(), taken("AB"), taken("AB"), *LIVE])

case("gpdu-ignored-bit", "octet 1 has one ignored bit", C(create()), raw("38 FF 00 01 00 00 01 80 AB"), raw("3F FF 00 05 00 00 01 80 12 34 56 00 AB"),
     out=[accepted(), taken("AB"), taken("AB"), *LIVE])

case("gpdu-all-flags", "each of the eight settings of E, S and PN, with next type 0 and with one extension header",
     C(create()), *[U(gpdu(0x180, octets("1234 56 00 A1A2A3A4"), 0x30 | flags)) for flags in range(8)],
     *[U(gpdu(0x180, octets("1234 56 40 01B1B200 A1A2A3A4"), 0x30 | flags)) for flags in range(8)])

case("gpdu-two-extensions", "extension headers follow one another: the next type stands in the last octet; length in units of 4 octets",
     C(create()), raw("36 FF 00 15 00 00 01 80 00 02 00 40 01 11 22 7F 03 00 01 02 03 04 05 06 07 08 09 00 EE"), out=[accepted(), taken("EE"), *LIVE])

case("gpdu-long-extension", "an extension header of 255 units, and a chain of 100", C(create()),
     U(gpdu(0x180, octets("0000 00 01 FF") + bytes(1018) + b"\0ab", 0x34)),
     U(gpdu(0x180, octets("0000 00 01") + octets("01 00 00 01") * 99 + octets("01 00 00 00") + b"cd", 0x34)))

case("gpdu-optional-part-cut", "1 to 3 octets, or none, where E, S or PN is set: 13",
     C(create()), *[U(gpdu(0x180, bytes(size), 0x30 | flags)) for flags in (1, 2, 4, 7) for size in range(4)],
     out=[accepted()] + [line(13, "-")] * 16 + [*LIVE])

case("gpdu-extension-cut", "length 0, a length past the end, a type with nothing behind it: 13; the same in the second of two",
     C(create()), raw("34 FF 00 08 00 00 01 80 00 00 00 40 00 00 00 00"), raw("34 FF 00 08 00 00 01 80 00 00 00 40 02 00 00 00"),
     raw("34 FF 00 07 00 00 01 80 00 00 00 40 01 00 00"), raw("34 FF 00 04 00 00 01 80 00 00 00 7F"),
     raw("34 FF 00 08 00 00 01 80 00 00 00 40 01 00 00 40"), raw("34 FF 00 0C 00 00 01 80 00 00 00 40 01 00 00 40 00 00 00 00"),
     out=[accepted()] + [line(13, "-")] * 6 + [*LIVE])

case("gpdu-must-be-understood", "a type of 128 or more: 14, even with nothing behind it or length 0; first met counts",
     C(create()), raw("34 FF 00 04 00 00 01 80 00 00 00 80"), raw("34 FF 00 08 00 00 01 80 00 00 00 FF 00 00 00 00"),
     raw("34 FF 00 08 00 00 01 80 00 00 00 01 01 00 00 85"), raw("34 FF 00 0C 00 00 01 80 00 00 00 01 01 00 00 C0 00 00 00 00"),
     raw("34 FF 00 0C 00 00 01 80 00 00 00 01 00 00 00 C0 00 00 00 00"),  # here the length 0 is met first
     out=[accepted()] + [line(14, "-")] * 4 + [line(13, "-"), *LIVE])

case("gpdu-not-live", "15: TEID 0, a control number, another use, a number never given out, after 13 and 14",
     C(create()), U(gpdu(0, b"x")), U(gpdu(0x100, b"x")), U(gpdu(0x280, b"x")), U(gpdu(0x080, b"x")), U(gpdu(0x181, b"x")), U(gpdu(0xFFFFFFBF)),
     raw("34 FF 00 04 00 00 01 81 00 00 00 80"), raw("31 FF 00 00 00 00 01 81"),
     out=[accepted(), dead("00000000"), dead("00000100"), dead("00000280"), dead("00000080"), dead("00000181"), dead("FFFFFFBF"),
          line(14, "-"), line(13, "-"), *LIVE])

case("gpdu-former-use", "after re-use the number of the former use is dead, that of the present one is live",
     C(create(1)), U(gpdu(0x180, b"\x45")), C(create(2)), U(gpdu(0x180, b"\x45")), U(gpdu(0x280, b"\x46")),
     out=[accepted(), taken("45"), accepted(seq="000002", control="00000200", user="00000280"), dead("00000180"), taken("46"), line("L", 1),
          line(0, 2, "L", 0, "440101234567890", 5, 4369, "0A010008", 8738, "0A010009", 2)])

case("gpdu-after-delete", "after a Delete the user number is dead", C(create()), C(delete(0x100, 1)), U(gpdu(0x180, b"\x45")),
     out=[accepted(), line(0, "48 25 000E 00001111 000001 00 02 0002 00 10 00"), dead("00000180"), line("L", 0), freed()])

case("user-under-8", "under 8 octets: 3, whatever they are", C(create()), U(b""), raw("30"), raw("30 FF 00 00 00 00 01"), raw("FF FF FF FF FF FF FF"),
     out=[accepted()] + [line(3, "-")] * 4 + [*LIVE])

case("user-version", "version not 1, or PT 0: 12, before length and type",
     C(create()), *[U(gpdu(0x180, b"x", first)) for first in (0x00, 0x10, 0x20, 0x28, 0x50, 0x70, 0x90, 0xF0, 0x40, 0x48)], raw("20 07 FF FF 00 00 01 80"),
     out=[accepted()] + [line(12, "-")] * 11 + [*LIVE])

case("user-length", "a length that is not the size less 8: 6, before the type",
     C(create()), raw("30 FF 00 01 00 00 01 80"), raw("30 FF 00 00 00 00 01 80 45"), raw("30 FF FF FF 00 00 01 80"), raw("30 02 00 01 00 00 01 80"),
     raw("32 01 00 00 00 00 00 00 00 01 00 00"),
     out=[accepted()] + [line(6, "-")] * 5 + [*LIVE])

case("user-type-not-taken", "every type but 1 and 255: 7, before the optional part and the TEID",
     C(create()), *[U(gpdu(0x180, b"", 0x30, kind)) for kind in (0, 2, 3, 26, 31, 32, 128, 254)],
     raw("34 1A 00 00 00 00 00 00"), raw("34 FE 00 04 00 00 00 00 00 00 00 80"),
     out=[accepted()] + [line(7, "-")] * 10 + [*LIVE])

case("user-echo", "an echo is answered with its sequence number; 0 if S is unset, also with PN or E",
     raw("32 01 00 04 00 00 00 00 12 34 00 00"), raw("30 01 00 00 00 00 00 00"), raw("31 01 00 04 00 00 00 00 12 34 56 00"),
     raw("34 01 00 04 00 00 00 00 12 34 56 00"), raw("33 01 00 04 00 00 00 00 FF FE 56 40"),
     out=[line(0, "32 02 0006 00000000 1234 00 00 0E 00")] + [line(0, "32 02 0006 00000000 0000 00 00 0E 00")] * 3
     + [line(0, "32 02 0006 00000000 FFFE 00 00 0E 00"), line("L", 0)])

case("user-echo-rest-not-read", "an echo's TEID and the octets behind its header are not read",
     raw("32 01 00 08 12 34 56 78 00 09 00 00 03 00 01 00"), raw("36 01 00 0A 00 00 01 80 00 0A 00 01 01 00 00 00 FF FF"),
     out=[line(0, "32 02 0006 00000000 0009 00 00 0E 00"), line(0, "32 02 0006 00000000 000A 00 00 0E 00"), line("L", 0)])

case("user-echo-cut", "13 and 14 are tested for an echo too", raw("32 01 00 03 00 00 00 00 12 34 00"), raw("34 01 00 04 00 00 00 00 12 34 00 01"),
     raw("36 01 00 04 00 00 00 00 12 34 00 80"),
     out=[line(13, "-"), line(13, "-"), line(14, "-"), line("L", 0)])

case("user-changes-nothing", "user datagrams change nothing: sessions, uses and timers go on as before",
     C(create()), X(0), U(gpdu(0x180, b"x")), T(), U(gpdu(0x180, b"")), U(gpdu(0x280, b"x")), T(), raw("30 01 00 00 00 00 00 00"), T(4), U(gpdu(0x180, b"x")))
