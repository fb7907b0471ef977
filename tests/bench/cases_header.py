"""Cases of the control header: the numbers 3 to 8 in their order, what is ignored, and the types 1 and 3."""
from build import *

case("whole-case-of-document-01", "the whole case printed in document 01, octet for octet",
     "C\t40010009000001000300010005", "X\t0",
     out=[line(0, "40020009000001000300010007"), line(10, "-"), line("L", 0)])

case("control-under-8", "under 8 octets: 3, whatever they are; no octets at all too",
     C(b""), C(octets("40")), C(octets("20 01 00 03 00 00 00")), C(octets("48 20 00 03 00 00 00")),
     out=[line(3, "-")] * 4 + [line("L", 0)])

case("control-version", "a version that is not 2: 5 and always the same eight octets, before P, type, T and length",
     C(octets("20 00 00 00 00 00 00 00")),  # the pair of document 01: "control 20 and seven 00: 5"
     C(octets("00 01 00 04 00 00 01 00")), C(octets("60 01 00 04 00 00 01 00")), C(octets("80 01 00 04 00 00 01 00")),
     C(octets("A0 01 00 04 00 00 01 00")), C(octets("C0 01 00 04 00 00 01 00")), C(octets("E0 01 00 04 00 00 01 00")),
     C(octets("38 FF 00 00 12 34 56 78")),  # P and T set, type and length wrong
     C(octets("20 03 00 04 00 00 09 00")),  # type 3 too
     out=[line(5, "40 03 00 04 00 00 00 00")] * 9 + [line("L", 0)])

case("control-p-set", "P set: 4, before type, T and length",
     C(octets("50 01 00 04 00 00 01 00")), C(octets("58 01 00 04 00 00 01 00")), C(octets("50 FF 00 00 00 00 01 00")),
     C(octets("58 20 00 08 00 00 00 00 00 00 01 00")),
     out=[line(4, "-")] * 4 + [line("L", 0)])

case("control-type-not-taken", "every other type: 7, before T and length",
     *[C(without_teid(kind, 1)) for kind in (0, 4, 31, 99, 255)],
     *[C(with_teid(kind, 0x100, 1)) for kind in (33, 35, 37, 38, 64, 95, 97, 99, 101, 162, 164, 255)],
     C(octets("40 21 FF FF 00 00 01 00")),  # its length does not fit either
     out=[line(7, "-")] * 18 + [line("L", 0)])

case("control-every-type", "the 256 types, each with T = 0 and with T = 1: 0, 7 or 8 by the table of types",
     *[C(without_teid(kind, kind)) for kind in range(256)], *[C(with_teid(kind, 0, kind)) for kind in range(256)])

case("control-t-unfit", "1, 2, 3 with T = 1 and 32, 34, 36, 100 with T = 0: 8, before the length",
     *[C(with_teid(kind, 0x100, 1)) for kind in (1, 2, 3)], *[C(without_teid(kind, 1)) for kind in (32, 34, 36, 100)],
     C(octets("48 01 FF FF 00 00 01 00")), C(octets("40 20 FF FF 00 00 01 00")),
     out=[line(8, "-")] * 9 + [line("L", 0)])

case("control-length", "a length that is not the size less 4: 6, one more and one less, in each type",
     C(octets("40 01 00 05 00 00 01 00")), C(octets("40 01 00 03 00 00 01 00")), C(octets("40 02 00 00 00 00 01 00")),
     C(octets("40 03 FF FF 00 00 01 00")),
     *[C(octets("48 %02X 00 %02X 00 00 00 00 00 00 01 00" % (kind, size))) for kind in (32, 34, 36, 100) for size in (7, 9)],
     C(octets("48 20 00 09 00 00 00 05 00 00 01 00")),  # 6 comes before Create's TEID
     out=[line(6, "-")] * 13 + [line("L", 0)])

case("control-header-cut", "a type with T = 1 of 8 to 11 octets: 6, though the length fits",
     C(octets("48 20 00 04 00 00 00 00")), C(octets("48 22 00 05 00 00 01 00 00")), C(octets("48 24 00 06 00 00 01 00 00 00")),
     C(octets("48 64 00 07 00 00 01 00 00 00 01")),
     out=[line(6, "-")] * 4 + [line("L", 0)])

case("create-header-teid", "Create's header TEID is not 0: 8, before its fields; 0: its fields are read",
     C(create(teid=1)), C(create(teid=0x80000000)), C(with_teid(32, 0x100, 1)), C(create()),
     out=[line(8, "-")] * 3 + [accepted(), line("L", 1), SESSION])

case("control-ignored-bits", "three low bits of octet 1 and the spare octet are ignored; what we write has 0 there",
     C(octets("47 01 00 04 12 34 56 FF")), C(octets("4F 22 00 08 00 00 01 00 AB CD EF FF")),
     out=[line(0, "40 02 0009 123456 00 03 0001 00 07"),  # "Echo (1) is answered with type 2 and Recovery"
          line(64, "48 23 000E 00000000 ABCDEF 00 02 0002 00 40 00"),
          line("L", 0)])

case("version-not-supported-taken", "type 3 is taken and changes nothing; its fields are not walked",
     C(create()), C(octets("40 03 00 04 00 00 01 00")), C(octets("40 03 00 09 00 00 01 00 03 00 01 00 09")),
     C(octets("40 03 00 06 00 00 01 00 03 00")), C(octets("40 03 00 03 00 00 01 00")),
     out=[accepted()] + [line(0, "-")] * 3 + [line(6, "-"), line("L", 1), SESSION])

case("datagram-of-2048", "the longest datagram a line may have is taken: an unknown field fills it up",
     C(create(more=field(255, bytes(DATAGRAM - 108 - 4)))),
     out=[accepted(), line("L", 1), SESSION])
