"""Cases of Modify and Delete.

By hand: Modify's reply (35) goes "to the new peer TEID: Cause 16, and if a Bearer Context came, one with EBI and Cause 16"; a cause
reply goes to "the session's peer", else to 0. Cause 64 is 40 hex.
"""
from build import *

MOVED = (sender(0x3333, "0A010012"), bearer(ebi(), user(0x4444, "0A010013", instance=1)))

case("modify-moves-both", "Sender F-TEID and Bearer Context: both peers change, nothing else",
     C(create()), C(modify(0x100, 0x20, *MOVED)),
     out=[accepted(), line(0, "48 23 001D 00003333 000020 00 02 0002 00 10 00 5D 000B 00 49 0001 00 05 02 0002 00 10 00"), line("L", 1),
          line(0, 1, "L", 0, "440101234567890", 5, 13107, "0A010012", 17476, "0A010013", 1)])

case("modify-bare", "no field at all: Cause 16 to the peer, nothing changes",
     C(create()), C(modify(0x100, 0x21)),
     out=[accepted(), line(0, "48 23 000E 00001111 000021 00 02 0002 00 10 00"), line("L", 1), SESSION])

case("modify-one-of-two", "only the Sender F-TEID; only the Bearer Context; a Bearer Context with EBI alone",
     C(create()), C(modify(0x100, 1, MOVED[0])), C(modify(0x100, 2, MOVED[1])), C(modify(0x100, 3, bearer(ebi()))),
     out=[accepted(), line(0, "48 23 000E 00003333 000001 00 02 0002 00 10 00"),
          line(0, "48 23 001D 00003333 000002 00 02 0002 00 10 00 5D 000B 00 49 0001 00 05 02 0002 00 10 00"),
          line(0, "48 23 001D 00003333 000003 00 02 0002 00 10 00 5D 000B 00 49 0001 00 05 02 0002 00 10 00"), line("L", 1),
          line(0, 1, "L", 0, "440101234567890", 5, 13107, "0A010012", 17476, "0A010013", 1)])

case("modify-not-live", "a header TEID that is not live: 64 to TEID 0, before an overrun and every fault",
     C(modify(0x100, 1)), C(create()), C(modify(0, 2)), C(modify(0x101, 3)), C(modify(0x200, 4)), C(modify(0x000, 5)), C(modify(0x140, 6)),
     C(modify(0x180, 7)),  # the session's user number: "never used for each other"
     C(modify(0x10100, 8)), C(modify(0x200, 9, b"\0")), C(modify(0x200, 10, sender(0))),
     out=[line(64, "48 23 000E 00000000 000001 00 02 0002 00 40 00"), accepted()]
     + [line(64, "48 23 000E 00000000 %06X 00 02 0002 00 40 00" % seq) for seq in range(2, 11)] + [line("L", 1), SESSION])

case("modify-sender-faults", "Sender F-TEID short, TEID 0, V4 unset, another interface: to the old peer, nothing changes",
     C(create()), C(modify(0x100, 1, field(87, bytes(8)))), C(modify(0x100, 2, sender(0))), C(modify(0x100, 3, sender(3, first=0x46))),
     C(modify(0x100, 4, sender(3, first=0x84))),
     out=[accepted(), line(67, "48 23 0012 00001111 000001 00 02 0006 00 43 00 57 0000 00")]
     + [line(69, "48 23 0012 00001111 %06X 00 02 0006 00 45 00 57 0000 00" % seq) for seq in (2, 3, 4)] + [line("L", 1), SESSION])

case("modify-ebi-faults", "EBI of the Bearer Context missing, short, another than the session's, outside 5 to 15; the high half is ignored",
     C(create()), C(modify(0x100, 1, bearer())), C(modify(0x100, 2, bearer(field(73, b"")))), C(modify(0x100, 3, bearer(ebi(6)))),
     C(modify(0x100, 4, bearer(ebi(0)))), C(modify(0x100, 5, bearer(ebi(0xF5)))),
     out=[accepted(), line(70, "48 23 0012 00001111 000001 00 02 0006 00 46 00 49 0000 00"),
          line(67, "48 23 0012 00001111 000002 00 02 0006 00 43 00 49 0000 00"),
          line(69, "48 23 0012 00001111 000003 00 02 0006 00 45 00 49 0000 00"),
          line(69, "48 23 0012 00001111 000004 00 02 0006 00 45 00 49 0000 00"),
          line(0, "48 23 001D 00001111 000005 00 02 0002 00 10 00 5D 000B 00 49 0001 00 05 02 0002 00 10 00"), line("L", 1), SESSION])

case("modify-user-faults", "F-TEID instance 1 short, TEID 0, V4 unset, another interface: named with its instance",
     C(create()), C(modify(0x100, 1, bearer(ebi(), field(87, bytes(8), 1)))), C(modify(0x100, 2, bearer(ebi(), user(0, instance=1)))),
     C(modify(0x100, 3, bearer(ebi(), user(first=4, instance=1)))), C(modify(0x100, 4, bearer(ebi(), user(first=0x85, instance=1)))),
     out=[accepted(), line(67, "48 23 0012 00001111 000001 00 02 0006 00 43 00 57 0000 01")]
     + [line(69, "48 23 0012 00001111 %06X 00 02 0006 00 45 00 57 0000 01" % seq) for seq in (2, 3, 4)] + [line("L", 1), SESSION])

case("modify-all-or-nothing", "a good Sender F-TEID beside a bad Bearer Context changes nothing, and the reply goes to the old peer",
     C(create()), C(modify(0x100, 1, MOVED[0], bearer(ebi(), user(0, instance=1)))),
     C(modify(0x100, 2, MOVED[0], bearer(ebi(9)))), C(modify(0x100, 3)),
     out=[accepted(), line(69, "48 23 0012 00001111 000001 00 02 0006 00 45 00 57 0000 01"),
          line(69, "48 23 0012 00001111 000002 00 02 0006 00 45 00 49 0000 00"),
          line(0, "48 23 000E 00001111 000003 00 02 0002 00 10 00"), line("L", 1), SESSION])

case("modify-order", "Sender F-TEID before the Bearer Context, though it stands behind it; EBI before the F-TEID of instance 1",
     C(create()), C(modify(0x100, 1, bearer(), sender(0))), C(modify(0x100, 2, bearer(user(0, instance=1)))),
     C(modify(0x100, 3, bearer(user(0, instance=1), ebi(7)))), C(modify(0x100, 4, bearer(user(0, instance=1), ebi()))))

case("modify-other-instances", "unknown there: Sender F-TEID of instance 1, Bearer Context of instance 1, F-TEID of instance 2 or 0 within",
     C(create()), C(modify(0x100, 1, user(instance=1))), C(modify(0x100, 2, field(93, b"", 1))),
     C(modify(0x100, 3, bearer(ebi(), user(7), user(8, instance=0)))),
     C(modify(0x100, 4, sender(0x3333) + sender(0))), C(modify(0x100, 5, bearer(ebi()) + bearer())))

case("modify-overrun", "overrun in the message or its first Bearer Context: 67 to the session's peer, no field named, nothing changes",
     C(create()), C(modify(0x100, 1, sender(0x3333), b"\0")), C(modify(0x100, 2, bearer(ebi(), b"\0\0\0"))),
     C(modify(0x100, 3, sender(0), field(5, b"", length=1))), C(modify(0x100, 4, bearer(ebi()), bearer(b"\0"))),
     out=[accepted()] + [line(67, "48 23 000E 00001111 %06X 00 02 0002 00 43 00" % seq) for seq in (1, 2, 3)]
     + [line(0, "48 23 001D 00001111 000004 00 02 0002 00 10 00 5D 000B 00 49 0001 00 05 02 0002 00 10 00"), line("L", 1), SESSION])

case("modify-former-use", "the number of a former use is not live: 64; that of the present use is",
     C(create(1)), C(create(2)), C(modify(0x100, 3)), C(modify(0x200, 4)),
     out=[accepted(), accepted(seq="000002", control="00000200", user="00000280"),
          line(64, "48 23 000E 00000000 000003 00 02 0002 00 40 00"), line(0, "48 23 000E 00001111 000004 00 02 0002 00 10 00"), line("L", 1),
          line(0, 2, "L", 0, "440101234567890", 5, 4369, "0A010008", 8738, "0A010009", 2)])

case("modify-closing", "a closing place is live: Modify is taken, and the resend goes to the new peer",
     C(create()), X(0), C(modify(0x100, 1, *MOVED)), T(3),
     out=[accepted(), line(0, "-"), line("D", "48 63 000D 00001111 000000 00 49 0001 00 05"),
          line(0, "48 23 001D 00003333 000001 00 02 0002 00 10 00 5D 000B 00 49 0001 00 05 02 0002 00 10 00"),
          line(0, "-"), line(0, "-"), line(0, "-"), line("D", "48 63 000D 00003333 000000 00 49 0001 00 05"), line("L", 1),
          line(0, 1, "X", 0, "440101234567890", 5, 13107, "0A010012", 17476, "0A010013", 1)])

case("delete", "with the session's EBI: the place is free, its use stays; the reply goes to its peer",
     C(create()), C(delete(0x100, 0x30, ebi())),
     out=[accepted(), line(0, "48 25 000E 00001111 000030 00 02 0002 00 10 00"), line("L", 0), freed()])

case("delete-without-ebi", "EBI need not be there; of another instance it is unknown; its high half is ignored",
     C(create()), C(delete(0x100, 1)), C(create(2)), C(delete(0x200, 3, field(73, b"\6", 1))), C(create(4)), C(delete(0x300, 5, ebi(0xA5))))

case("delete-not-live", "a second Delete, a number never given out, a user number: 64 to TEID 0",
     C(create()), C(delete(0x100, 1)), C(delete(0x100, 2)), C(delete(0x13F, 3)), C(delete(0x180, 4)), C(delete(0x100, 5, b"\0")),
     out=[accepted(), line(0, "48 25 000E 00001111 000001 00 02 0002 00 10 00")]
     + [line(64, "48 25 000E 00000000 %06X 00 02 0002 00 40 00" % seq) for seq in (2, 3, 4, 5)] + [line("L", 0), freed()])

case("delete-ebi-short", "an empty EBI: 67, which names it, to the session's peer; the first counts",
     C(create()), C(delete(0x100, 1, field(73, b""), ebi())),
     out=[accepted(), line(67, "48 25 0012 00001111 000001 00 02 0006 00 43 00 49 0000 00"), line("L", 1), SESSION])

case("delete-other-ebi", "another EBI: 64 to the session's peer, no field named; the session stays",
     C(create()), C(delete(0x100, 1, ebi(6))), C(delete(0x100, 2, ebi(0))),
     out=[accepted()] + [line(64, "48 25 000E 00001111 %06X 00 02 0002 00 40 00" % seq) for seq in (1, 2)] + [line("L", 1), SESSION])

case("delete-overrun", "overrun in the message, or in its first Bearer Context though Delete knows none: 67 to the peer, before EBI",
     C(create()), C(delete(0x100, 1, ebi(), b"\0\0")), C(delete(0x100, 2, bearer(b"\0"))), C(delete(0x100, 3, ebi(6), field(9, b"\0", length=2))),
     C(delete(0x100, 4, field(93, b"\0", 1), bearer(), bearer(b"\0"))),
     out=[accepted()] + [line(67, "48 25 000E 00001111 %06X 00 02 0002 00 43 00" % seq) for seq in (1, 2, 3)]
     + [line(0, "48 25 000E 00001111 000004 00 02 0002 00 10 00"), line("L", 0), freed()])

case("delete-closing", "a closing place is live: Delete frees it, and nothing is resent or awaited any more",
     C(create()), X(0), C(delete(0x100, 1)), T(10), C(bearer_deleted(0x100, 0, cause())),
     out=[accepted(), line(0, "-"), line("D", "48 63 000D 00001111 000000 00 49 0001 00 05"),
          line(0, "48 25 000E 00001111 000001 00 02 0002 00 10 00")] + [line(0, "-")] * 10 + [line(9, "-"), line("L", 0), freed()])

case("delete-to-new-peer", "after a Modify the reply of a Delete goes to the new peer",
     C(create()), C(modify(0x100, 1, MOVED[0])), C(delete(0x100, 2)),
     out=[accepted(), line(0, "48 23 000E 00003333 000001 00 02 0002 00 10 00"), line(0, "48 25 000E 00003333 000002 00 02 0002 00 10 00"),
          line("L", 0), freed()])

# ---- Tunnel numbers
case("uses-step", "each taking of a place steps its use: control TEID use x 256 + place, user TEID 128 more; former numbers are dead",
     *[part for k in range(1, 6) for part in (C(create(k)), C(delete(k * 256, k)), C(delete(k * 256, k + 16)), U(gpdu(k * 256 + 128, b"E")))])

case("lowest-free-place", "a new session takes the lowest free place, and its address is that of the place",
     crowd(1, 5), C(delete(0x103)), C(delete(0x101)), crowd(11, 3), C(modify(0x101)), C(modify(0x201)), C(modify(0x203)), C(modify(0x105)))

case("place-5-use-1", "the pair of document 01: place 5, use 1 has TEIDs 261 and 389",
     crowd(1, 6), C(modify(261, 1)), U(gpdu(389, b"\x45")), C(modify(389, 2)), U(gpdu(261, b"\x45")))

case("places-0-to-63", "all 64 places: numbers and addresses of each",
     crowd(1, PLACES), U(gpdu(0x1BF, b"!")), U(gpdu(0x1C0, b"!")), C(modify(0x13F)), C(modify(0x140)),
     out=[seated(k, k + 1) for k in range(PLACES)]
     + [line(0, "-", "21"), line(15, "32 1A 0010 00000000 00000000 10 000001C0 85 0004 0A000002"),
        line(0, "48 23 000E 00001111 000020 00 02 0002 00 10 00"), line(64, "48 23 000E 00000000 000020 00 02 0002 00 40 00"), line("L", PLACES)]
     + [record(k, k + 1) for k in range(PLACES)])
