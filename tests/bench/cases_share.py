"""Cases of the sharing rule: "a new session is admitted when u < c and (u < g or S < 64). Otherwise cause 73" (49 hex)."""
from build import *

DATA, NET, WEB, TEL = b"\x04data", b"\x03net", b"\x03web", b"\x03tel"


def full(seq):
    return line(73, "48 21 000E 00001111 %06X 00 02 0002 00 49 00" % seq)


case("share-ceiling", "u = c: 73, which names no field, to the Sender F-TEID; nothing else changes",
     C(create(1)), C(create(2, imsi=person(2))), plan=(N(), A(g=0, c=1)),
     out=[accepted(), full(2), line("L", 1), SESSION])

case("share-ceiling-above-guarantee", "g 1, c 2: two are admitted, the third is not, though 62 places are free",
     crowd(1, 3), plan=(N(), A(g=1, c=2)),
     out=[accepted(), accepted(seq="000002", control="00000101", address="64400002", user="00000181"), full(3), line("L", 2),
          line(0, 1, "L", 0, "440100000000001", 5, 4369, "0A010008", 8738, "0A010009", 1),
          line(1, 1, "L", 0, "440100000000002", 5, 4369, "0A010008", 8738, "0A010009", 2)])

case("share-all-64", "one access point with c 64 gets all 64 places; the next is 73",
     crowd(1, PLACES + 1), plan=(N(), A(g=0, c=PLACES)),
     out=[seated(k, k + 1) for k in range(PLACES)] + [full(PLACES + 1), line("L", PLACES)] + [record(k, k + 1) for k in range(PLACES)])

case("share-pair-44-and-0", "the pair of document 01: g 10 and 20, c 64; at u 44 and 0 the first gets 73 and the second is admitted",
     crowd(1, 45), crowd(101, 1, NET), crowd(46, 1), plan=(N(), A(DATA, 10, PLACES), A(NET, 20, PLACES)),
     out=[seated(k, k + 1) for k in range(44)] + [full(45), seated(44, 101), full(46), line("L", 45)]
     + [record(k, k + 1) for k in range(44)] + [record(44, 101, 1)])

case("share-pair-43-and-0", "the pair of document 01: at u 43 and 0 the first is admitted too",
     crowd(1, 43), crowd(101, 1, NET), crowd(44, 2), plan=(N(), A(DATA, 10, PLACES), A(NET, 20, PLACES)),
     out=[seated(k, k + 1) for k in range(43)] + [seated(43, 101), seated(44, 44), full(45), line("L", 45)]
     + [record(k, k + 1) for k in range(43)] + [record(43, 101, 1), record(44, 44)])

case("share-guarantee-held", "one access point fills up all it may; the other three still get their whole guarantees, and no more",
     crowd(1, 60), crowd(101, 11, NET), crowd(201, 6, WEB), crowd(301, 4, TEL),
     plan=(N(), A(DATA, 0, PLACES), A(NET, 10, PLACES), A(WEB, 5, 5), A(TEL, 3, PLACES)),
     out=[seated(k, k + 1) for k in range(46)] + [full(k) for k in range(47, 61)]  # PLACES - 10 - 5 - 3
     + [seated(46 + k, 101 + k) for k in range(10)] + [full(111)] + [seated(56 + k, 201 + k) for k in range(5)] + [full(206)]
     + [seated(61 + k, 301 + k) for k in range(3)] + [full(304), line("L", PLACES)]
     + [record(k, k + 1) for k in range(46)] + [record(46 + k, 101 + k, 1) for k in range(10)]
     + [record(56 + k, 201 + k, 2) for k in range(5)] + [record(61 + k, 301 + k, 3) for k in range(3)])

case("share-guarantee-held-later", "guaranteed room is held not only at the start: used and freed again it is still the other's",
     crowd(101, 4, NET), crowd(1, 61), *[C(delete(0x100 + k, k)) for k in range(4)], crowd(70, 1), crowd(111, 5, NET), crowd(71, 1),
     plan=(N(), A(DATA, 0, PLACES), A(NET, 4, PLACES)),
     out=[seated(k, 101 + k) for k in range(4)] + [seated(4 + k, 1 + k) for k in range(60)] + [full(61)]
     + [line(0, "48 25 000E 00001111 %06X 00 02 0002 00 10 00" % k) for k in range(4)] + [full(70)]
     + [seated(k, 111 + k, 2) for k in range(4)] + [full(115), full(71), line("L", PLACES)]
     + [record(k, 111 + k, 1, 2) for k in range(4)] + [record(4 + k, 1 + k) for k in range(60)])

case("share-guarantees-of-64", "guarantees that add to 64: nobody gets past its own, whatever the ceiling",
     *[crowd(100 * k, 17, name) for k, name in enumerate([DATA, NET, WEB, TEL], 1)],
     plan=(N(), A(DATA, 16, PLACES), A(NET, 16, PLACES), A(WEB, 16, PLACES), A(TEL, 16, PLACES)))

case("share-no-guarantee", "g 0 everywhere: first come, first served, to 64", crowd(1, 40), crowd(101, 24, NET), crowd(50, 1), crowd(130, 1, NET),
     plan=(N(), A(DATA, 0, PLACES), A(NET, 0, PLACES)))

case("share-over-its-guarantee", "an access point above its guarantee takes shared room; the larger of u and g counts",
     crowd(1, 34), crowd(101, 29, NET), crowd(35, 1), crowd(201, 1, NET), plan=(N(), A(DATA, 30, 40), A(NET, 30, PLACES)))

case("share-freed-is-room-at-once", "after a Delete the next Create is admitted at once; also for another access point",
     crowd(1, PLACES), crowd(101, 1, NET), C(delete(0x115, 1)), crowd(101, 1, NET), crowd(70, 1), C(delete(0x216, 2)), C(delete(0x115, 3)),
     C(delete(0x215, 4)), crowd(70, 1), plan=(N(), A(DATA, 0, PLACES), A(NET, 0, PLACES)))

case("share-closing-counts", "u counts closing places: room comes with the answer, or with giving up",
     crowd(1, 2), X(0), crowd(3, 1), C(bearer_deleted(0x100, 0, cause())), crowd(3, 1), X(1), T(5), crowd(4, 1), T(1), crowd(4, 1),
     plan=(N(), A(g=0, c=2)))

case("share-restart-is-room", "the Recovery of a restart frees all, and the very Create that brings it is admitted",
     *[C(create(k, imsi=person(k), more=recovery(1))) for k in range(1, 4)], C(create(4, imsi=person(4), more=recovery(2))), plan=(N(), A(g=0, c=2)))

case("share-replaced-at-the-ceiling", "at the ceiling a session may be replaced: it is freed before the rule is asked",
     C(create(1)), C(create(2)), plan=(N(), A(g=0, c=1)),
     out=[accepted(), accepted(seq="000002", control="00000200", user="00000280"), line("L", 1),
          line(0, 2, "L", 0, "440101234567890", 5, 4369, "0A010008", 8738, "0A010009", 2)])

case("share-replaced-and-73", "a session is freed for a Create at another access point that is full: 73, and it stays freed",
     crowd(1, 1, NET), C(create(2)), C(create(3, apn=apn(NET))), plan=(N(), A(DATA, 0, PLACES), A(NET, 0, 1)),
     out=[accepted(), accepted(seq="000002", control="00000101", address="64400002", user="00000181"), full(3), line("L", 1),
          line(0, 1, "L", 1, "440100000000001", 5, 4369, "0A010008", 8738, "0A010009", 1), freed(1)])

case("share-repeat-when-full", "a repeat is answered though there is no room; the sharing rule is not asked",
     C(create(1)), C(create(2, imsi=person(2))), C(create(1)), plan=(N(), A(g=0, c=1)),
     out=[accepted(), full(2), accepted(), line("L", 1), SESSION])

case("share-faults-before-73", "with no room a faulty Create gets its fault: every check comes before the rule",
     C(create(1)), C(create(2, imsi=NONE)), C(create(3, imsi=person(3), apn=apn(b"x"))), C(create(4, imsi=person(4), paa=paa(2))),
     C(create(5, imsi=person(5), qos=NONE)), C(create(6, imsi=person(6))), plan=(N(), A(g=0, c=1)))

case("share-refused-takes-nothing", "73 takes no place and steps no use", crowd(1, 1), crowd(2, 3), C(delete(0x100, 1)), crowd(5, 1), plan=(N(), A(g=0, c=1)))
