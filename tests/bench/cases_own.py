"""Cases of Recovery, echoes, closing and the unit's own requests; cases_late.py has those of a Recovery that comes late.

By hand: "the echo (type 1, Recovery, 13 octets)"; "Delete Bearer (99): EBI 73, to the peer's control TEID, 17 octets"; after T and X
"all due follow, each a line of D and the datagram". PLAN has T 3, N 2, E 60, Recovery 7.
"""
from build import *

OK = line(0, "-")
ECHOED = line(0, "40 02 0009 000040 00 03 0001 00 07")
GONE = line("L", 0), freed()


def plan(t=3, n=2, e=60):
    return (N(t=t, n=n, e=e), A())


def own_echo(seq):
    return line("D", "40 01 0009 %06X 00 03 0001 00 07" % seq)


def bearer_delete(seq, to="00001111"):
    return line("D", "48 63 000D" + to + "%06X 00 49 0001 00 05" % seq)


# ---- Recovery
case("recovery-in-echo", "in type 1: the first value is stored, the same changes nothing, one of a restart frees all",
     C(create()), C(echo(0x40, recovery(5))), C(echo(0x40, recovery(5))), U(gpdu(0x180, b"a")), C(echo(0x40, recovery(6))), U(gpdu(0x180, b"a")),
     out=[accepted(), ECHOED, ECHOED, line(0, "-", "61"), ECHOED,
          line(15, "32 1A 0010 00000000 00000000 10 00000180 85 0004 0A000002"), *GONE])

case("recovery-in-create", "in Create: the first is stored; one of a restart frees all before the new session takes a place",
     C(create(1, more=recovery(5))), C(create(2, imsi=person(2), more=recovery(5))), C(create(3, imsi=person(3), more=recovery(6))),
     C(create(4, imsi=person(4))))

case("recovery-in-echo-reply", "in an awaited type 2: the first is stored, one of a restart frees all",
     C(create()), T(), C(echo_reply(0, recovery(5))), T(), C(echo_reply(1, recovery(5))), T(), C(echo_reply(2, recovery(6))),
     plan=plan(e=1),
     out=[accepted(), OK, own_echo(0), OK, OK, own_echo(1), OK, OK, own_echo(2), OK, *GONE])

case("recovery-not-awaited", "in a type 2 that is not awaited it is not read",
     C(create()), C(echo(0x40, recovery(5))), C(echo_reply(0, recovery(6))), C(echo(0x40, recovery(5))),
     out=[accepted(), ECHOED, line(9, "-"), ECHOED, line("L", 1), SESSION])

case("recovery-0-is-a-value", "0 is a value like any other: stored first, then 1 is a restart and frees all, and 0 again is late",
     C(create(1)), C(echo(0x40, recovery(0))), U(gpdu(0x180, b"a")), C(echo(0x40, recovery(1))), U(gpdu(0x180, b"a")), C(create(2)),
     C(echo(0x40, recovery(0))),
     out=[accepted(), ECHOED, line(0, "-", "61"), ECHOED, line(15, "32 1A 0010 00000000 00000000 10 00000180 85 0004 0A000002"),
          accepted(seq="000002", control="00000200", user="00000280"), ECHOED, line("L", 1),
          line(0, 2, "L", 0, "440101234567890", 5, 4369, "0A010008", 8738, "0A010009", 2)])

case("recovery-absent-or-empty", "absent or empty is ignored; an empty first one hides a second; another instance is unknown",
     C(create()), C(echo(0x40, recovery(5))), C(echo(0x40)), C(echo(0x40, field(3, b""))), C(echo(0x40, field(3, b""), recovery(6))),
     C(echo(0x40, field(3, b"\6", 1))), C(echo(0x40, field(255, b"abc"), recovery(5), recovery(6))),
     out=[accepted()] + [ECHOED] * 6 + [line("L", 1), SESSION])

case("recovery-behind-an-overrun", "an overrun in type 1 counts as no Recovery; it is answered all the same",
     C(create()), C(echo(0x40, recovery(5))), C(echo(0x40, recovery(6), b"\0")), C(echo(0x40, recovery(6), field(9, b"", length=1))),
     out=[accepted()] + [ECHOED] * 3 + [line("L", 1), SESSION])

case("recovery-behind-a-bearer-context", "in type 1 a Bearer Context is an unknown field: what runs past its end does not hide Recovery",
     C(create()), C(echo(0x40, recovery(5))), C(echo(0x40, bearer(b"\0"), recovery(6))),
     out=[accepted(), ECHOED, ECHOED, *GONE])

case("recovery-of-a-refused-create", "a Create refused with 67, 69, 70, 78 or 83 has not read Recovery",
     C(echo(0x40, recovery(5))), C(create()), *[C(create(k, more=recovery(6), **bad)) for k, bad in enumerate(
         [dict(imsi=NONE), dict(rat=rat(0)), dict(qos=field(80, b"")), dict(apn=apn(b"x")), dict(paa=paa(2)), dict(ebi=ebi() + b"\0")], 2)])

case("recovery-read-before-the-rule", "at the ceiling: with the same value 73; with one of a restart all are freed first, and there is room",
     C(create(1, more=recovery(5))), C(create(2, imsi=person(2), more=recovery(5))), C(create(3, imsi=person(3), more=recovery(6))),
     C(create(4, imsi=person(4), more=recovery(6))), plan=(N(), A(g=0, c=1)))

case("recovery-frees-all-and-73", "a restart frees all also where 73 follows: no room is left beside a guarantee of 64, used or not",
     C(create(1, more=recovery(5))), C(create(2, imsi=person(2), apn=apn(b"\x03net"), more=recovery(6))),
     plan=(N(), A(g=PLACES, c=PLACES), A(b"\x03net", 0, PLACES)),
     out=[accepted(), line(73, "48 21 000E 00001111 000002 00 02 0002 00 49 00"), *GONE])

case("recovery-stored-by-73", "the first value seen stands in a Create refused with 73, and counts",
     C(create(1)), C(create(2, imsi=person(2), more=recovery(5))), C(echo(0x40, recovery(5))), C(echo(0x40, recovery(6))), plan=(N(), A(g=0, c=1)))

case("recovery-and-repeat", "a repeat has read Recovery: with a value of a restart all are freed, so there is no repeat then",
     C(create(1, more=recovery(5))), C(create(1, more=recovery(5))), C(create(1, more=recovery(6))),
     out=[accepted(), accepted(), accepted(control="00000200", user="00000280"), line("L", 1),
          line(0, 2, "L", 0, "440101234567890", 5, 4369, "0A010008", 8738, "0A010009", 1)])

case("recovery-frees-closing", "a restart frees closing places; their request is resent no more and its answer is 9; the own echo goes on",
     C(create()), X(0), C(echo(0x40, recovery(5))), T(2), C(echo(0x40, recovery(6))), T(2), C(bearer_deleted(0x100, 0, cause())),
     C(echo_reply(1)), plan=plan(e=2),
     out=[accepted(), OK, bearer_delete(0), ECHOED, OK, OK, own_echo(1), ECHOED, OK, OK, line(9, "-"), OK, *GONE])

case("recovery-not-read-elsewhere", "Recovery in Modify, Delete, a Delete Bearer reply and type 3 is not read",
     crowd(1, 3), C(echo(0x40, recovery(5))), C(modify(0x100, 1, recovery(6))), C(delete(0x101, 2, recovery(6))), X(2),
     C(bearer_deleted(0x102, 0, cause(), recovery(6))), C(without_teid(3, 0, recovery(6))))

# ---- Echo
case("echo-due-after-e", "the first echo is due at the E-th tick after the start, with number 0",
     T(4), plan=plan(e=4), out=[OK, OK, OK, OK, own_echo(0), line("L", 0)])

case("echo-answered", "an answered echo: the next is due E ticks after the answer, with the next number",
     T(4), T(1), C(echo_reply(0)), T(4), plan=plan(e=4),
     out=[OK, OK, OK, OK, own_echo(0), OK, OK, OK, OK, OK, OK, own_echo(1), line("L", 0)])

case("echo-lost", "resent at T with its own number, given up after N sends: all places are freed; the next is due E ticks later",
     C(create()), C(create(2, imsi=person(2))), T(5), T(3), T(3), T(5), plan=plan(t=3, n=2, e=5),
     out=[accepted(), accepted(seq="000002", control="00000101", address="64400002", user="00000181"),
          OK, OK, OK, OK, OK, own_echo(0),  # the 5th tick
          OK, OK, OK, own_echo(0),  # T ticks later
          OK, OK, OK,  # after N sends given up
          OK, OK, OK, OK, OK, own_echo(1), line("L", 0), freed(0), freed(1)])

case("echo-lost-keeps-recovery", "giving up the echo keeps the stored Recovery: the same value later frees nothing",
     C(echo(0x40, recovery(5))), T(2), C(create()), C(echo(0x40, recovery(5))), plan=plan(t=1, n=1, e=1),
     out=[ECHOED, OK, own_echo(0), OK, accepted(), ECHOED, line("L", 1), SESSION])

case("echo-lost-then-restart", "giving up the echo keeps the stored Recovery: one ahead of it later is not a first one, and frees all",
     C(echo(0x40, recovery(5))), T(2), C(create()), C(echo(0x40, recovery(6))), plan=plan(t=1, n=1, e=1),
     out=[ECHOED, OK, own_echo(0), OK, accepted(), ECHOED, *GONE])

case("echo-late-answer", "the answer after giving up is 9; the answer to a resent echo is taken",
     T(2), C(echo_reply(0)), T(2), T(1), C(echo_reply(1)), C(echo_reply(1)), plan=plan(t=1, n=2, e=1))

case("echo-wrong-answers", "another number, an overrun, none sent yet: 9, and the echo goes on",
     C(create()), C(echo_reply(0)), T(), C(echo_reply(1)), C(echo_reply(0, b"\0")), C(echo_reply(0, recovery(5), field(3, b"", length=1))),
     C(bearer_deleted(0x100, 0, cause())), T(3), C(echo_reply(0, field(3, b""))), C(echo_reply(0)), plan=plan(e=1),
     out=[accepted(), line(9, "-"), OK, own_echo(0), line(9, "-"), line(9, "-"), line(9, "-"), line(9, "-"),
          OK, OK, OK, own_echo(0), OK, line(9, "-"), line("L", 1), SESSION])

case("echo-reply-with-a-bearer-context", "in type 2 a Bearer Context is an unknown field: what runs past its end does not count",
     T(), C(echo_reply(0, bearer(b"\0"), recovery(5))), plan=plan(e=1))

case("echo-every-tick", "T 1, N 1, E 1: an echo at each second tick, given up at the others", C(create()), T(7), plan=plan(1, 1, 1))

case("echo-of-the-peer", "the peer's echo does not end or delay ours", T(3), C(echo(0, recovery(1))), T(1), C(echo(0, recovery(1))), T(3),
     plan=plan(t=3, n=2, e=4))

case("echo-interval-255", "E 255 and T 255: the echo at the 255th tick, its resend at the 510th", T(510),
     plan=plan(255, 10, 255))

# ---- Close
case("close", "Delete Bearer at once, again at the T-th tick; by the N x T-th tick the place is free",
     C(create()), X(0), T(3), T(3),
     out=[accepted(), OK, bearer_delete(0), OK, OK, OK, bearer_delete(0), OK, OK, OK, *GONE])

case("close-in-between", "one tick before the N x T-th it is still closing, and live for user packets and the count",
     C(create()), X(0), T(5), U(gpdu(0x180, b"\x45")),
     out=[accepted(), OK, bearer_delete(0), OK, OK, OK, bearer_delete(0), OK, OK, line(0, "-", "45"), line("L", 1),
          line(0, 1, "X", 0, "440101234567890", 5, 4369, "0A010008", 8738, "0A010009", 1)])

case("close-unfit", "a place over 63, or free: 10; a place freed before is free",
     X(0), X(PLACES - 1), X(PLACES), X(255), C(create()), C(delete(0x100, 1)), X(0),
     out=[line(10, "-")] * 4 + [accepted(), line(0, "48 25 000E 00001111 000001 00 02 0002 00 10 00"), line(10, "-"), *GONE])

case("close-twice", "closing twice answers 0 and changes nothing: no second request, the timer goes on",
     C(create()), X(0), T(2), X(0), T(1), X(0), T(3),
     out=[accepted(), OK, bearer_delete(0), OK, OK, OK, OK, bearer_delete(0), OK, OK, OK, OK, *GONE])

case("close-answered", "type 100 with the awaited number, the place's TEID and a Cause frees the place; the same again is 9",
     C(create()), X(0), C(bearer_deleted(0x100, 0, cause(16))), C(bearer_deleted(0x100, 0, cause(16))), T(6),
     out=[accepted(), OK, bearer_delete(0), OK, line(9, "-")] + [OK] * 6 + [*GONE])

case("close-answered-any-cause", "whatever the cause; octets past the two and other fields are ignored; a resent request is answered too",
     crowd(1, 4), *[X(k) for k in range(4)], C(bearer_deleted(0x100, 0, cause(64))), C(bearer_deleted(0x101, 1, field(2, bytes(6)))),
     C(bearer_deleted(0x102, 2, ebi(), field(93, b"\0"), cause(0), recovery(3))), T(3), C(bearer_deleted(0x103, 3, cause(255))))

case("close-wrong-answers", "9, and the request goes on: number, TEID, use or Cause do not fit, or there is an overrun",
     crowd(1, 2), X(0), X(1), C(bearer_deleted(0x100, 1, cause())), C(bearer_deleted(0x101, 0, cause())), C(bearer_deleted(0x100, 2, cause())),
     C(bearer_deleted(0x180, 0, cause())), C(bearer_deleted(0x200, 0, cause())), C(bearer_deleted(0, 0, cause())), C(bearer_deleted(0x100, 0)),
     C(bearer_deleted(0x100, 0, cause(16, 1))), C(bearer_deleted(0x100, 0, field(2, b"\x10\0", 1))), C(bearer_deleted(0x100, 0, cause(), b"\0")),
     C(bearer_deleted(0x100, 0, cause(16, 0), cause())), C(echo_reply(0)), T(3), C(bearer_deleted(0x100, 0, cause())))

case("close-not-asked", "type 100 for a live place that nobody closed: 9", C(create()), C(bearer_deleted(0x100, 0, cause())),
     out=[accepted(), line(9, "-"), line("L", 1), SESSION])

case("close-late-answer", "the answer after giving up is 9, also when the place is taken again",
     C(create()), X(0), T(6), C(bearer_deleted(0x100, 0, cause())), C(create(2)),
     C(bearer_deleted(0x100, 0, cause())), C(bearer_deleted(0x200, 0, cause())),
     out=[accepted(), OK, bearer_delete(0), OK, OK, OK, bearer_delete(0), OK, OK, OK, line(9, "-"),
          accepted(seq="000002", control="00000200", user="00000280"), line(9, "-"), line(9, "-"), line("L", 1),
          line(0, 2, "L", 0, "440101234567890", 5, 4369, "0A010008", 8738, "0A010009", 2)])

case("sends-1", "N 1: sent once, given up at the T-th tick", C(create()), X(0), T(2), plan=plan(t=2, n=1),
     out=[accepted(), OK, bearer_delete(0), OK, OK, *GONE])

case("sends-10", "N 10 and T 2: ten sends with one number, free at the 20th tick", C(create()), X(0), T(20), plan=plan(2, 10, 255),
     out=[accepted(), OK, bearer_delete(0)] + [OK, OK, bearer_delete(0)] * 9 + [OK, OK, *GONE])

case("resend-time-255", "T 255: resent at the 255th tick, free at the 510th; E 255 with its echo meanwhile",
     C(create()), X(0), T(255), T(255),
     plan=plan(255, 2, 255))

case("due-in-order", "the echo first, then places upward, whatever order they were closed in",
     crowd(1, 3), X(2), X(0), X(1), T(3), plan=plan(t=3, n=3, e=3),
     out=[accepted(seq="000001"), accepted(seq="000002", control="00000101", address="64400002", user="00000181"),
          accepted(seq="000003", control="00000102", address="64400003", user="00000182"),
          OK, bearer_delete(0), OK, bearer_delete(1), OK, bearer_delete(2),
          OK, OK, OK, own_echo(3), bearer_delete(1), bearer_delete(2), bearer_delete(0), line("L", 3)]
     + [line(k, 1, "X", 0, "44010000000000%d" % (k + 1), 5, 4369, "0A010008", 8738, "0A010009", k + 1) for k in range(3)])

case("numbers-go-on", "a number is taken at the first send; after answers, giving up and freeing the count goes on, and never back",
     C(create(1)), X(0), C(bearer_deleted(0x100, 0, cause())), C(create(2)), X(0), C(delete(0x200, 5)), C(create(3)), X(0), T(2), C(create(4)), X(0),
     T(2), C(create(5)), X(0), T(8), plan=plan(t=1, n=2, e=3))

case("close-and-echo-apart", "echo and places count down each for itself; an answered place does not end the echo",
     crowd(1, 2), T(2), X(0), T(1), X(1), T(1), C(bearer_deleted(0x100, 1, cause())), T(6), plan=plan(t=4, n=2, e=2))

case("close-all-64", "all 64 places closed: 64 own numbers, all given up in the same tick",
     crowd(1, PLACES), *[X(k) for k in range(PLACES)], T(2), plan=plan(1, 2, 200),
     out=[seated(k, k + 1) for k in range(PLACES)] + [part for k in range(PLACES) for part in (OK, bearer_delete(k))]
     + [OK] + [bearer_delete(k) for k in range(PLACES)] + [OK, line("L", 0)] + [freed(k) for k in range(PLACES)])
