"""Cases of the kept replies: Modify and Delete asked twice.

By hand, from request 4 of document 02: "Keep the last 32 replies to types 34 and 36, each with its type, sequence number, header TEID and
a life of 10 ticks (the tenth drops it). A request equal in those three gets the kept reply octet for octet, with its number, and changes
nothing. The oldest makes room when full." "A Recovery that frees everything empties the store." "The store is asked after check 8 (TEID),
before 64." What is not kept is answered as in cases_change.py. PLAN has T 3, N 2, E 60, Recovery 7.
"""
from build import *
from cases_change import MOVED
from cases_own import ECHOED, GONE, OK, bearer_delete, own_echo, plan

# Cause alone, and Cause with the field that it names
ACCEPTED, NOT_LIVE, OVERRUN = "02 0002 00 10 00", "02 0002 00 40 00", "02 0002 00 43 00"
SHORT, WRONG, MISSING = "02 0006 00 43 00", "02 0006 00 45 00", "02 0006 00 46 00"
SENDER, EBI = "57 0000 00", "49 0000 00"

STAYS = line("L", 1), SESSION
AGAIN = accepted(seq="000002", control="00000200", user="00000280")  # create(2) at place 0 in its second use
AGAIN_STAYS = line("L", 1), line(0, 2, "L", 0, "440101234567890", 5, 4369, "0A010008", 8738, "0A010009", 2)
MOVED_STAYS = line("L", 1), line(0, 1, "L", 0, "440101234567890", 5, 13107, "0A010012", 17476, "0A010013", 1)
OTHER = sender(0x5555, "0A010016"), bearer(ebi(), user(0x6666, "0A010017", instance=1))


def moved(seq, to="00001111", context=False, cause=ACCEPTED, number=0):
    """A reply to Modify; context: with its Bearer Context."""
    rest = "%06X 00" % seq + cause + ("5D 000B 00 49 0001 00 05 02 0002 00 10 00" if context else "")
    return line(number, "48 23 %04X" % (4 + len(octets(rest))) + to + rest)


def gone(seq, to="00001111", cause=ACCEPTED, number=0):
    """A reply to Delete."""
    rest = "%06X 00" % seq + cause
    return line(number, "48 25 %04X" % (4 + len(octets(rest))) + to + rest)


def dead(seq):
    """64 to a Delete under a number that is not live."""
    return gone(seq, "00000000", NOT_LIVE, 64)


def unmoved(seq):
    """64 to a Modify under a number that is not live."""
    return moved(seq, "00000000", False, NOT_LIVE, 64)


def said(value):
    """The exchange's echo with this value."""
    return C(echo(0x40, recovery(value)))


# the Delete of the first session that most cases ask; its reply; what it is answered where it is judged anew
ASKED, DELETED, JUDGED = C(delete(0x100, 0x30)), gone(0x30), dead(0x30)

# ---- the kept reply, octet for octet, with its number, and nothing changes
case("kept-delete", "a Delete asked twice: the same reply with 0, not 64; the place was freed once",
     C(create()), ASKED, ASKED, ASKED,
     out=[accepted(), DELETED, DELETED, DELETED, *GONE])

case("kept-delete-place-taken-again", "the place is taken in its next use meanwhile: the Delete asked again frees nothing",
     C(create(1)), ASKED, C(create(2)), ASKED, C(delete(0x200, 0x30)), ASKED,
     out=[accepted(), DELETED, AGAIN, DELETED, DELETED, DELETED, line("L", 0), freed(0, 2)])

case("kept-modify-other-fields", "a Modify asked again with other fields: the kept reply, to the peer of the first; the peers stay the first's",
     C(create()), C(modify(0x100, 0x20, *MOVED)), C(modify(0x100, 0x20, *OTHER)), C(modify(0x100, 0x20)),
     out=[accepted()] + [moved(0x20, "00003333", True)] * 3 + [*MOVED_STAYS])

case("kept-modify-moved-since", "two Modifies, then the first again: its kept reply goes to its own peer, and the second's peers stay",
     C(create()), C(modify(0x100, 1, *OTHER)), C(modify(0x100, 2, *MOVED)), C(modify(0x100, 1, *OTHER)), C(modify(0x100, 2, *MOVED)),
     out=[accepted()] + [moved(1, "00005555", True), moved(2, "00003333", True)] * 2 + [*MOVED_STAYS])

case("kept-both-sizes", "18 octets stay 18 where a Bearer Context comes the second time, and 33 stay 33 where none does",
     C(create()), C(modify(0x100, 1)), C(modify(0x100, 1, bearer(ebi()))), C(modify(0x100, 2, bearer(ebi()))), C(modify(0x100, 2)),
     out=[accepted(), moved(1), moved(1), moved(2, context=True), moved(2, context=True), *STAYS])

case("kept-before-overruns", "asked again with an overrun, in the message or in its Bearer Context: the kept reply, not 67",
     C(create()), C(modify(0x100, 1)), C(modify(0x100, 1, b"\0")), C(modify(0x100, 1, bearer(ebi(), b"\0\0"))),
     C(modify(0x100, 1, field(5, b"", length=9))), C(delete(0x100, 2, ebi())), C(delete(0x100, 2, ebi(), b"\0\0\0")),
     out=[accepted()] + [moved(1)] * 4 + [gone(2), gone(2), *GONE])

case("kept-before-faults", "asked again with a field that is short, wrong or missing: the kept reply, not its fault",
     C(create()), C(modify(0x100, 1, MOVED[0])), C(modify(0x100, 1, field(87, bytes(8)))), C(modify(0x100, 1, sender(0))),
     C(modify(0x100, 1, bearer())), C(delete(0x100, 2)), C(delete(0x100, 2, ebi(6))), C(delete(0x100, 2, field(73, b""))),
     out=[accepted()] + [moved(1, "00003333")] * 4 + [gone(2, "00003333")] * 3 + [*GONE])

case("kept-ignored-bits", "the three low bits of octet 1 and the spare octet are no part of the three: the kept reply, in which they are 0",
     C(create()), ASKED, C(message(0x4F, 36, octets("00000100 000030 FF"))), C(message(0x49, 36, octets("00000100 000030 00"))),
     out=[accepted(), DELETED, DELETED, DELETED, *GONE])

case("kept-after-the-header", "a header that is refused is refused: 5, 4, 8, 6 come before the store is asked; then the kept reply still",
     C(create()), ASKED, C(message(0x28, 36, octets("00000100 000030 00"))), C(message(0x58, 36, octets("00000100 000030 00"))),
     C(message(0x40, 36, octets("00000100 000030 00"))), C(octets("48 24 0009 00000100 000030 00")), ASKED,
     out=[accepted(), DELETED, line(5, "40 03 0004 00000000"), line(4, "-"), line(8, "-"), line(6, "-"), DELETED, *GONE])

# ---- equal in those three: type, sequence number, header TEID
case("kept-other-type", "Modify and Delete with one sequence number and TEID are two requests, each with its own reply",
     C(create()), C(modify(0x100, 7)), C(delete(0x100, 7)), C(modify(0x100, 7)), C(delete(0x100, 7)),
     out=[accepted(), moved(7), gone(7), moved(7), gone(7), *GONE])

case("kept-other-type-after", "the same where the Delete came first: the Modify is judged, 64",
     C(create()), C(delete(0x100, 7)), C(modify(0x100, 7)), C(delete(0x100, 7)),
     out=[accepted(), gone(7), unmoved(7), gone(7), *GONE])

case("kept-other-teid", "one sequence number under two TEIDs: two requests, each with its own reply",
     C(create()), C(create(2, imsi=person(2), sender=sender(0x7777))), C(delete(0x100, 7)), C(delete(0x101, 7)),
     C(delete(0x101, 7)), C(delete(0x100, 7)),
     out=[accepted(), accepted("00007777", "000002", "00000101", "64400002", user="00000181"), gone(7), gone(7, "00007777"),
          gone(7, "00007777"), gone(7), line("L", 0), freed(0), freed(1)])

case("kept-other-sequence", "the same request with another sequence number is another request: 64, as document 01 has it",
     C(create()), ASKED, C(delete(0x100, 0x31)), ASKED,
     out=[accepted(), DELETED, dead(0x31), DELETED, *GONE])

case("kept-every-octet", "sequence numbers and TEIDs that differ in one octet are others, whichever octet that is",
     C(create()), C(modify(0x100, 1)), *[C(modify(0x100, seq, sender(seq))) for seq in (0x000101, 0x010001, 0x000002)],
     *[C(modify(teid, 1)) for teid in (0x101, 0x200, 0x10100, 0x1000100)], C(modify(0x100, 1)),
     out=[accepted(), moved(1), moved(0x000101, "00000101"), moved(0x010001, "00010001"), moved(2, "00000002")] + [unmoved(1)] * 4
     + [moved(1), line("L", 1), line(0, 1, "L", 0, "440101234567890", 5, 2, "0A010008", 8738, "0A010009", 1)])

case("kept-number-0", "sequence number 0 under TEID 0 is kept like any other, and nothing is found before it came",
     C(delete(0, 0)), C(modify(0, 0)), C(delete(0, 0)), C(modify(0, 0, sender())),
     out=[dead(0), unmoved(0), dead(0), unmoved(0), line("L", 0)])

# ---- every reply is kept, refusals too
case("kept-64", "64 for a number that is not live is kept: a Create that makes it live meanwhile does not change the answer",
     C(delete(0x100, 1)), C(modify(0x100, 2)), C(create()), C(delete(0x100, 1)), C(modify(0x100, 2, *MOVED)), C(modify(0x100, 3)),
     C(delete(0x100, 4)),
     out=[dead(1), unmoved(2), accepted(), dead(1), unmoved(2), moved(3), gone(4), *GONE])

case("kept-64-other-ebi", "64 for another EBI is kept: the same Delete without it gets 64 again, to the peer, and the session stays",
     C(create()), C(delete(0x100, 1, ebi(6))), C(delete(0x100, 1, ebi(5))), C(delete(0x100, 1)), C(delete(0x100, 2, ebi(5))),
     out=[accepted()] + [gone(1, cause=NOT_LIVE, number=64)] * 3 + [gone(2), *GONE])

case("kept-67", "67 is kept, for an overrun and for a short field: asked again soundly it is 67 still, and nothing changes",
     C(create()), C(modify(0x100, 1, MOVED[0], b"\0")), C(modify(0x100, 1, *MOVED)),
     C(modify(0x100, 2, field(87, bytes(8)))), C(modify(0x100, 2, *MOVED)),
     C(delete(0x100, 3, b"\0")), C(delete(0x100, 3)), C(delete(0x100, 4, field(73, b""))), C(delete(0x100, 4)),
     out=[accepted()] + [moved(1, cause=OVERRUN, number=67)] * 2 + [moved(2, cause=SHORT + SENDER, number=67)] * 2
     + [gone(3, cause=OVERRUN, number=67)] * 2 + [gone(4, cause=SHORT + EBI, number=67)] * 2 + [*STAYS])

case("kept-69-and-70", "69 and 70 are kept, with the field that they name; under another sequence number the request is taken",
     C(create()), C(modify(0x100, 1, sender(0))), C(modify(0x100, 1, *MOVED)), C(modify(0x100, 2, bearer())), C(modify(0x100, 2, *MOVED)),
     C(modify(0x100, 3, *MOVED)),
     out=[accepted()] + [moved(1, cause=WRONG + SENDER, number=69)] * 2 + [moved(2, cause=MISSING + EBI, number=70)] * 2
     + [moved(3, "00003333", True), *MOVED_STAYS])

case("kept-refusal-to-the-old-peer", "a refusal was for the peer of then: a Modify moves the peer, and the kept reply goes where it went",
     C(create()), C(delete(0x100, 1, ebi(6))), C(modify(0x100, 2, *MOVED)), C(delete(0x100, 1, ebi(6))), C(delete(0x100, 3, ebi(6))),
     out=[accepted(), gone(1, cause=NOT_LIVE, number=64), moved(2, "00003333", True), gone(1, cause=NOT_LIVE, number=64),
          gone(3, "00003333", NOT_LIVE, 64), *MOVED_STAYS])

# ---- a life of 10 ticks
case("kept-nine-ticks", "after nine ticks it is there still", C(create()), ASKED, T(LIFE - 1), ASKED,
     out=[accepted(), DELETED] + [OK] * 9 + [DELETED, *GONE])

case("kept-ten-ticks", "the tenth tick drops it: the Delete is judged, and is 64", C(create()), ASKED, T(LIFE), ASKED,
     out=[accepted(), DELETED] + [OK] * 10 + [JUDGED, *GONE])

case("kept-not-renewed", "asking renews nothing: asked after 5 and after 9 ticks it is there, after 10 it is not",
     C(create()), ASKED, T(5), ASKED, T(4), ASKED, T(1), ASKED,
     out=[accepted(), DELETED] + [OK] * 5 + [DELETED] + [OK] * 4 + [DELETED, OK, JUDGED, *GONE])

case("kept-refusal-ten-ticks", "a refusal lives as long: the Delete of a number that was not live is taken after the tenth tick",
     C(delete(0x100, 1)), C(create()), T(LIFE - 1), C(delete(0x100, 1)), T(1), C(delete(0x100, 1)),
     out=[dead(1), accepted()] + [OK] * 9 + [dead(1), OK, gone(1), *GONE])

case("kept-anew", "what is judged after the tenth tick is kept anew, with ten ticks of its own, and with its own fields",
     C(create()), C(modify(0x100, 1, *OTHER)), T(LIFE), C(modify(0x100, 1, *MOVED)), T(LIFE - 1), C(modify(0x100, 1, *OTHER)),
     T(1), C(modify(0x100, 1)),
     out=[accepted(), moved(1, "00005555", True)] + [OK] * 10 + [moved(1, "00003333", True)] + [OK] * 9
     + [moved(1, "00003333", True), OK, moved(1, "00003333"), *MOVED_STAYS])

case("kept-each-its-own-life", "replies of different ticks are dropped each at its own tenth tick",
     crowd(1, 3), C(delete(0x100, 1)), T(4), C(delete(0x101, 2)), T(5), C(delete(0x102, 3)),
     T(1), *[C(delete(0x100 + k, k + 1)) for k in range(3)], T(4), C(delete(0x101, 2)), C(delete(0x102, 3)), T(5), C(delete(0x102, 3)),
     out=[seated(k, k + 1) for k in range(3)] + [gone(1)] + [OK] * 4 + [gone(2)] + [OK] * 5 + [gone(3), OK, dead(1), gone(2), gone(3)]
     + [OK] * 4 + [dead(2), gone(3)] + [OK] * 5 + [dead(3), line("L", 0), freed(0), freed(1), freed(2)])

case("kept-through-own-requests", "ticks that resend or give up a closing place count like any other, and drop nothing more",
     crowd(1, 2), C(delete(0x100, 7)), X(1), T(6), C(delete(0x100, 7)), T(3), C(delete(0x100, 7)), T(1), C(delete(0x100, 7)),
     out=[seated(0, 1), seated(1, 2), gone(7), OK, bearer_delete(0), OK, OK, OK, bearer_delete(0), OK, OK, OK, gone(7), OK, OK, OK, gone(7), OK,
          dead(7), line("L", 0), freed(0), freed(1)])

# ---- the last 32
HALF = KEPT // 2

case("kept-32", "32 Deletes: all of them are there",
     crowd(1, KEPT), *[C(delete(0x100 + k, k)) for k in range(KEPT)] * 2,
     out=[seated(k, k + 1) for k in range(KEPT)] + [gone(k) for k in range(KEPT)] * 2 + [line("L", 0)] + [freed(k) for k in range(KEPT)])

case("kept-33", "33 Deletes: the 32 newest are there; the oldest made room, is judged, 64, and kept anew, for which the next one goes",
     crowd(1, KEPT + 1), *[C(delete(0x100 + k, k)) for k in range(KEPT + 1)], *[C(delete(0x100 + k, k)) for k in range(1, KEPT + 1)],
     C(delete(0x100, 0)), C(delete(0x102, 2)), C(delete(0x101, 1)), C(delete(0x103, 3)), C(delete(0x100 + KEPT, KEPT)), C(delete(0x102, 2)),
     out=[seated(k, k + 1) for k in range(KEPT + 1)] + [gone(k) for k in range(KEPT + 1)] + [gone(k) for k in range(1, KEPT + 1)]
     + [dead(0), gone(2), dead(1), gone(3), gone(KEPT), dead(2), line("L", 0)] + [freed(k) for k in range(KEPT + 1)])

case("kept-oldest-though-asked", "asking does not make a reply newer: the oldest makes room though it was asked last",
     crowd(1, KEPT + 1), *[C(delete(0x100 + k, k)) for k in range(KEPT)], C(delete(0x100, 0)),
     C(delete(0x100 + KEPT, KEPT)), C(delete(0x101, 1)), C(delete(0x100, 0)),
     out=[seated(k, k + 1) for k in range(KEPT + 1)] + [gone(k) for k in range(KEPT)] + [gone(0), gone(KEPT), gone(1), dead(0), line("L", 0)]
     + [freed(k) for k in range(KEPT + 1)])

case("kept-asked-takes-no-room", "a request that is answered from the store is not kept once more: asked 40 times it pushes nothing out",
     crowd(1, 2), C(delete(0x100, 1)), C(delete(0x101, 2)), *[C(delete(0x101, 2))] * 40, C(delete(0x100, 1)),
     out=[seated(0, 1), seated(1, 2), gone(1)] + [gone(2)] * 41 + [gone(1), line("L", 0), freed(0), freed(1)])

case("kept-refusals-take-room", "32 refusals under dead numbers push a good reply out",
     C(create()), C(delete(0x100, 100)), *[C(delete(0x300, k)) for k in range(KEPT - 1)], C(delete(0x100, 100)), C(modify(0x300, 50)),
     C(delete(0x100, 100)),
     out=[accepted(), gone(100)] + [dead(k) for k in range(KEPT - 1)] + [gone(100), unmoved(50), dead(100), *GONE])

case("kept-full-of-two-ticks", "a full store of two ticks: the tenth tick of its older half drops that alone, and there is room for as many",
     *[C(delete(0x300, k)) for k in range(HALF)], T(1), crowd(1, HALF + 1), *[C(delete(0x100 + k, 100 + k)) for k in range(HALF)],
     T(9), *[C(delete(0x300, k)) for k in range(200, 200 + HALF)], *[C(delete(0x100 + k, 100 + k)) for k in range(HALF)],
     C(delete(0x110, 150)), C(delete(0x100, 100)), C(delete(0x102, 102)),
     out=[dead(k) for k in range(HALF)] + [OK] + [seated(k, k + 1) for k in range(HALF + 1)] + [gone(100 + k) for k in range(HALF)]
     + [OK] * 9 + [dead(k) for k in range(200, 200 + HALF)] + [gone(100 + k) for k in range(HALF)]
     + [gone(150), dead(100), gone(102), line("L", 0)] + [freed(k) for k in range(HALF + 1)])

case("kept-others-take-no-room", "Creates, echoes, replies, packets and refused headers are not kept and push nothing out",
     C(create()), ASKED, crowd(2, KEPT), *[C(echo(0x40))] * KEPT, *[C(bearer_deleted(0x100, 0x30, cause()))] * KEPT,
     *[C(without_teid(3, 0x30))] * KEPT, *[C(without_teid(36, 0x31))] * KEPT, *[U(gpdu(0x1BF))] * KEPT, ASKED,
     out=[accepted(), DELETED, seated(0, 2, 2)] + [seated(k, 2 + k) for k in range(1, KEPT)] + [ECHOED] * KEPT + [line(9, "-")] * KEPT
     + [OK] * KEPT + [line(8, "-")] * KEPT + [line(15, "32 1A 0010 00000000 00000000 10 000001BF 85 0004 0A000002")] * KEPT
     + [DELETED, line("L", KEPT), record(0, 2, use=2)] + [record(k, 2 + k) for k in range(1, KEPT)])

# ---- a Recovery that frees everything empties the store
RESTARTED = "a restart empties the store"

case("kept-restart-in-echo", "in type 1: " + RESTARTED + ", with a session live or none",
     C(create()), said(5), ASKED, said(6), ASKED, C(create(2)), C(modify(0x200, 0x20)), said(7), C(modify(0x200, 0x20)),
     out=[accepted(), ECHOED, DELETED, ECHOED, JUDGED, AGAIN, moved(0x20), ECHOED, unmoved(0x20), line("L", 0), freed(0, 2)])

case("kept-restart-ranges", RESTARTED + ": 1 and 127 ahead, over the turn too",
     said(200), *[part for k, value in enumerate([201, 72, 199], 1)  # 1 ahead, 127, 127
                  for part in (C(create(k)), C(modify(0x100 * k, 7)), said(value), C(modify(0x100 * k, 7)))],
     out=[ECHOED, accepted(), moved(7), ECHOED, unmoved(7), AGAIN, moved(7), ECHOED, unmoved(7),
          accepted(seq="000003", control="00000300", user="00000380"), moved(7), ECHOED, unmoved(7), line("L", 0), freed(0, 3)])

case("kept-restart-in-reply", "in an awaited type 2: " + RESTARTED,
     C(create()), said(5), ASKED, T(), ASKED, C(echo_reply(0, recovery(6))), ASKED, plan=plan(e=1),
     out=[accepted(), ECHOED, DELETED, OK, own_echo(0), DELETED, OK, JUDGED, *GONE])

case("kept-restart-in-create", "in an accepted Create: " + RESTARTED,
     C(create(1, more=recovery(5))), ASKED, C(create(2, more=recovery(6))), ASKED,
     out=[accepted(), DELETED, AGAIN, JUDGED, *AGAIN_STAYS])

case("kept-restart-in-repeat", "in a Create that is there already: " + RESTARTED + ", and the session is opened anew",
     C(create(1, more=recovery(5))), C(modify(0x100, 0x20)), C(create(1, more=recovery(5))), C(modify(0x100, 0x20)),
     C(create(1, more=recovery(6))), C(modify(0x100, 0x20)),
     out=[accepted(), moved(0x20), accepted(), moved(0x20), accepted(control="00000200", user="00000280"), unmoved(0x20), line("L", 1),
          line(0, 2, "L", 0, "440101234567890", 5, 4369, "0A010008", 8738, "0A010009", 1)])

case("kept-restart-and-73", "in a Create refused with 73: " + RESTARTED,
     C(create(1, more=recovery(5))), ASKED, C(create(2, imsi=person(2), apn=apn(b"\x03net"), more=recovery(6))), ASKED,
     plan=(N(), A(g=PLACES, c=PLACES), A(b"\x03net", 0, PLACES)),
     out=[accepted(), DELETED, line(73, "48 21 000E 00001111 000002 00 02 0002 00 49 00"), JUDGED, *GONE])

case("kept-restart-then-kept", "after a restart replies are kept again",
     said(5), C(delete(0x100, 1)), said(6), C(create()), C(delete(0x100, 1)), C(delete(0x100, 1)),
     out=[ECHOED, dead(1), ECHOED, accepted(), gone(1), gone(1), *GONE])

# ---- what does not empty it
case("kept-first-value", "the first value that is seen empties nothing: in type 1",
     C(create()), ASKED, said(200), ASKED,
     out=[accepted(), DELETED, ECHOED, DELETED, *GONE])

case("kept-first-value-in-reply", "the same in an awaited type 2",
     C(create()), ASKED, T(), C(echo_reply(0, recovery(200))), ASKED, plan=plan(e=1),
     out=[accepted(), DELETED, OK, own_echo(0), OK, DELETED, *GONE])

case("kept-first-value-in-create", "the same in a Create",
     C(create()), ASKED, C(create(2, more=recovery(200))), ASKED,
     out=[accepted(), DELETED, AGAIN, DELETED, *AGAIN_STAYS])

case("kept-same-and-late-value", "the same value empties nothing, nor does one that is late by 1, 127 or 128",
     C(create()), said(5), ASKED, *[part for value in (5, 4, 134, 133) for part in (said(value), ASKED)],
     out=[accepted(), ECHOED, DELETED] + [ECHOED, DELETED] * 4 + [*GONE])

case("kept-late-value-elsewhere", "late in a Create and in an awaited type 2: nothing is emptied",
     C(create(1, more=recovery(5))), ASKED, C(create(2, more=recovery(4))), ASKED, T(), C(echo_reply(0, recovery(4))), ASKED, plan=plan(e=1),
     out=[accepted(), DELETED, AGAIN, DELETED, OK, own_echo(0), OK, DELETED, *AGAIN_STAYS])

case("kept-value-not-read", "a value that is not read empties nothing: behind an overrun, not awaited, in a refused Create, a Modify, a Delete",
     C(create()), said(5), ASKED, C(echo(0x40, recovery(6), b"\0")), C(echo_reply(0, recovery(6))), C(create(2, imsi=NONE, more=recovery(6))),
     C(create(3, apn=apn(b"x"), more=recovery(6))), C(modify(0x100, 1, recovery(6))), C(delete(0x100, 2, recovery(6))),
     C(without_teid(3, 0, recovery(6))), ASKED,
     out=[accepted(), ECHOED, DELETED, ECHOED, line(9, "-"), line(70, "48 21 0012 00001111 000002 00 02 0006 00 46 00 01 0000 00"),
          line(78, "48 21 000E 00001111 000003 00 02 0002 00 4E 00"), unmoved(1), dead(2), OK, DELETED, *GONE])

case("kept-echo-given-up", "an echo given up frees all places and empties nothing: it is no Recovery",
     crowd(1, 2), C(delete(0x100, 7)), C(modify(0x101, 8)), T(2), C(delete(0x100, 7)), C(modify(0x101, 8)), C(delete(0x101, 9)),
     plan=plan(t=1, n=1, e=1),
     out=[seated(0, 1), seated(1, 2), gone(7), moved(8), OK, own_echo(0), OK, gone(7), moved(8), dead(9), line("L", 0), freed(0), freed(1)])

case("kept-close", "a close, its answer and its giving up empty nothing",
     crowd(1, 3), C(delete(0x100, 7)), X(1), C(delete(0x100, 7)), C(bearer_deleted(0x101, 0, cause())), C(delete(0x100, 7)),
     X(2), T(6), C(delete(0x100, 7)),
     out=[*[seated(k, k + 1) for k in range(3)], gone(7), OK, bearer_delete(0), gone(7), OK, gone(7),
          OK, bearer_delete(1), OK, OK, OK, bearer_delete(1), OK, OK, OK, gone(7), line("L", 0), freed(0), freed(1), freed(2)])

case("kept-session-gone", "the reply to a Modify whose session is gone since: closed and answered, or replaced",
     C(create(1)), C(modify(0x100, 7)), X(0), C(bearer_deleted(0x100, 0, cause())), C(modify(0x100, 7)),
     C(create(2)), C(modify(0x200, 8)), C(create(3)), C(modify(0x200, 8)), C(modify(0x200, 9)),
     out=[accepted(), moved(7), OK, bearer_delete(0), OK, moved(7),
          AGAIN, moved(8), accepted(seq="000003", control="00000300", user="00000380"), moved(8), unmoved(9), line("L", 1),
          line(0, 3, "L", 0, "440101234567890", 5, 4369, "0A010008", 8738, "0A010009", 3)])

case("kept-replacement", "a Create that replaces a session empties nothing, nor does one that is refused with 73",
     crowd(1, 2), C(delete(0x101, 7)), C(create(3, imsi=person(1))), C(delete(0x101, 7)),
     C(create(4, imsi=person(4), apn=apn(b"\x03net"))), C(delete(0x101, 7)),
     plan=(N(), A(g=PLACES, c=PLACES), A(b"\x03net", 0, PLACES)),
     out=[seated(0, 1), seated(1, 2), gone(7), accepted(seq="000003", control="00000200", user="00000280"), gone(7),
          line(73, "48 21 000E 00001111 000004 00 02 0002 00 49 00"), gone(7), line("L", 1),
          line(0, 2, "L", 0, "440100000000001", 5, 4369, "0A010008", 8738, "0A010009", 3), freed(1)])

case("kept-closing", "a closing place is deleted once: asked again nothing changes, and nothing is resent",
     C(create()), X(0), C(delete(0x100, 1)), C(delete(0x100, 1)), T(6), C(delete(0x100, 1)),
     out=[accepted(), OK, bearer_delete(0), gone(1), gone(1)] + [OK] * 6 + [gone(1), *GONE])

case("kept-modify-closing", "a Modify of a closing place, asked again with other fields: the resend goes to the peer of the first",
     C(create()), X(0), C(modify(0x100, 1, *MOVED)), C(modify(0x100, 1, *OTHER)), T(3),
     out=[accepted(), OK, bearer_delete(0), moved(1, "00003333", True), moved(1, "00003333", True),
          OK, OK, OK, bearer_delete(0, "00003333"), line("L", 1),
          line(0, 1, "X", 0, "440101234567890", 5, 13107, "0A010012", 17476, "0A010013", 1)])

case("kept-create-is-not", "a Create is not asked of the store: the same Create after a Delete opens a new session",
     C(create(1)), C(delete(0x100, 1)), C(create(1)), C(create(1)), C(delete(0x100, 1)), C(echo(1)),
     out=[accepted(), gone(1), accepted(control="00000200", user="00000280"), accepted(control="00000200", user="00000280"), gone(1),
          line(0, "40 02 0009 000001 00 03 0001 00 07"), line("L", 1),
          line(0, 2, "L", 0, "440101234567890", 5, 4369, "0A010008", 8738, "0A010009", 1)])

case("kept-packets", "what is kept holds no session: its packets are 15 up and 19 down, before and after the Delete is asked again",
     C(create()), ASKED, U(gpdu(0x180, b"a")), D(packet()), ASKED, U(gpdu(0x180, b"a")), D(packet()),
     out=[accepted()] + [DELETED, line(15, "32 1A 0010 00000000 00000000 10 00000180 85 0004 0A000002"), line(19, "-")] * 2 + [*GONE])

case("kept-holds-no-room", "what is kept holds no place: at a ceiling of 1 the next session is admitted, and the Delete asked again frees none",
     C(create(1)), ASKED, C(create(2)), ASKED, C(create(3, imsi=person(3))), plan=(N(), A(g=0, c=1)),
     out=[accepted(), DELETED, AGAIN, DELETED, line(73, "48 21 000E 00001111 000003 00 02 0002 00 49 00"), *AGAIN_STAYS])
