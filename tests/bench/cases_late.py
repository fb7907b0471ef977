"""Cases of a Recovery that turns over: same, restarted, late.

By hand, from request 2 of document 02: "Let d be received minus stored, modulo 256. 0: same. 1 to 127: restarted. 128 to 255: late, the value
is thrown away and the sessions stay; the message is still answered." "First value seen: stored, as before." Restarted, of document 01: "all
sessions are freed, the value is stored". PLAN has T 3, N 2, E 60, Recovery 7; the difference d stands beside a value where it is not plain.
"""
from build import *
from cases_own import ECHOED, GONE, OK, bearer_delete, own_echo, plan

STAYS = line("L", 1), SESSION
UP, DEAD = line(0, "-", "61"), line(15, "32 1A 0010 00000000 00000000 10 00000180 85 0004 0A000002")
SECOND = accepted(seq="000002", control="00000200", user="00000280")  # create(2) at place 0 in its second use
SECOND_STAYS = line("L", 1), line(0, 2, "L", 0, "440101234567890", 5, 4369, "0A010008", 8738, "0A010009", 2)


def said(value):
    """The exchange's echo with this value."""
    return C(echo(0x40, recovery(value)))


def up():
    """A packet under the user number of place 0 in its use 1: handed up as long as the first session stays."""
    return U(gpdu(0x180, b"a"))


# ---- each side of each range, in each type that has Recovery
for d, name, frees in [(0, "the same", False), (1, "1 ahead, restarted", True), (127, "127 ahead, restarted", True),
                       (128, "128 ahead, late", False), (255, "255 ahead, late", False)]:
    case("turned-echo-%d" % d, "in type 1, behind a stored 100: " + name,
         C(create()), said(100), said({0: 100, 1: 101, 127: 227, 128: 228, 255: 99}[d]), up(),
         out=[accepted(), ECHOED, ECHOED, *((DEAD, *GONE) if frees else (UP, *STAYS))])

    case("turned-reply-%d" % d, "in an awaited type 2, behind a stored 200: " + name + "; the echo is ended in any case",
         C(create()), T(), C(echo_reply(0, recovery(200))), T(), C(echo_reply(1, recovery({0: 200, 1: 201, 127: 71, 128: 72, 255: 199}[d]))), up(),
         T(), plan=plan(e=1),
         out=[accepted(), OK, own_echo(0), OK, OK, own_echo(1), OK, DEAD if frees else UP, OK, own_echo(2), *(GONE if frees else STAYS)])

    case("turned-create-%d" % d, "in Create, behind a stored 255: " + name + "; the Create is accepted in any case",
         C(create(1, more=recovery(255))), C(create(2, imsi=person(2), more=recovery({0: 255, 1: 0, 127: 126, 128: 127, 255: 254}[d]))), up(),
         out=[accepted(), seated(0, 2, use=2), DEAD, line("L", 1), record(0, 2, use=2)] if frees else
         [accepted(), seated(1, 2), UP, line("L", 2), SESSION, record(1, 2)])

case("turned-every-restart", "each difference from 1 to 127 is a restart: the session that was opened before it is freed, place 0 taken anew",
     said(0), *[part for d in range(1, 128) for part in (C(create(d)), said(d * (d + 1) // 2 % 256))],  # 1, 1 + 2, 1 + 2 + 3 ..
     out=[ECHOED] + [part for d in range(1, 128) for part in (
         accepted(seq="%06X" % d, control="%06X00" % d, user="%06X80" % d), ECHOED)] + [line("L", 0), freed(0, 127)])

case("turned-every-late", "each difference from 128 to 255 is late: after all of them the session stays, and 5 is still the stored value",
     C(create()), said(5), *[said(value) for value in [*range(133, 256), *range(0, 5)]], up(), said(5), up(), said(6), up(),
     out=[accepted()] + [ECHOED] * 129 + [UP, ECHOED, UP, ECHOED, DEAD, *GONE])

# ---- over the turn
case("turned-250-to-5", "5 after 250 is 11 ahead: restarted; 250 again is then late, 5 the same",
     C(create(1)), said(250), up(), said(5), up(), C(create(2)), said(250), said(5),
     out=[accepted(), ECHOED, UP, ECHOED, DEAD, SECOND, ECHOED, ECHOED, *SECOND_STAYS])

case("turned-5-to-250", "250 after 5 is 245 ahead: late; 251, 255 and 0 to 4 are late too",
     C(create()), said(5), *[said(value) for value in (250, 251, 255, 0, 1, 4)], up(),
     out=[accepted()] + [ECHOED] * 7 + [UP, *STAYS])

case("turned-255-to-0", "0 after 255 is 1 ahead: restarted; 255 again is late",
     C(create(1)), said(255), up(), said(0), up(), C(create(2)), said(255),
     out=[accepted(), ECHOED, UP, ECHOED, DEAD, SECOND, ECHOED, *SECOND_STAYS])

case("turned-whole-round", "100, 227 (127 ahead), 98 (127 ahead), 100 (2 ahead): three restarts, the last with the first value",
     C(create(1)), said(100), said(227), C(create(2)), said(98), C(create(3)), said(100),
     out=[accepted(), ECHOED, ECHOED, SECOND, ECHOED, accepted(seq="000003", control="00000300", user="00000380"), ECHOED, line("L", 0),
          freed(0, 3)])

# ---- the first value, and what stands after a restart
case("turned-first-of-200", "a first value of 200 is stored and frees nothing, whatever it is; 10 is then 66 ahead: restarted",
     C(create(1)), said(200), up(), said(10), up(), C(create(2)), said(200),  # 190 ahead: late
     out=[accepted(), ECHOED, UP, ECHOED, DEAD, SECOND, ECHOED, *SECOND_STAYS])

case("turned-first-in-create", "a first value of 129 in a Create is stored: 128 is then late, and 130 a restart",
     C(create(1, more=recovery(129))), said(128), up(), said(130), up(),
     out=[accepted(), ECHOED, UP, ECHOED, DEAD, *GONE])

case("turned-first-in-reply", "a first value of 255 in an awaited type 2 is stored: 200 is then late, and 0 a restart",
     C(create()), T(), C(echo_reply(0, recovery(255))), said(200), up(), said(0), up(), plan=plan(e=1),
     out=[accepted(), OK, own_echo(0), OK, ECHOED, UP, ECHOED, DEAD, *GONE])

case("late-after-a-restart", "5, then 6: restarted; a 5 that was under way meanwhile changes nothing, nor does the 6 after it",
     said(5), C(create(1)), said(6), C(create(2)), said(5), said(6),
     out=[ECHOED, accepted(), ECHOED, SECOND, ECHOED, ECHOED, *SECOND_STAYS])

case("late-after-a-lost-echo", "giving up the echo keeps the stored Recovery: one behind it later is late, and it is the same again",
     said(5), T(2), C(create()), said(4), said(5), plan=plan(t=1, n=1, e=1),
     out=[ECHOED, OK, own_echo(0), OK, accepted(), ECHOED, ECHOED, *STAYS])

# ---- thrown away: neither stored nor freed
case("late-then-same", "late, then the stored value: the same still",
     C(create()), said(5), said(4), said(5), out=[accepted(), ECHOED, ECHOED, ECHOED, *STAYS])

case("late-not-stored-in-echo", "in type 1: 228 after 100 is thrown away; 101 is judged by 100 and is a restart, not late as behind 228",
     C(create()), said(100), said(228), up(), said(101), up(),
     out=[accepted(), ECHOED, ECHOED, UP, ECHOED, DEAD, *GONE])

case("late-not-stored-in-create", "in Create: the same; a 100 in between is the same value still",
     C(create(1, more=recovery(100))), C(create(2, imsi=person(2), more=recovery(228))), said(100), up(), said(101), up(),
     out=[accepted(), seated(1, 2), ECHOED, UP, ECHOED, DEAD, line("L", 0), freed(0), freed(1)])

case("late-not-stored-in-reply", "in an awaited type 2: the same; the further replies are awaited too",
     C(create()), said(100), T(), C(echo_reply(0, recovery(228))), T(), C(echo_reply(1, recovery(100))), up(), T(),
     C(echo_reply(2, recovery(101))), up(), plan=plan(e=1),
     out=[accepted(), ECHOED, OK, own_echo(0), OK, OK, own_echo(1), OK, UP, OK, own_echo(2), OK, DEAD, *GONE])

case("late-without-sessions", "thrown away also where no session is live",
     said(5), said(4), C(create()), said(5), out=[ECHOED, ECHOED, accepted(), ECHOED, *STAYS])

case("late-keeps-closing", "late frees no closing place: its Delete Bearer is resent at its time, and its answer taken",
     C(create()), X(0), said(5), T(2), said(4), T(1), C(bearer_deleted(0x100, 0, cause())),
     out=[accepted(), OK, bearer_delete(0), ECHOED, OK, OK, ECHOED, OK, bearer_delete(0), OK, *GONE])

case("late-keeps-packets", "after a late one packets go up and down as before, and a Modify finds its session",
     C(create(more=recovery(5))), said(4), up(), D(packet()), C(modify(0x100, 0x20)),
     out=[accepted(), ECHOED, UP, line(0, "30 FF 0014 00002222 45 00 0014 1234 4000 40 11 0000 C6336401 64400001", "0A010009"),
          line(0, "48 23 000E 00001111 000020 00 02 0002 00 10 00"), *STAYS])

# ---- the message is still answered
case("late-in-echo-reply", "late in an awaited type 2 ends the echo: the same again is 9, and the next comes E ticks later",
     C(create()), said(5), T(4), T(1), C(echo_reply(0, recovery(4))), C(echo_reply(0, recovery(4))), T(4), C(echo_reply(1, recovery(5))),
     plan=plan(e=4),
     out=[accepted(), ECHOED, OK, OK, OK, OK, own_echo(0), OK, OK, line(9, "-"), OK, OK, OK, OK, own_echo(1), OK, *STAYS])

case("late-not-awaited", "late in a type 2 that is not awaited: 9, as without it",
     C(create()), said(5), C(echo_reply(0, recovery(4))), said(5), out=[accepted(), ECHOED, line(9, "-"), ECHOED, *STAYS])

case("late-keeps-the-own-echo", "late in the exchange's echo neither ends nor delays the unit's own",
     T(2), said(5), said(4), T(2), said(4), T(1), C(echo_reply(0)), plan=plan(t=3, e=2),
     out=[OK, OK, own_echo(0), ECHOED, ECHOED, OK, OK, ECHOED, OK, own_echo(0), OK, line("L", 0)])

case("late-and-repeat", "a late repeat of a Create is answered from the record, to the peer that a Modify has moved",
     C(create(1, more=recovery(5))), C(create(1, more=recovery(4))), C(modify(0x100, 0x20, sender(0x3333))), C(create(1, more=recovery(4))),
     out=[accepted(), accepted(), line(0, "48 23 000E 00003333 000020 00 02 0002 00 10 00"), accepted(to="00003333"), line("L", 1),
          line(0, 1, "L", 0, "440101234567890", 5, 13107, "0A010008", 8738, "0A010009", 1)])

case("late-and-replacement", "a late Create replaces the session with its IMSI and EBI, and no other",
     C(create(1, more=recovery(5))), C(create(2, imsi=person(2))), C(create(3, more=recovery(4))),
     out=[accepted(), seated(1, 2), accepted(seq="000003", control="00000200", user="00000280"), line("L", 2),
          line(0, 2, "L", 0, "440101234567890", 5, 4369, "0A010008", 8738, "0A010009", 3), record(1, 2)])

case("late-and-no-room", "a late Create gets no room by freeing: 73 at the ceiling, as with the same value, and the session stays",
     C(create(1, more=recovery(5))), C(create(2, imsi=person(2), more=recovery(4))), C(create(3, imsi=person(3), more=recovery(5))),
     plan=(N(), A(g=0, c=1)),
     out=[accepted(), line(73, "48 21 000E 00001111 000002 00 02 0002 00 49 00"), line(73, "48 21 000E 00001111 000003 00 02 0002 00 49 00"),
          *STAYS])

case("late-replaced-and-no-room", "a late Create to an access point at its ceiling: 73, and the replaced session stays freed, alone",
     C(create(1, more=recovery(5))), C(create(2, imsi=person(2), apn=apn(b"\x03net"))), C(create(3, apn=apn(b"\x03net"), more=recovery(4))),
     plan=(N(), A(), A(b"\x03net", 0, 1)),
     out=[accepted(), seated(1, 2), line(73, "48 21 000E 00001111 000003 00 02 0002 00 49 00"), line("L", 1), freed(), record(1, 2, point=1)])
