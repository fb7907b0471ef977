"""Cases of the bench's own reading: bad lines, refused plans, where the plan is taken, the end of the input. All by hand.

"A bad line (also a fifth A, a name over 63 octets, or a number over 255) prints E and its number and ends; a refused plan prints 16
and - and ends." What was printed before stays; no L lines come then.
"""
from build import *

GOOD = PLAN + (C(echo(0x40)),)  # three good lines, so that the next is line 4
SAID = line(0, "40 02 0009 000040 00 03 0001 00 07")
REFUSED = [line(16, "-")]


def bad(number):
    return [line("E", number)]


# ---- the input's end
case("input-empty", "no line at all: the first line is no good N", plan=(), out=bad(1))
case("input-a-line-end", "one empty line", "", plan=(), out=bad(1))
case("input-without-last-line-end", "a last line without a line end is a line", C(echo(0x40)), end="", out=[SAID, line("L", 0)])
case("input-tick-without-line-end", "the same for T", "T", end="", out=[line(0, "-"), line("L", 0)])
case("input-plan-alone", "N and A lines alone: the plan is taken at the end, and the L lines follow", out=[line("L", 0)])
case("input-plan-without-line-end", "the same without a last line end", end="", out=[line("L", 0)])

# ---- the first line
for name, shows, text in [
        ("first-line-is-a", "an A line first", A()),
        ("first-line-is-t", "a T line first", "T"),
        ("first-line-lower-case", "n is not N", N().lower()),
        ("n-too-few", "a field of N missing", N().rsplit("\t", 1)[0]),
        ("n-too-many", "a field too many", N() + "\t1"),
        ("n-trailing-tab", "a tab at the end", N() + "\t"),
        ("n-space", "a space at the end", N() + " "),
        ("n-spaces-for-tabs", "spaces where tabs belong", N().replace("\t", " ")),
        ("n-carriage-return", "a carriage return at the end", N() + "\r"),
        ("n-address-short", "a control address of 7 digits", N(control="A000001")),
        ("n-address-long", "a user address of 10 digits", N(user="000A000002")),
        ("n-address-lower-case", "lower-case hex in an address", N(user="0a000002")),
        ("n-address-no-hex", "a letter that is no hex digit", N(pool="6440000G")),
        ("n-address-empty", "an empty pool base", N(pool="")),
        ("n-recovery-over-255", "Recovery 256", N(recovery=256)),
        ("n-t-over-255", "T 256: a bad line, not a refused plan", N(t=256)),
        ("n-sends-over-255", "N 256", N(n=256)),
        ("n-e-over-255", "E 1000", N(e=1000)),
        ("n-number-huge", "a number of 40 digits", N(e="9" * 40)),
        ("n-number-signed", "a sign", N(t="+3")),
        ("n-number-negative", "a negative number", N(t="-3")),
        ("n-number-empty", "an empty number", N(n="")),
        ("n-number-hex", "a hex digit in a decimal number", N(n="A"))]:
    case("bad-" + name, "bad first line: " + shows, A(), C(echo(0x40)), plan=(text,), out=bad(1))

case("n-leading-zeros", "leading zeros are allowed in decimal numbers",
     "X\t" + "0" * 20 + str(PLACES),
     plan=(N(recovery="007", t="0000000000000000000000003", n="02", e="060"), "A\t0464617461\t01\t0%d" % PLACES), out=[line(10, "-"), line("L", 0)])

case("x-many-leading-zeros", "however many zeros", "X\t" + "0" * 5000 + str(PLACES - 1), "X\t" + "0" * 5000 + str(PLACES), out=[line(10, "-"), line(10, "-"), line("L", 0)])

# ---- A lines
for name, shows, text in [
        ("a-too-few", "a field of A missing", "A\t0464617461\t1"),
        ("a-too-many", "a field too many", A() + "\t1"),
        ("a-alone", "nothing behind A", "A"),
        ("a-odd-hex", "a name of an odd count of digits", "A\t046\t1\t%d" % PLACES),
        ("a-lower-case", "lower-case hex in a name", "A\t04646f\t1\t%d" % PLACES),
        ("a-name-of-64", "a name of 64 octets", A(b"a" * (NAME_LENGTH + 1))),
        ("a-g-over-255", "g 256", A(g=256)),
        ("a-c-over-255", "c 256", A(c=256)),
        ("a-c-empty", "an empty c", A(c="")),
        ("a-g-negative", "a negative g", A(g=-1))]:
    case("bad-" + name, "bad A line: " + shows, A(b"\x03net", 0, 1), C(echo(0x40)), plan=(N(), text), out=bad(2))

case("bad-a-fifth", "a fifth A line is bad", plan=(N(),) + tuple(A(b"\x01" + name, 0, 1) for name in (b"a", b"b", b"c", b"d", b"e")), out=bad(6))
case("bad-a-wins-over-16", "a bad A line wins over a plan that is refused for the A line before it", plan=(N(t=0), A(g=9, c=8), "A\tzz\t1\t1"), out=bad(3))
case("bad-a-fifth-wins-over-16", "a fifth A line wins over a refused plan", plan=(N(n=0),) + (A(),) * 5, out=bad(6))
case("bad-a-later", "an A line behind the first other line is bad", C(echo(0x40)), A(b"\x03net", 0, 1), C(echo(0x40)), out=[SAID] + bad(4))
case("bad-n-later", "a second N line is bad", *GOOD[2:], N(), A(), out=[SAID] + bad(4))
case("bad-n-second", "a second N line as line 2: the plan without an A line is refused before it is read", plan=(N(), N(), A()), out=REFUSED)

# ---- later lines
for name, shows, text in [
        ("empty-line", "an empty line", ""),
        ("unknown-letter", "another letter", "Q\t00"),
        ("lower-case-letter", "a lower-case letter", C(echo(0x40)).lower()),
        ("l-line", "an L line", "L\t0"),
        ("comment", "a comment", "# echo"),
        ("c-alone", "C without a field", "C"),
        ("c-too-many", "a field too many", "C\t40010004000001\t00"),
        ("c-trailing-tab", "a tab at the end", C(echo(0x40)) + "\t"),
        ("c-odd-hex", "an odd count of hex digits", "C\t400"),
        ("c-lower-case-hex", "lower-case hex", "C\t4001000400000a00"),
        ("c-no-hex", "a letter that is no hex digit", "C\t4001000400000G00"),
        ("c-prefix", "0x before the hex", "C\t0x40"),
        ("c-space-within", "a space within the hex", "C\t4001 0004"),
        ("c-space-behind", "a space behind the hex", C(echo(0x40)) + " "),
        ("c-carriage-return", "a carriage return at the end", C(echo(0x40)) + "\r"),
        ("c-of-2049", "2,049 octets", C(bytes(DATAGRAM + 1))),
        ("c-of-10000", "a line far longer than any good one", C(bytes(10000))),
        ("u-of-2049", "2,049 octets", U(bytes(DATAGRAM + 1))),
        ("u-alone", "U without a field", "U"),
        ("u-odd-hex", "an odd count of hex digits", "U\t3"),
        ("d-alone", "D without a field", "D"),
        ("d-too-many", "two fields behind D", D(packet()) + "\t" + packet().hex().upper()),
        ("d-trailing-tab", "D with a tab at the end", D(packet()) + "\t"),
        ("d-odd-hex", "an odd count of hex digits behind D", D(packet()) + "0"),
        ("d-lower-case-hex", "lower-case hex behind D", "D\t" + packet("6440000A").hex()),
        ("d-no-hex", "a letter behind D that is no hex digit", D(packet())[:-1] + "G"),
        ("d-lower-case-letter", "d is not D", D(packet()).lower()),
        ("d-of-2049", "a packet of 2,049 octets", D(packet(rest=bytes(DATAGRAM - 19)))),
        ("d-of-10000", "a packet line far longer than any good one", D(packet(rest=bytes(9980)))),
        ("t-with-field", "T with a field", "T\t1"),
        ("t-trailing-tab", "T with a tab", "T\t"),
        ("t-space", "T with a space", "T "),
        ("t-doubled", "two letters", "TT"),
        ("x-alone", "X without a place", "X"),
        ("x-empty", "an empty place", "X\t"),
        ("x-over-255", "place 256: a bad line, not a 10", "X\t256"),
        ("x-signed", "a sign", "X\t-1"),
        ("x-hex", "a hex place", "X\tA"),
        ("x-too-many", "a field too many", "X\t0\t0"),
        ("space-before", "a space before the letter", " T"),
        ("tab-before", "a tab before the letter", "\tT")]:
    case("bad-" + name, "bad line: " + shows, text, C(echo(0x40)), plan=GOOD, out=[SAID] + bad(4))

case("bad-last-line-without-end", "a bad last line without a line end", "T\t", plan=GOOD, end="", out=[SAID] + bad(4))
case("bad-first-after-plan", "the first line behind a good plan is bad", "Q", out=bad(3))
case("bad-line-keeps-what-was-said", "what was printed before a bad line stays, D lines too; no L lines follow", C(create()), X(0), "X", "T",
     out=[accepted(), line(0, "-"), line("D", "48 63 000D 00001111 000000 00 49 0001 00 05")] + bad(5))
case("u-of-2048", "2,048 octets are taken: the payload is all but 8", C(create()), U(gpdu(0x180, b"\xA5" * (DATAGRAM - 8))),
     out=[accepted(), line(0, "-", "A5" * (DATAGRAM - 8)), line("L", 1), SESSION])
case("c-empty-hex", "empty hex is a datagram of no octets: 3", "C\t", "U\t", out=[line(3, "-"), line(3, "-"), line("L", 0)])
case("d-empty-hex", "empty hex is a packet of no octets: 18", "D\t", out=[line(18, "-"), line("L", 0)])
case("d-printed-line", "a D line as it is printed for a due datagram is a packet's line in an input: 18",
     "D\t4863000D00001111000000004900010005", out=[line(18, "-"), line("L", 0)])
case("d-without-line-end", "a last D line without a line end is a line", C(create()), D(packet()), end="",
     out=[accepted(), line(0, "30 FF 0014 00002222 45 00 0014 1234 4000 40 11 0000 C6336401 64400001", "0A010009"), line("L", 1), SESSION])

# ---- refused plans
for name, shows, lines in [
        ("t-0", "T 0", (N(t=0), A())),
        ("n-0", "N 0", (N(n=0), A())),
        ("n-11", "N 11", (N(n=11), A())),
        ("e-0", "E 0", (N(e=0), A())),
        ("pool-not-of-256", "a pool base that is no multiple of 256", (N(pool="64400001"), A())),
        ("pool-half", "a pool base that is a multiple of 128 only", (N(pool="64400080"), A())),
        ("no-access-point", "no A line", (N(),)),
        ("empty-name", "an empty name", (N(), A(b""))),
        ("same-names", "two access points of one name", (N(), A(b"\x01a", 0, 1), A(b"\x01b", 0, 1), A(b"\x01a", 1, 2))),
        ("c-0", "c 0", (N(), A(g=0, c=0))),
        ("c-65", "c 65", (N(), A(g=0, c=PLACES + 1))),
        ("g-over-c", "g over c", (N(), A(g=3, c=2))),
        ("guarantees-65", "guarantees that add to 65", (N(), A(b"\x01a", PLACES - 4, PLACES), A(b"\x01b", 5, PLACES))),
        ("last-of-four", "the fourth access point breaks the limit",
         (N(), A(b"\x01a", 0, 1), A(b"\x01b", 0, 1), A(b"\x01c", 0, 1), A(b"\x01d", 2, 1)))]:
    case("plan-refused-" + name, "refused plan: " + shows, C(echo(0x40)), T(), plan=lines, out=REFUSED)

case("plan-refused-at-the-end", "a refused plan with no other line behind it", plan=(N(t=0), A()), out=REFUSED)
case("plan-refused-before-a-bad-line", "a refused plan wins over the bad line at which it is taken", "Q", plan=(N(t=0), A()), out=REFUSED)
case("plan-refused-before-an-empty-line", "the same with an empty line", "", "T", plan=(N(), A(g=2, c=1)), out=REFUSED)
case("plan-at-its-limits", "T 255, N 10, E 255, four names, one of 63 octets, guarantees that add to 64, c 64, pool base FFFFFF00",
     crowd(1, 1, b"\x01d"), crowd(2, 2, b"\x01a"),
     plan=(N("FFFFFFFF", "00000000", "FFFFFF00", 255, 255, 10, 255),
           A(b"\x01a", PLACES, PLACES), A(bytes([NAME_LENGTH - 1]) + b"z" * (NAME_LENGTH - 1), 0, 1), A(b"\x01", 0, 1),
           A(b"\x01d", 0, PLACES)))
case("plan-at-its-lower-limits", "T 1, N 1, E 1, a name of one octet, g 0, c 1, pool base 0", C(create(1, apn=apn(b"\x00"))), T(2),
     plan=(N("00000000", "FFFFFFFF", "00000000", 0, 1, 1, 1), A(b"\x00", 0, 1)))
