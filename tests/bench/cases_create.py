"""Cases of Create: each field missing, short and wrong, their order, overruns, names, PAA types, repeats and replacement.

By hand: "Cause replies: Cause value is the cause and 00; for 69, 70 and a short field also its type, 00 00, its instance. TEID: [..] for
Create a Sender F-TEID that passes its own checks, but 0 after an overrun; else 0." Causes 67, 69, 70 are 43, 45, 46 hex.
"""
from build import *

case("create-accepted", "a sound Create: the accepted reply and the record",
     C(create()),
     out=[accepted(), line("L", 1), SESSION])

case("create-address-and-sequence", "the address is pool base + 1 + place, whatever was asked for; the sequence number is copied and kept",
     C(create(0xFFFFFF, paa=paa(1, "C0A80001"))), C(create(0x800000, imsi=person(7), ebi=ebi(15))),
     out=[accepted(seq="FFFFFF"),
          accepted(seq="800000", control="00000101", address="64400002", ebi="0F", user="00000181"),
          line("L", 2),
          line(0, 1, "L", 0, "440101234567890", 5, 4369, "0A010008", 8738, "0A010009", 16777215),
          line(1, 1, "L", 0, "440100000000007", 15, 4369, "0A010008", 8738, "0A010009", 8388608)])

case("create-imsi", "IMSI missing, short by one octet, wrong",
     C(create(1, imsi=NONE)), C(create(2, imsi=field(1, imsi()[4:11]))), C(create(3, imsi=imsi("44010123456789A"))),
     out=[line(70, "48 21 0012 00001111 000001 00 02 0006 00 46 00 01 0000 00"),
          line(67, "48 21 0012 00001111 000002 00 02 0006 00 43 00 01 0000 00"),
          line(69, "48 21 0012 00001111 000003 00 02 0006 00 45 00 01 0000 00"),
          line("L", 0)])

case("create-imsi-digits", "15 digits 0 to 9 and F in the last high half; anything else is 69 at each half octet",
     *[C(create(k, imsi=imsi("1" * k + "A" + "1" * (14 - k)))) for k in range(15)],
     *[C(create(20, imsi=imsi("111111111111111", last))) for last in "0AE"],
     C(create(21, imsi=imsi("999999999999999"))), C(create(22, imsi=imsi("000000000000000"))), C(create(23, imsi=imsi("F11111111111111"))))

WRONG_IMSI = "48 21 0012 00001111 %06X 00 02 0006 00 45 00 01 0000 00"
case("create-imsi-filler", "F is the sixteenth half octet, whatever stands behind it: 69 where it is wrong alone, with others, or later",
     C(create(1, imsi=imsi(last="1"))), C(create(2, imsi=imsi("A40101234567890", "0"))), C(create(3, imsi=imsi("A" * 15, "A"))),
     C(create(4, imsi=imsi("44010123456789F"))), C(create(5, imsi=field(1, imsi(last="0")[4:] + b"\xF0"))),
     C(create(6, imsi=imsi("A40101234567890"))), C(create(7, imsi=field(1, imsi()[4:] + b"\xAA"))), C(create(8, imsi=imsi(last="0"))),
     out=[*[line(69, WRONG_IMSI % k) for k in range(1, 7)], accepted(seq="000007"), line(69, WRONG_IMSI % 8), line("L", 1),
          line(0, 1, "L", 0, "440101234567890", 5, 4369, "0A010008", 8738, "0A010009", 7)])

case("create-rat", "RAT Type missing, short, wrong",
     C(create(1, rat=NONE)), C(create(2, rat=field(82, b""))), C(create(3, rat=rat(2))),
     out=[line(70, "48 21 0012 00001111 000001 00 02 0006 00 46 00 52 0000 00"),
          line(67, "48 21 0012 00001111 000002 00 02 0006 00 43 00 52 0000 00"),
          line(69, "48 21 0012 00001111 000003 00 02 0006 00 45 00 52 0000 00"),
          line("L", 0)])

case("create-rat-values", "only 1 and 6, the whole octet",
     *[C(create(value, rat=rat(value), imsi=person(value))) for value in (0, 1, 2, 5, 6, 7, 0x11, 0x86, 255)])

case("create-sender", "Sender F-TEID missing, short, wrong: then the cause reply goes to TEID 0",
     C(create(1, sender=NONE)), C(create(2, sender=field(87, sender()[4:12]))), C(create(3, sender=sender(0))),
     C(create(4, sender=sender(first=0x06))), C(create(5, sender=sender(first=0x87))),
     out=[line(70, "48 21 0012 00000000 000001 00 02 0006 00 46 00 57 0000 00"),
          line(67, "48 21 0012 00000000 000002 00 02 0006 00 43 00 57 0000 00"),
          line(69, "48 21 0012 00000000 000003 00 02 0006 00 45 00 57 0000 00"),  # "TEID not 0"
          line(69, "48 21 0012 00000000 000004 00 02 0006 00 45 00 57 0000 00"),  # "V4 flag set"
          line(69, "48 21 0012 00000000 000005 00 02 0006 00 45 00 57 0000 00"),  # "(interface 6)"
          line("L", 0)])

case("create-apn-missing", "APN missing; it has any length, so it is neither short nor wrong",
     C(create(1, apn=NONE)),
     out=[line(70, "48 21 0012 00001111 000001 00 02 0006 00 46 00 47 0000 00"), line("L", 0)])

case("create-paa", "PAA missing, short; a type that is not 1 is 83 and names no field",
     C(create(1, paa=NONE)), C(create(2, paa=field(79, octets("01 00 00 00")))), C(create(3, paa=paa(2))),
     out=[line(70, "48 21 0012 00001111 000001 00 02 0006 00 46 00 4F 0000 00"),
          line(67, "48 21 0012 00001111 000002 00 02 0006 00 43 00 4F 0000 00"),
          line(83, "48 21 000E 00001111 000003 00 02 0002 00 53 00"),
          line("L", 0)])

case("create-bearer-context", "Bearer Context missing is named; an empty one is there, and its EBI is missing",
     C(create(1, bearer=NONE)), C(create(2, bearer=bearer())),
     out=[line(70, "48 21 0012 00001111 000001 00 02 0006 00 46 00 5D 0000 00"),
          line(70, "48 21 0012 00001111 000002 00 02 0006 00 46 00 49 0000 00"),
          line("L", 0)])

case("create-ebi", "EBI in the Bearer Context missing, short, wrong; one beside the Bearer Context does not count",
     C(create(1, ebi=NONE, more=ebi())), C(create(2, ebi=field(73, b""))), C(create(3, ebi=ebi(4))),
     out=[line(70, "48 21 0012 00001111 000001 00 02 0006 00 46 00 49 0000 00"),
          line(67, "48 21 0012 00001111 000002 00 02 0006 00 43 00 49 0000 00"),
          line(69, "48 21 0012 00001111 000003 00 02 0006 00 45 00 49 0000 00"),
          line("L", 0)])

case("create-ebi-values", "the low half, 5 to 15; the high half is ignored and written as 0",
     *[C(create(value + 1, ebi=ebi(value))) for value in (0, 1, 4, 5, 15, 0xF5, 0x10, 0x46, 0xF4)])

case("create-user-fteid", "F-TEID instance 2 missing (also with another instance), short, wrong: named with its instance",
     C(create(1, user=NONE)), C(create(2, user=user(instance=1))), C(create(3, user=field(87, user()[4:12], 2))),
     C(create(4, user=user(0))), C(create(5, user=user(first=0x04))), C(create(6, user=user(first=0x86))),
     out=[line(70, "48 21 0012 00001111 000001 00 02 0006 00 46 00 57 0000 02"),
          line(70, "48 21 0012 00001111 000002 00 02 0006 00 46 00 57 0000 02"),
          line(67, "48 21 0012 00001111 000003 00 02 0006 00 43 00 57 0000 02"),
          line(69, "48 21 0012 00001111 000004 00 02 0006 00 45 00 57 0000 02"),
          line(69, "48 21 0012 00001111 000005 00 02 0006 00 45 00 57 0000 02"),
          line(69, "48 21 0012 00001111 000006 00 02 0006 00 45 00 57 0000 02"),
          line("L", 0)])

case("create-qos", "Bearer QoS missing, short by one octet",
     C(create(1, qos=NONE)), C(create(2, qos=field(80, bytes(21)))),
     out=[line(70, "48 21 0012 00001111 000001 00 02 0006 00 46 00 50 0000 00"),
          line(67, "48 21 0012 00001111 000002 00 02 0006 00 43 00 50 0000 00"),
          line("L", 0)])

GOOD = dict(imsi=imsi(), rat=rat(), sender=sender(), apn=apn(), paa=paa(), ebi=ebi(), user=user(), qos=qos())


def healed(bad):
    """One Create after another; `bad` has every field's bad form, and in each next Create one more field, in the list's order, is good."""
    names = list(GOOD)
    return [C(create(k + 1, **{name: GOOD[name] if at < k else bad[name] for at, name in enumerate(names)})) for k in range(len(names) + 1)]


case("create-order-missing", "nothing there, then one field more in each Create: the next of the list is missing",
     C(with_teid(32, 0, 0)), *healed({name: NONE for name in GOOD}))
case("create-order-short", "every field short, then one more good in each Create; an APN of no octets is not short, and its 78 waits for the list's end",
     *healed(dict(imsi=field(1, b""), rat=field(82, b""), sender=field(87, b""), apn=apn(b""), paa=field(79, b""), ebi=field(73, b""),
                  user=field(87, b"", 2), qos=field(80, b""))))
case("create-order-wrong", "every field wrong, then one more good in each Create; an unknown name and a wrong PAA type wait for the list's end",
     *healed(dict(imsi=imsi(last="0"), rat=rat(0), sender=sender(first=0x84), apn=apn(b"\x01x"), paa=paa(3), ebi=ebi(0), user=user(0),
                  qos=field(80, bytes(21)))),
     C(create(20, apn=apn(b"\x01x"), paa=paa(3))), C(create(21, paa=paa(3))))

case("create-short-before-wrong", "a field that is short and wrong is short; each field gets its three tests before the next",
     C(create(1, imsi=field(1, octets("AA AA")))), C(create(2, sender=field(87, octets("00 00 00 00 00")))),
     C(create(3, imsi=imsi(last="1"), rat=NONE)), C(create(4, ebi=ebi(1), user=NONE)),
     out=[line(67, "48 21 0012 00001111 000001 00 02 0006 00 43 00 01 0000 00"),
          line(67, "48 21 0012 00000000 000002 00 02 0006 00 43 00 57 0000 00"),
          line(69, "48 21 0012 00001111 000003 00 02 0006 00 45 00 01 0000 00"),
          line(69, "48 21 0012 00001111 000004 00 02 0006 00 45 00 49 0000 00"),
          line("L", 0)])

case("create-first-counts", "of equal type and instance the first counts, also where it is short, wrong or empty and a later one is good",
     C(create(1, imsi=field(1, b"") + imsi())), C(create(2, rat=rat(9) + rat(6))), C(create(3, sender=sender(0) + sender())),
     C(create(4, apn=apn(b"\x01x") + apn())), C(create(5, paa=paa(2) + paa())), C(create(6, bearer=bearer() + bearer(ebi(), user(), qos()))),
     C(create(7, ebi=ebi(3) + ebi())), C(create(8, user=user() + user(0))), C(create(9, imsi=imsi() + imsi(last="0"))))

case("create-other-instance", "a known type with another instance is unknown; the high half of the instance octet is ignored",
     C(create(1, imsi=field(1, imsi()[4:], 1))), C(create(2, rat=field(82, b"\6", 15))), C(create(3, sender=fteid(0x86, 1, "0A010008", 2))),
     C(create(4, bearer=field(93, ebi() + user() + qos(), 1))), C(create(5, ebi=field(73, b"\5", 1))), C(create(6, qos=field(80, bytes(22), 1))),
     C(create(7, imsi=field(1, imsi()[4:], 0xF0), sender=fteid(0x86, 0x1111, "0A010008", 0x50), user=user(instance=0xA2))))

case("create-octets-past-the-value", "octets past the known value are ignored, in every field",
     C(create(1, imsi=field(1, imsi()[4:] + b"\1"), rat=field(82, octets("06 09")), sender=field(87, sender()[4:] + bytes(16)),
              paa=field(79, paa()[4:] + b"\2"), ebi=field(73, octets("05 06")), user=field(87, user()[4:] + b"\0", 2),
              qos=field(80, bytes(30)), more=field(3, octets("09 0A")))),
     out=[accepted(), line("L", 1), SESSION])

case("create-unknown-fields", "unknown fields are skipped wherever they stand, empty ones too; the order of fields is free",
     C(with_teid(32, 0, 1, field(76, octets("18 09 21")), field(93, qos() + field(250, b"") + user() + field(94, bytes(5)) + ebi()), paa(),
                 field(255, b""), apn(), field(83, bytes(300)), sender(), rat(), imsi(), field(0, b""))),
     out=[accepted(), line("L", 1), SESSION])

case("create-v6-flag", "the V6 bit is not looked at; the address may be anything",
     C(create(1, sender=sender(0xFFFFFFFF, "00000000", 0xC6), user=user(0x80000000, "FFFFFFFF", 0xC4))),
     out=[accepted(to="FFFFFFFF"), line("L", 1),
          line(0, 1, "L", 0, "440101234567890", 5, 4294967295, "00000000", 2147483648, "FFFFFFFF", 1)])

case("create-reply-teid", "a cause reply goes to a good Sender F-TEID, also where an earlier field is at fault; else to 0",
     C(create(1, imsi=NONE, sender=sender(0xABCDEF01))), C(create(2, imsi=NONE, sender=sender(0))),
     C(create(3, imsi=NONE, sender=sender(5) + sender(6))), C(create(4, imsi=NONE, sender=NONE)), C(create(5, apn=apn(b""), sender=sender(9))),
     out=[line(70, "48 21 0012 ABCDEF01 000001 00 02 0006 00 46 00 01 0000 00"),
          line(70, "48 21 0012 00000000 000002 00 02 0006 00 46 00 01 0000 00"),
          line(70, "48 21 0012 00000005 000003 00 02 0006 00 46 00 01 0000 00"),
          line(70, "48 21 0012 00000000 000004 00 02 0006 00 46 00 01 0000 00"),
          line(78, "48 21 000E 00000009 000005 00 02 0002 00 4E 00"),
          line("L", 0)])

LONG = bytes([NAME_LENGTH - 1]) + b"a" * (NAME_LENGTH - 1)  # the longest name

case("create-apn-unknown", "78: another name, another case, a part of one, one with more behind it, none, over 63 octets; then each known one",
     *[C(create(k, apn=apn(name))) for k, name in enumerate([b"\x04dat", b"\x04DATA", b"\x04dat", b"\x04data\x03net", b"", b"data", LONG + b"a",
                                                            LONG[:-1], b"\x04data"], 1)],
     *[C(create(k, apn=apn(name), imsi=person(k))) for k, name in enumerate([b"\x04data", LONG, b"\x00"], 20)],
     plan=(N(), A(), A(LONG, 0, 1), A(b"\x00", 0, 1)))

case("create-paa-types", "PAA's type is its low three bits; 78 comes before 83",
     *[C(create(kind, paa=paa(kind), imsi=person(kind))) for kind in (0, 1, 2, 3, 4, 5, 6, 7, 8, 9, 0xF9, 0xFA)],
     C(create(99, paa=paa(2), apn=apn(b"\x01x"))))

case("create-overrun", "a field past the message's end, or 1 to 3 octets left: 67 before the list, no field named, to TEID 0",
     C(create(1, more=field(3, b"\5", length=2))), C(create(2, more=b"\3")), C(create(3, more=octets("03 00"))),
     C(create(4, more=octets("03 00 01"))), C(create(5, more=octets("03 00 01 00"))), C(with_teid(32, 0, 6, b"\0")),
     C(create(7, more=field(3, b""))),
     out=[line(67, "48 21 000E 00000000 %06X 00 02 0002 00 43 00" % seq) for seq in range(1, 7)]
     + [accepted(seq="000007"), line("L", 1), line(0, 1, "L", 0, "440101234567890", 5, 4369, "0A010008", 8738, "0A010009", 7)])

case("create-overrun-in-bearer-context", "an overrun in the first Bearer Context of instance 0: 67 before the list, also where IMSI is missing",
     C(create(1, bearer=bearer(ebi(), user(), qos(), b"\0"))), C(create(2, imsi=NONE, bearer=bearer(field(73, b"\5", length=9)))),
     C(create(3, bearer=field(93, b"\0\0\0", 1) + bearer(b"\0\0\0"))),
     out=[line(67, "48 21 000E 00000000 %06X 00 02 0002 00 43 00" % seq) for seq in (1, 2, 3)] + [line("L", 0)])

case("create-overrun-elsewhere", "no overrun: in a second Bearer Context, in one of instance 1, in one within the first",
     C(create(1, more=bearer(b"\0"))), C(create(2, imsi=person(2), bearer=field(93, b"\0\0\0", 1) + bearer(ebi(), user(), qos()))),
     C(create(3, imsi=person(3), bearer=bearer(ebi(), user(), qos(), bearer(b"\0\0")))))

case("create-repeat", "same IMSI, EBI, access point and sequence number: the accepted reply from the record, nothing changes",
     C(create()), C(create()), C(create(1, sender=sender(0x9999), user=user(0x8888), rat=rat(1))),
     out=[accepted(), accepted(), accepted(), line("L", 1), SESSION])

case("create-repeat-must-be-sound", "a repeat has to pass every check of the list",
     C(create()), C(create(1, qos=NONE)), C(create(1, paa=paa(3))), C(create(1, more=b"\0")))

case("create-repeat-after-modify", "a repeat is answered to the record's peer, which a Modify has changed",
     C(create()), C(modify(0x100, 9, sender(0x3333, "0A010012"))), C(create()),
     out=[accepted(), line(0, "48 23 000E 00003333 000009 00 02 0002 00 10 00"), accepted(to="00003333"), line("L", 1),
          line(0, 1, "L", 0, "440101234567890", 5, 13107, "0A010012", 8738, "0A010009", 1)])

case("create-repeat-of-closing", "the repeat of a closing session gets the accepted reply, and the place stays closing",
     C(create()), X(0), C(create()),
     out=[accepted(), line(0, "-"), line("D", "48 63 000D 00001111 000000 00 49 0001 00 05"), accepted(), line("L", 1),
          line(0, 1, "X", 0, "440101234567890", 5, 4369, "0A010008", 8738, "0A010009", 1)])

case("create-replaces", "another sequence number: the session is freed, and the place is taken in its next use",
     C(create(1)), C(create(2)),
     out=[accepted(), accepted(seq="000002", control="00000200", user="00000280"), line("L", 1),
          line(0, 2, "L", 0, "440101234567890", 5, 4369, "0A010008", 8738, "0A010009", 2)])

case("create-replaces-at-other-point", "another access point with the same sequence number is no repeat: the session is freed whatever its access point",
     C(create(1)), C(create(1, apn=apn(b"\x03net"))), C(create(1)), plan=TWO)

case("create-replaces-closing", "a closing session is replaced too, and its own request is awaited no more",
     C(create(1)), X(0), C(create(2)), C(bearer_deleted(0x100, 0, cause())), C(bearer_deleted(0x200, 0, cause())), T(10))

case("create-replacement-takes-lowest", "the freed session's place is only taken again if it is the lowest free one",
     crowd(1, 3), C(delete(0x100)), C(create(9, imsi=person(3))), C(create(10, imsi=person(10))))

case("create-other-ebi", "the same IMSI with another EBI is another session",
     C(create(1)), C(create(1, ebi=ebi(6))), C(create(2, ebi=ebi(6))))
