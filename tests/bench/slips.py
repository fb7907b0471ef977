#!/usr/bin/env python3
"""Puts slips into the model, one at a time, and looks whether a case tells the slip from the model.

Shows how much a wrong program could get past the cases. Each slip is a text of gtp.py (G), lines.py (B) or model.py (M), taken once, and
what stands in its place. The slips marked ALIKE change nothing that can be seen: four octets that are not there run past the end anyway, and a
reply with an overrun has no Cause to be found. Ends with 1 if another slip is not told, or if a text is no longer there.
"""
import os
import sys
import types

sys.dont_write_bytecode = True

HERE = os.path.dirname(os.path.abspath(__file__))
FOLDER = os.path.join(HERE, "cases")
G, B, M = "gtp", "lines", "model"
ALIKE = True

# of Recovery in the model: the case of a restart, that of a late one before it, and whether the fields found have a late value
RESTART = "        elif judged(value, self.stored) == RESTARTED:\n            self.free_all()\n            self.stored = value\n"
FOR_LATE = "        elif judged(value, self.stored) == LATE:\n            "
IS_LATE = "self.stored is not None and judged(gtp.recovery(found or []) or self.stored, self.stored) == LATE"
ECHO_ENDS = "        self.echo_timer, self.echo_sent = self.plan.interval, 0\n        self.read_recovery(gtp.recovery(found))\n"
CREATE_READS = "            self.read_recovery(gtp.recovery(found))\n            #"

# of the kept replies: where one is looked for, where a new one goes in front, where a restart empties the store, where the answer is given,
# and where the echo is given up
FOUND = "kept = next((kept for kept in self.store if kept.three == three), None)\n"
IN_FRONT = "            self.store = [kept] + self.store[:KEPT - 1]\n"
EMPTIED = "            self.store = []\n"
ANSWERED = "        return kept.answer\n"
GIVEN_UP = "                self.free_all()\n                self.echo_timer"

SLIPS = [
    (G, "at + 4 > len(octets)", "False", ALIKE),
    (G, "end > len(octets)", "end > len(octets) + 1"),
    (G, "octets[at + 3] & 15", "octets[at + 3]"),
    (G, "return next((value for k, i, value in found if (k, i) == (kind, instance)), None)",
     "return next((value for k, i, value in reversed(found) if (k, i) == (kind, instance)), None)"),
    (G, "bearer is not None and fields(bearer) is None", "False"),
    (G, "all(half <= 9 for half in halves[:15])", "all(half <= 9 for half in halves[:14])"),
    (G, "and halves[15] == 15", ""),
    (G, "all(half <= 9 for half in halves[:15])", "all(half <= 9 for half in halves[1:15])"),
    (G, "halves[15] == 15", "halves[15] >= 14"),
    (G, "halves[15] == 15", "value[-1] >> 4 == 15"),
    (G, "value[0] & 0x80 and ", ""),
    (G, "value[0] & 0x3F == interface", "value[0] & 0x7F == interface"),
    (G, "and number(value[1:5]) != 0", ""),
    (G, "return value[0] if value else None", "return (value[0] if value else None) or None"),
    (M, "used[point] < c and ", ""),
    (M, "(used[point] < g or total < PLACES)", "(total < PLACES)"),
    (M, "(used[point] < g or total < PLACES)", "(used[point] < g or sum(used) < PLACES)"),
    (M, "place.state != FREE]", "place.state == LIVE]"),
    (M, "if d[0] >> 5 != 2:", "if d[0] >> 5 < 2:"),
    (M, "if d[0] & 0x10:\n            return 4", "if d[0] & 0x10 and d[1] < 200:\n            return 4"),
    (M, "if flag != gtp.T_FLAG[kind]:", "if flag < gtp.T_FLAG[kind]:"),
    (M, " or len(d) < start", ""),
    (M, "kind == gtp.CREATE and teid != 0", "False"),
    (M, "if place.control_teid() == teid", "if place.index == teid % 256"),
    (M, "value[0] in (1, 6)", "value[0] <= 6"),
    (M, "gtp.taken(found, gtp.PAA, 0, 5)", "gtp.taken(found, gtp.PAA, 0, 1)"),
    (M, "gtp.taken(inner, gtp.QOS, 0, 22)", "gtp.taken(inner, gtp.QOS, 0, 21)"),
    (M, "5 <= value[0] & 15)", "5 <= value[0])"),
    (M, "paa[0] & 7 != 1", "paa[0] != 1"),
    (M, "paa[0] & 7 != 1", "paa[0] & 3 != 1"),
    (M, "            self.read_recovery(gtp.recovery(found))\n", ""),
    (M, "if (held.point, held.creating) == (point, sequence)", "if (held.creating) == (sequence)"),
    (M, "if (held.point, held.creating) == (point, sequence)", "if (held.point) == (point)"),
    (M, "                held.free()\n            if not", "            if not"),
    (M, "return 0, self.created(held), None", "held.peer = to; return 0, self.created(held), None"),
    (M, "return 0, self.created(held), None", "held.state = LIVE; return 0, self.created(held), None"),
    (M, "place.use + 1 if", "place.use + 1 if place.use == 0 else place.use if"),
    (M, "plan.pool + 1 + place.index", "plan.pool + place.index"),
    (M, "value[0] & 15 == place.ebi", "value[0] == place.ebi"),
    (M, "value[0] & 15 == place.ebi", "True"),
    (M, "return why.cause, gtp.cause_reply(35, place.peer", "return why.cause, gtp.cause_reply(35, peer[0]"),
    (M, "gtp.taken(inner, gtp.FTEID, 1, 9, gtp.good_fteid(4))", "gtp.taken(inner, gtp.FTEID, 1, 9, gtp.good_fteid(6))"),
    (M, "gtp.taken(found, gtp.EBI, 0, 1)[0] & 15 != place.ebi", "gtp.taken(found, gtp.EBI, 0, 1)[0] != place.ebi"),
    (M, "                raise Refused(64)", "                raise Refused(64, (73, 0))"),
    (M, "if self.stored is None:", "if not self.stored:"),
    (M, RESTART, RESTART.replace("            self.stored = value\n", "")),
    (M, "self.places[index].state = CLOSING", "self.places[index].state = CLOSING; self.places[index].timer = 0"),
    (M, "        for place in self.places:\n            if place.state == CLOSING and place.timer == 0",
     "        for place in reversed(self.places):\n            if place.state == CLOSING and place.timer == 0"),
    (M, "                if place.sent == 0:\n                    place.own", "                if True:\n                    place.own"),
    (M, "            if self.echo_sent == 0:\n                self.echo_own", "            if True:\n                self.echo_own"),
    (M, "place.timer == 0 and place.sent == self.plan.sends", "place.timer == 0 and place.sent > self.plan.sends"),
    (M, "                self.free_all()\n                self.echo_timer", "                self.echo_timer"),
    (M, "                self.free_all()\n                self.echo_timer, self.echo_sent = self.plan.interval, 0",
     "                self.free_all()\n                self.stored = None\n                self.echo_timer, self.echo_sent = self.plan.interval, 0"),
    (M, RESTART, RESTART + "            self.echo_timer, self.echo_sent = self.plan.interval, 0\n"),
    (M, "                self.echo_timer, self.echo_sent = self.plan.interval, 0\n        for kept",
     "                self.echo_timer, self.echo_sent = max(self.plan.interval-1,1), 0\n        for kept"),
    (M, "self.echo_sent == 0 or sequence", "sequence"),
    (M, " or found is None:\n            return 9", " :\n            return 9"),
    (M, '        self.read_recovery(gtp.recovery(found))\n        return 0, b"", None', '        return 0, b"", None'),
    (M, "place.sent == 0 or ", ""),
    (M, " or place.own != sequence", ""),
    (M, " or len(cause) < 2", " or len(cause) < 1"),
    (M, "d[0] >> 5 != 1 or not d[0] & 0x10", "d[0] >> 5 != 1"),
    (M, "if d[0] & 7:", "if d[0] & 6:"),
    (M, "if d[0] & 7:", "if d[0] & 5:"),
    (M, "following >= 128", "following > 128"),
    (M, "following >= 128", "following >= 192"),
    (M, "at + 4 * d[at] > len(d)", "at + 4 * d[at] > len(d) + 1"),
    (M, "d[11] if d[0] & 4 else 0", "d[11]"),
    (M, "            if d[0] & 2:\n                sequence", "            if True:\n                sequence"),
    (M, "place.user_teid() == number(d[4:8])", "place.user_teid() % 256 == number(d[4:8]) % 256"),
    (B, 'or int(digits or b"0") > 255', 'or int(digits or b"0") > 999'),
    (M, "len(set(names)) == len(names)", "True"),
    (M, "<= self.sends <= 10", "<= self.sends <= 11"),
    (M, "self.pool % 256 == 0", "self.pool % 128 == 0"),
    (M, "sum(g for _, g, _ in self.points) <= PLACES", "True"),
    (M, "and c >= 1", ""),
    (M, "if place.use > 0", "if place.state != FREE"),
    (M, '"L\\t%d" % len(unit.live())', '"L\\t%d" % sum(p.state == LIVE for p in unit.places)'),
    (M, "self.next = self.next + 1 if self.next < LAST_NUMBER else 0\n        return", "self.next = self.next\n        return"),
    (M, "self.read_recovery(gtp.recovery(gtp.fields(body)))", "self.read_recovery(gtp.recovery(gtp.message_fields(body)))"),
    (M, "cause = None if found is None else first(found, gtp.CAUSE)", "cause = first(found or [], gtp.CAUSE)", ALIKE),
    (M, "                if len(parts) != 4 or len(plan.points) == NAMES:", "                if len(parts) != 4:"),
    (M, "place, found = self.holder(teid), gtp.fields(body)", "place, found = self.holder(teid), gtp.message_fields(body)"),
    (M, "        place, found = self.holder(teid), gtp.message_fields(body)\n        if place is None:\n            return 64, gtp.cause_reply(37",
     "        place, found = self.holder(teid), gtp.fields(body)\n        if place is None:\n            return 64, gtp.cause_reply(37"),
    (M, "found = gtp.fields(body)\n        if self.echo_sent", "found = gtp.message_fields(body)\n        if self.echo_sent"),
    (M, 'raise Refused(67)  # "in Create', 'to = 0x1111; raise Refused(67)  # "in Create'),
    (M, "            to = gtp.fteid_parts(sender)[0]", "            to = gtp.fteid_parts(sender)[0] if first(found, 1) else 0"),
    # Recovery that turns over: the ranges
    (M, "RESTARTED if d <= 127", "RESTARTED if d > 0"),
    (M, "RESTARTED if d <= 127", "RESTARTED if d <= 128"),
    (M, "RESTARTED if d <= 127", "RESTARTED if d < 127"),
    (M, "RESTARTED if d <= 127", "RESTARTED if d < 255"),
    (M, "RESTARTED if d <= 127", "RESTARTED if d == 1"),
    (M, "RESTARTED if d <= 127", "RESTARTED if received > stored"),
    (M, "(received - stored) % 256", "received - stored"),
    (M, "(received - stored) % 256", "abs(received - stored)"),
    (M, "(received - stored) % 256", "(received - stored) % 255"),
    (M, "(received - stored) % 256", "(stored - received) % 256"),
    (M, "(received - stored) % 256", "(received - stored) % 256 or 1"),
    # the value thrown away, and the first one
    (M, RESTART, FOR_LATE + "self.stored = value\n" + RESTART),
    (M, RESTART, FOR_LATE + "self.stored = None\n" + RESTART),
    (M, RESTART, FOR_LATE + "self.free_all()\n" + RESTART),
    (M, RESTART, FOR_LATE + "[place.free() for place in self.places if place.state == CLOSING]\n" + RESTART),
    (M, RESTART, FOR_LATE + "self.echo_timer, self.echo_sent = self.plan.interval, 0\n" + RESTART),
    (M, "self.stored = None  # the exchange's Recovery; none yet", "self.stored = 0"),
    (M, "        if self.stored is None:\n            self.stored = value\n",
     "        if self.stored is None:\n            self.stored = value if value < 128 else None\n"),
    # the message still answered
    (M, ECHO_ENDS, ECHO_ENDS.replace("        self.echo_timer", "        if not (" + IS_LATE + "):\n            self.echo_timer")),
    (M, ECHO_ENDS, "        if " + IS_LATE + ":\n            return 9, b'', None\n" + ECHO_ENDS),
    (M, "        self.read_recovery(gtp.recovery(gtp.fields(body)))",
     "        found = gtp.fields(body)\n        if " + IS_LATE + ":\n            return 0, b'', None\n        self.read_recovery(gtp.recovery(found))"),
    (M, CREATE_READS, "            if " + IS_LATE + ":\n                return 9, b'', None\n" + CREATE_READS),
    (M, CREATE_READS, "            if " + IS_LATE + ":\n                raise Refused(73)\n" + CREATE_READS),
    (M, "if (held.point, held.creating) == (point, sequence)", "if (held.point, held.creating) == (point, sequence) and not (" + IS_LATE + ")"),
    (M, "                held.free()\n            if not", "                if not (" + IS_LATE + "):\n                    held.free()\n            if not"),
    (M, "            if not self.admits(point):", "            if not self.admits(point) and not (" + IS_LATE + "):"),
    # the kept replies: what is equal
    (M, "if kept.three == three", "if kept.three[1:] == three[1:]"),
    (M, "if kept.three == three", "if (kept.three[0], kept.three[2]) == (three[0], three[2])"),
    (M, "if kept.three == three", "if kept.three[:2] == three[:2]"),
    (M, "if kept.three == three", "if (kept.three[0], kept.three[1] % 65536, kept.three[2]) == (three[0], three[1] % 65536, three[2])"),
    (M, "if kept.three == three", "if (*kept.three[:2], kept.three[2] % 256) == (*three[:2], three[2] % 256)"),
    (M, "if kept.three == three", "if (*kept.three[:2], kept.three[2] % 65536) == (*three[:2], three[2] % 65536)"),
    (M, "if kept.three == three", "if False"),
    # what is answered, and that nothing changes
    (M, ANSWERED, "        return 0, kept.answer[1], None\n"),
    (M, ANSWERED, "        return kept.answer[0], b'', None\n"),
    (M, FOUND, FOUND + "        if kept is not None:\n            kept.life = LIFE\n"),
    (M, FOUND, FOUND + "        if kept is not None:\n            self.store.remove(kept)\n            self.store.insert(0, kept)\n"),
    (M, FOUND, FOUND + "        if kept is not None:\n            self.store = [kept] + self.store[:KEPT - 1]\n"),
    (M, FOUND, FOUND + "        if kept is not None:\n            self.store.remove(kept)\n"),
    (M, FOUND, FOUND + "        if kept is not None and three[0] == gtp.MODIFY:\n            self.modify(three[2], three[1], body)\n"),
    (M, FOUND, FOUND + "        if gtp.message_fields(body) is None:\n            kept = None\n"),
    (M, FOUND, FOUND + "        if self.holder(three[2]) is None:\n            kept = None\n"),
    (M, FOUND, FOUND + "        if self.holder(three[2]) is not None:\n            kept = None\n"),
    (M, "        if d[0] & 0x10:\n            return 4", "        if d[0] & 0x10 and d[1] != 36:\n            return 4"),
    # which replies are kept
    (M, IN_FRONT, "            if kept.answer[0] == 0:\n    " + IN_FRONT),
    (M, IN_FRONT, "            if kept.answer[0] in (0, 64):\n    " + IN_FRONT),
    (M, IN_FRONT, "            if kept.answer[0] != 67:\n    " + IN_FRONT),
    (M, IN_FRONT, "            if kept.answer[0] != 69:\n    " + IN_FRONT),
    (M, IN_FRONT, "            if kept.answer[0] != 70:\n    " + IN_FRONT),
    (M, IN_FRONT, "            if kept.answer[0] != 64 or self.holder(teid) is not None:\n    " + IN_FRONT),
    (M, IN_FRONT, "            if kind == gtp.DELETE:\n    " + IN_FRONT),
    (M, IN_FRONT, "            if kind == gtp.MODIFY:\n    " + IN_FRONT),
    # how many, and which makes room
    (M, "self.store[:KEPT - 1]", "self.store[:KEPT]"),
    (M, "self.store[:KEPT - 1]", "self.store[:KEPT - 2]"),
    (M, IN_FRONT, "            self.store = (self.store + [kept])[:KEPT]\n"),
    (M, IN_FRONT, "            self.store = [kept] + (self.store if len(self.store) < KEPT else self.store[1:])\n"),
    (M, IN_FRONT, "            self.store = [kept] + (self.store if len(self.store) < KEPT else [])\n"),
    # the life
    (M, "if kept.life > 0", "if kept.life >= 0"),
    (M, "if kept.life > 0", "if kept.life > 1"),
    (M, "if kept.life > 0", ""),
    (M, "kept.life -= 1", "kept.life -= 1 if kept.answer[0] == 0 else 2"),
    (M, "        for kept in self.store:\n", "        for kept in self.store[-1:]:\n"),
    (M, "        for kept in self.store:\n", "        for kept in self.store[:1]:\n"),
    # what empties the store
    (M, RESTART + EMPTIED, RESTART),
    (M, RESTART + EMPTIED, RESTART.replace("self.free_all()", "self.store = [] if self.live() else self.store\n            self.free_all()")),
    (M, RESTART + EMPTIED, RESTART.replace("self.free_all()", "self.store = self.store if self.live() else []\n            self.free_all()")),
    (M, RESTART, FOR_LATE + "self.store = []\n" + RESTART),
    (M, "            self.stored = value\n        elif", "            self.stored = value\n            self.store = []\n        elif"),
    (M, RESTART, "        elif value == self.stored:\n            self.store = []\n" + RESTART),
    (M, GIVEN_UP, GIVEN_UP.replace("                self.echo_timer", "                self.store = []\n                self.echo_timer")),
    (M, "                    place.free()\n", "                    place.free()\n                    self.store = []\n"),
    (M, "        self.places[index].state = CLOSING", "        self.store = []\n        self.places[index].state = CLOSING"),
    (M, "        place.free()  # \"whatever the cause\"", "        self.store = []\n        place.free()"),
    (M, "                held.free()\n            if not", "                held.free()\n                self.store = []\n            if not"),
    (M, "            if not self.admits(point):\n", "            if not self.admits(point):\n                self.store = []\n"),
    # the downlink
    (G, "number(d[16:20])", "number(d[12:16])"),
    (G, "if len(d) < 20:", "if len(d) < 21:"),
    (G, "return version == 4 and ", "return "),
    (G, "return version == 4 and ", "return version & 4 and "),
    (G, "20 <= header <= total and", "header <= total and"),
    (G, "20 <= header <= total and", "20 <= header and"),
    (G, "20 <= header <= total and", "header == 20 and"),
    (G, "20 <= header <= total and", "20 <= header < total and"),
    (G, " and total == len(d)", ""),
    (G, " and total == len(d)", " and total <= len(d)"),
    (G, "total == len(d)", "total == len(d) - header"),
    (G, 'b"\\x30\\xFF" + len(packet)', 'b"\\x30\\xFF" + (len(packet) + 8)'),
    (G, 'b"\\x30\\xFF" + len(packet)', 'b"\\x30\\xFF" + (len(packet) % 256)'),
    (G, 'b"\\x30\\xFF" + len(packet)', 'b"\\x38\\xFF" + len(packet)'),
    (M, "self.live():  # a closing one too", "[p for p in self.places if p.state == LIVE]:"),
    (M, "self.live():  # a closing one too", "self.places:"),
    (M, "if self.address_of(place) == gtp.destination(d)", "if self.address_of(place) - 1 == gtp.destination(d)"),
    (M, "if self.address_of(place) == gtp.destination(d)", "if self.address_of(place) % 256 == gtp.destination(d) % 256"),
    (M, "gtp.gpdu(place.peer_user, d)", "gtp.gpdu(place.user_teid(), d)"),
    (M, "gtp.gpdu(place.peer_user, d)", "gtp.gpdu(place.peer, d)"),
    (M, "gtp.gpdu(place.peer_user, d)", "gtp.gpdu(place.peer_user, d[:12] + bytes(4) + d[16:])"),
    (M, "place.peer_user_address.to_bytes", "place.peer_address.to_bytes"),
    (M, "                return 0, gtp.gpdu(", "                place.state = LIVE\n                return 0, gtp.gpdu("),
    (M, "if not gtp.whole_packet(d):", "if not gtp.whole_packet(d) and any(self.address_of(p) == gtp.destination(d) for p in self.live()):"),
]


def source(name):
    with open(os.path.join(HERE, name + ".py")) as file:
        return file.read()


def model_of(texts):
    """The model as a module of its own, made from these texts."""
    for name in (G, B, M):
        module = types.ModuleType(name)
        sys.modules[name] = module
        exec(compile(texts[name], name, "exec"), module.__dict__)
    return sys.modules[M]


def told(model, cases):
    """Does one case print something else, or fail?"""
    for given, want in cases:
        try:
            if model.run(given) != want:
                return True
        except (IndexError, TypeError, StopIteration, OverflowError):
            return True
    return False


def main():
    cases = []
    for name in sorted(file for file in os.listdir(FOLDER) if file.endswith(".in")):
        with open(os.path.join(FOLDER, name), "rb") as given, open(os.path.join(FOLDER, name[:-3] + ".out"), "rb") as want:
            cases.append((given.read(), want.read()))
    texts = {name: source(name) for name in (G, B, M)}
    if told(model_of(texts), cases):
        sys.exit("slips: the model itself does not agree with the cases")
    wrong = apart = alike = 0
    for where, text, instead, *marked in SLIPS:
        if text not in texts[where]:
            wrong += 1
            print("not there: %r" % text)
        elif told(model_of({**texts, where: texts[where].replace(text, instead, 1)}), cases):
            apart += 1
        else:
            alike += 1
            if not marked:
                wrong += 1
                print("not told: %r -> %r" % (text, instead))
    print("slips: %d told apart, %d alike" % (apart, alike))
    sys.exit(wrong > 0)


if __name__ == "__main__":
    main()
