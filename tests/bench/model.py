#!/usr/bin/env python3
"""A model of document 01 and of requests 1, 2 and 4 of document 02: reads a bench input on standard input and prints what the papers say.

A test oracle, written from the papers and their readings alone, without the program's code; its sections follow document 01's order.
gtp.py has the octets, lines.py the parts of a bench line. A call returns (number, reply, what is printed behind it: payload or peer's
address, or None).
"""
import sys

import gtp
from figures import DATAGRAM, KEPT, LIFE, NAMES, NAME_LENGTH, PLACES
from gtp import Refused, first, number
from lines import Bad, address, decimal, octets

# ---- Numbers
LAST_USE, LAST_NUMBER = 16_777_215, 8_388_607
FREE, LIVE, CLOSING = "F", "L", "X"

# ---- Recovery that turns over
SAME, RESTARTED, LATE = "same", "restarted", "late"


def judged(received, stored):
    """"Let d be received minus stored, modulo 256. 0: same. 1 to 127: restarted. 128 to 255: late.\""""
    d = (received - stored) % 256
    return SAME if d == 0 else RESTARTED if d <= 127 else LATE


class Plan:
    def __init__(self, control, user, pool, own_recovery, resend, sends, interval):
        self.control, self.user, self.pool, self.own_recovery = control, user, pool, own_recovery
        self.resend, self.sends, self.interval = resend, sends, interval
        self.points = []  # (name, guarantee, ceiling)

    def holds(self):
        """The limits of "Numbers" and of "Sharing rule"; outside them is number 16."""
        names = [name for name, _, _ in self.points]
        return (1 <= len(names) <= NAMES and len(set(names)) == len(names) and all(1 <= len(name) <= NAME_LENGTH for name in names)
                and 1 <= self.resend <= 255 and 1 <= self.sends <= 10 and 1 <= self.interval <= 255 and self.pool % 256 == 0
                and all(0 <= g <= c <= PLACES and c >= 1 for _, g, c in self.points)
                and sum(g for _, g, _ in self.points) <= PLACES)


class Place:
    def __init__(self, index):
        self.index, self.use = index, 0
        self.free()

    def free(self):
        """"Freeing sets a record to zero but for its use.\""""
        self.state, self.point, self.imsi, self.ebi, self.creating = FREE, 0, b"", 0, 0
        self.peer = self.peer_address = self.peer_user = self.peer_user_address = 0
        self.timer = self.sent = self.own = 0

    # ---- Tunnel numbers
    def control_teid(self):
        return self.use * 256 + self.index

    def user_teid(self):
        return self.use * 256 + 128 + self.index

    def line(self):
        if self.state == FREE:
            return "\t".join([str(self.index), str(self.use), FREE] + ["-"] * 8)
        return "\t".join([str(self.index), str(self.use), self.state, str(self.point), gtp.imsi_digits(self.imsi), str(self.ebi),
                          str(self.peer), "%08X" % self.peer_address, str(self.peer_user), "%08X" % self.peer_user_address,
                          str(self.creating)])


class Kept:
    """A reply to type 34 or 36 with its number, "its type, sequence number, header TEID and a life of 10 ticks"."""

    def __init__(self, three, answer):
        self.three, self.answer, self.life = three, answer, LIFE


class Unit:
    def __init__(self, plan):
        self.plan, self.places = plan, [Place(index) for index in range(PLACES)]
        self.stored = None  # the exchange's Recovery; none yet
        self.next = 0
        self.echo_timer, self.echo_sent, self.echo_own = plan.interval, 0, 0
        self.store = []  # the kept replies, the newest first

    def live(self):
        return [place for place in self.places if place.state != FREE]

    def free_all(self):
        for place in self.places:
            place.free()

    def address_of(self, place):
        return self.plan.pool + 1 + place.index  # "Its address is pool base + 1 + place"

    # ---- Sharing rule
    def admits(self, point):
        _, g, c = self.plan.points[point]
        used = [sum(place.point == k for place in self.live()) for k in range(len(self.plan.points))]
        total = sum(max(u, other[1]) for u, other in zip(used, self.plan.points))
        return used[point] < c and (used[point] < g or total < PLACES)

    # ---- Control header and fields
    def control(self, d):
        """"Order, control: 1, 2, 3, 5, 4, 7, 8 (T), 6, 8 (TEID), then by type.\""""
        if len(d) < 8:
            return 3, b"", None
        if d[0] >> 5 != 2:
            return 5, gtp.VERSION_REPLY, None
        if d[0] & 0x10:
            return 4, b"", None
        kind, flag = d[1], d[0] >> 3 & 1
        if kind not in gtp.T_FLAG:
            return 7, b"", None
        if flag != gtp.T_FLAG[kind]:
            return 8, b"", None
        start = 12 if flag else 8
        if number(d[2:4]) != len(d) - 4 or len(d) < start:
            return 6, b"", None
        teid, sequence, body = number(d[4:8]) if flag else None, number(d[start - 4:start - 1]), d[start:]
        if kind == gtp.CREATE and teid != 0:
            return 8, b"", None
        if kind == gtp.ECHO:
            return self.take_echo(sequence, body)
        if kind == gtp.ECHO_REPLY:
            return self.take_echo_reply(sequence, body)
        if kind == gtp.BEARER_REPLY:
            return self.take_bearer_reply(teid, sequence, body)
        if kind == gtp.CREATE:
            return self.create(sequence, body)
        if kind in (gtp.MODIFY, gtp.DELETE):
            return self.asked((kind, sequence, teid), body)  # "the store is asked after check 8 (TEID), before 64"
        return 0, b"", None  # "Type 3 is taken and changes nothing."

    def holder(self, teid):
        """The live place whose control number this is; the use counts too."""
        return next((place for place in self.live() if place.control_teid() == teid), None)

    # ---- Create (32)
    def create(self, sequence, body):
        to, found = 0, gtp.message_fields(body)
        try:
            if found is None:
                raise Refused(67)  # "in Create before the list"; "0 after an overrun"
            sender = first(found, gtp.FTEID)
            if sender is not None and len(sender) >= 9 and gtp.good_fteid(6)(sender):
                to = gtp.fteid_parts(sender)[0]  # "a Sender F-TEID that passes its own checks"
            imsi = gtp.taken(found, gtp.IMSI, 0, 8, gtp.good_imsi)[:8]
            gtp.taken(found, gtp.RAT, 0, 1, lambda value: value[0] in (1, 6))
            gtp.taken(found, gtp.FTEID, 0, 9, gtp.good_fteid(6))
            name = gtp.taken(found, gtp.APN, 0, 0)
            paa = gtp.taken(found, gtp.PAA, 0, 5)
            inner = gtp.fields(gtp.taken(found, gtp.BEARER, 0, 0))
            ebi = gtp.taken(inner, gtp.EBI, 0, 1, lambda value: 5 <= value[0] & 15)[0] & 15
            peer_user = gtp.taken(inner, gtp.FTEID, 2, 9, gtp.good_fteid(4))
            gtp.taken(inner, gtp.QOS, 0, 22)
            names = [point[0] for point in self.plan.points]
            if name not in names:
                raise Refused(78)
            if paa[0] & 7 != 1:
                raise Refused(83)
            point = names.index(name)
            self.read_recovery(gtp.recovery(found))
            # "if a live session has this IMSI, EBI, access point and creating sequence number, it is a repeat"
            held = next((place for place in self.live() if (place.imsi, place.ebi) == (imsi, ebi)), None)
            if held is not None:
                if (held.point, held.creating) == (point, sequence):
                    return 0, self.created(held), None
                held.free()
            if not self.admits(point):
                raise Refused(73)
        except Refused as why:
            return why.cause, gtp.cause_reply(33, to, sequence, why.cause, why.field), None
        place = next(place for place in self.places if place.state == FREE)  # "the lowest free place"
        place.use = place.use + 1 if place.use < LAST_USE else 1
        place.state, place.point, place.imsi, place.ebi, place.creating = LIVE, point, imsi, ebi, sequence
        place.peer, place.peer_address = gtp.fteid_parts(sender)
        place.peer_user, place.peer_user_address = gtp.fteid_parts(peer_user)
        return 0, self.created(place), None

    def created(self, place):
        """"the accepted reply is written from the record"."""
        plan = self.plan
        return gtp.created(place.peer, place.creating, place.control_teid(), plan.control, self.address_of(place), place.ebi,
                           place.user_teid(), plan.user, plan.own_recovery)

    # ---- Deletes asked twice
    def asked(self, three, body):
        """"A request equal in those three gets the kept reply octet for octet, with its number, and changes nothing." Any other is answered
        as document 01 says, and what it is answered is kept, a refusal too; "the oldest makes room when full"."""
        kept = next((kept for kept in self.store if kept.three == three), None)
        if kept is None:
            kind, sequence, teid = three
            kept = Kept(three, (self.modify if kind == gtp.MODIFY else self.delete)(teid, sequence, body))
            self.store = [kept] + self.store[:KEPT - 1]
        return kept.answer

    # ---- Modify (34)
    def modify(self, teid, sequence, body):
        place, found = self.holder(teid), gtp.message_fields(body)
        if place is None:
            return 64, gtp.cause_reply(35, 0, sequence, 64), None
        peer, peer_user, bearer_ebi = (place.peer, place.peer_address), (place.peer_user, place.peer_user_address), None
        try:
            if found is None:
                raise Refused(67)  # "right after 'not live'"
            if first(found, gtp.FTEID) is not None:
                peer = gtp.fteid_parts(gtp.taken(found, gtp.FTEID, 0, 9, gtp.good_fteid(6)))
            if first(found, gtp.BEARER) is not None:
                inner = gtp.fields(first(found, gtp.BEARER))
                gtp.taken(inner, gtp.EBI, 0, 1, lambda value: value[0] & 15 == place.ebi)
                bearer_ebi = place.ebi
                if first(inner, gtp.FTEID, 1) is not None:
                    peer_user = gtp.fteid_parts(gtp.taken(inner, gtp.FTEID, 1, 9, gtp.good_fteid(4)))
        except Refused as why:
            return why.cause, gtp.cause_reply(35, place.peer, sequence, why.cause, why.field), None
        # "all pass or nothing changes"
        (place.peer, place.peer_address), (place.peer_user, place.peer_user_address) = peer, peer_user
        return 0, gtp.modified(place.peer, sequence, bearer_ebi), None

    # ---- Delete (36)
    def delete(self, teid, sequence, body):
        place, found = self.holder(teid), gtp.message_fields(body)
        if place is None:
            return 64, gtp.cause_reply(37, 0, sequence, 64), None
        to = place.peer
        try:
            if found is None:
                raise Refused(67)
            if first(found, gtp.EBI) is not None and gtp.taken(found, gtp.EBI, 0, 1)[0] & 15 != place.ebi:
                raise Refused(64)
        except Refused as why:
            return why.cause, gtp.cause_reply(37, to, sequence, why.cause, why.field), None
        place.free()
        return 0, gtp.cause_reply(37, to, sequence, gtp.ACCEPTED), None

    # ---- Echo (1) and Recovery
    def take_echo(self, sequence, body):
        self.read_recovery(gtp.recovery(gtp.fields(body)))  # "An overrun in type 1 counts as no Recovery"
        return 0, gtp.echo(gtp.ECHO_REPLY, sequence, self.plan.own_recovery), None

    def read_recovery(self, value):
        """"First value seen: stored"; restarted: "all sessions are freed", the value is stored, and this "empties the store"; late: "the value
        is thrown away and the sessions stay; the message is still answered"."""
        if value is None:
            return
        if self.stored is None:
            self.stored = value
        elif judged(value, self.stored) == RESTARTED:
            self.free_all()
            self.stored = value
            self.store = []

    # ---- Own requests
    def close(self, index):
        if index >= PLACES or self.places[index].state == FREE:
            return 10, b"", None
        self.places[index].state = CLOSING  # "closing twice answers 0", and changes nothing
        return 0, b"", None

    def awaited(self):
        """"A number is awaited from the first send until answered, given up or its place freed.\""""
        return [self.echo_own] * (self.echo_sent > 0) + [place.own for place in self.places if place.sent > 0]

    def new_number(self):
        while self.next in self.awaited():
            self.next = self.next + 1 if self.next < LAST_NUMBER else 0
        chosen = self.next
        self.next = self.next + 1 if self.next < LAST_NUMBER else 0
        return chosen

    def send_next(self):
        """One due datagram, "the echo first, then places upward"; None is number 17, nothing due."""
        if self.echo_timer == 0:
            if self.echo_sent == 0:
                self.echo_own = self.new_number()
            self.echo_sent, self.echo_timer = self.echo_sent + 1, self.plan.resend
            return gtp.echo(gtp.ECHO, self.echo_own, self.plan.own_recovery)
        for place in self.places:
            if place.state == CLOSING and place.timer == 0:
                if place.sent == 0:
                    place.own = self.new_number()
                place.sent, place.timer = place.sent + 1, self.plan.resend
                return gtp.delete_bearer(place.peer, place.own, place.ebi)
        return None

    def tick(self):
        """"counts each sent, unanswered request down from T; at zero it is due again, or after N sends given up"; of a kept reply's life "the
        tenth drops it"."""
        for place in self.places:
            if place.timer > 0:
                place.timer -= 1
                if place.timer == 0 and place.sent == self.plan.sends:
                    place.free()
        if self.echo_timer > 0:
            self.echo_timer -= 1
            if self.echo_timer == 0 and self.echo_sent == self.plan.sends:
                self.free_all()
                self.echo_timer, self.echo_sent = self.plan.interval, 0
        for kept in self.store:
            kept.life -= 1
        self.store = [kept for kept in self.store if kept.life > 0]
        return 0, b"", None

    def take_echo_reply(self, sequence, body):
        found = gtp.fields(body)
        if self.echo_sent == 0 or sequence != self.echo_own or found is None:
            return 9, b"", None
        self.echo_timer, self.echo_sent = self.plan.interval, 0
        self.read_recovery(gtp.recovery(found))
        return 0, b"", None

    def take_bearer_reply(self, teid, sequence, body):
        place, found = self.holder(teid), gtp.fields(body)
        cause = None if found is None else first(found, gtp.CAUSE)
        if place is None or place.sent == 0 or place.own != sequence or cause is None or len(cause) < 2:
            return 9, b"", None
        place.free()  # "whatever the cause"
        return 0, b"", None

    # ---- User header
    def user(self, d):
        """"User: 1, 2, 3, 12, 6, 7, 13 or 14 (first met, type before length), 15.\""""
        if len(d) < 8:
            return 3, b"", None
        if d[0] >> 5 != 1 or not d[0] & 0x10:
            return 12, b"", None
        if number(d[2:4]) != len(d) - 8:
            return 6, b"", None
        if d[1] not in (1, 255):
            return 7, b"", None
        at, sequence = 8, b"\0\0"
        if d[0] & 7:  # any of E, S, PN
            if len(d) < 12:
                return 13, b"", None
            at = 12
            if d[0] & 2:
                sequence = d[8:10]
            following = d[11] if d[0] & 4 else 0
            while following != 0:
                if following >= 128:
                    return 14, b"", None
                if at >= len(d) or d[at] == 0 or at + 4 * d[at] > len(d):
                    return 13, b"", None
                at += 4 * d[at]
                following = d[at - 1]
        if d[1] == 1:
            return 0, gtp.user_echo_reply(sequence), None
        if any(place.user_teid() == number(d[4:8]) for place in self.live()):
            return 0, b"", d[at:]
        return 15, gtp.error_indication(d[4:8], self.plan.user), None

    # ---- Downlink
    def down(self, d):
        """"Refusals: 2, then 18 .., 19 for no session; 20 for an output buffer under the packet plus 8": the bench's is long enough."""
        if not gtp.whole_packet(d):
            return 18, b"", None
        for place in self.live():  # a closing one too
            if self.address_of(place) == gtp.destination(d):
                return 0, gtp.gpdu(place.peer_user, d), place.peer_user_address.to_bytes(4, "big")
        return 19, b"", None


# ---- Bench print
def bench(source):
    """What the program prints on this input, line by line."""
    lines = source.split(b"\n")
    if lines[-1] == b"":
        lines.pop()
    unit = None
    try:
        at, parts = 1, (lines[0] if lines else b"").split(b"\t")
        if parts[0] != b"N" or len(parts) != 8:
            raise Bad
        plan = Plan(*[address(part) for part in parts[1:4]], *[decimal(part) for part in parts[4:]])
        for at, line in enumerate(lines[1:] + [None], 2):  # None is the end, where the plan is taken at the latest
            parts = [b""] if line is None else line.split(b"\t")
            if parts[0] == b"A" and unit is None:
                if len(parts) != 4 or len(plan.points) == NAMES:
                    raise Bad
                plan.points.append((octets(parts[1], NAME_LENGTH), decimal(parts[2]), decimal(parts[3])))
                continue
            if unit is None:
                if not plan.holds():
                    yield "16\t-"
                    return
                unit = Unit(plan)
            if line is None:
                break
            if len(parts) != {b"C": 2, b"U": 2, b"D": 2, b"T": 1, b"X": 2}.get(parts[0]):
                raise Bad
            call = {b"C": unit.control, b"U": unit.user, b"D": unit.down, b"X": unit.close, b"T": unit.tick}[parts[0]]
            given = [] if parts[0] == b"T" else [decimal(parts[1])] if parts[0] == b"X" else [octets(parts[1], DATAGRAM)]
            answer, reply, third = call(*given)
            yield "\t".join([str(answer), reply.hex().upper() or "-"] + ([] if third is None else [third.hex().upper() or "-"]))
            while parts[0] in (b"T", b"X"):
                due = unit.send_next()
                if due is None:
                    break
                yield "D\t" + due.hex().upper()
    except Bad:
        yield "E\t%d" % at
        return
    yield "L\t%d" % len(unit.live())
    for place in unit.places:
        if place.use > 0:
            yield place.line()


def run(source):
    return "".join(line + "\n" for line in bench(source)).encode()


if __name__ == "__main__":
    sys.stdout.buffer.write(run(sys.stdin.buffer.read()))
