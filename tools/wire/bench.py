"""A bench run, input and output side by side, and what each line did to the places.

The numbers and octets are the bench's own. What it does not print (which place an own request or a packet is about,
which places a Recovery or a tick freed, that a Recovery was late, that a reply was a kept one, where a peer is) is
followed with the model of the paper in tests/bench; where the model prints something else for a line than the bench
did, the step says so.
"""
import os
import sys

from .datagrams import PLACES, USER_BIT, counted, number
from .meanings import CONTROL_TYPES, number_words

sys.path.insert(0, os.path.join(os.path.dirname(os.path.abspath(__file__)), "..", "..", "tests", "bench"))
import gtp  # noqa: E402
import model  # noqa: E402

SENDER_INTERFACE, CREATE, ECHO = 6, 32, 1
KEPT_TYPES = {34: "Modify", 36: "Delete"}


class Sent:
    """An own request: its octets, the place it is about (None: the echo), where it goes, and how often it was sent."""

    def __init__(self, octets, place=None, address=None, times=0):
        self.octets, self.place, self.address, self.times = octets, place, address, times


class Written:
    """A packet of the carrier's side that was written down: its G-PDU, and the peer's user address."""

    def __init__(self, octets, address):
        self.octets, self.address = octets, address


class Step:
    """One line of the input with what was printed for it. A datagram comes from the exchange, a packet from the
    carrier's side; `aim` is the place that has a packet's destination address, with its state at that moment."""

    def __init__(self, at, line):
        self.at, self.line = at, line
        self.letter = line[:1].decode("ascii", "replace")
        self.datagram = self.packet = self.place = self.point = None
        self.answered = False
        self.number, self.reply, self.payload, self.written = None, b"", None, None
        self.due, self.changes, self.notes = [], [], []
        self.peer = self.handed = self.aim = None


class Unit(model.Unit):
    """The model's unit, which also says which Recovery a call has read, and which kept reply it has answered (None: it
    has read none, answered none)."""

    read = again = None

    def asked(self, three, body):
        self.again = next((kept for kept in self.store if kept.three == three), None)
        return super().asked(three, body)

    def read_recovery(self, value):
        self.read = value
        super().read_recovery(value)


class Run:
    """All of a run: `steps`, then `plan` (None if there is none), `ends` (the lines of the places) and `stop`, why it
    ended before that (None: it did not)."""

    def __init__(self, source, printed):
        self.lines = source.split(b"\n")
        if self.lines[-1] == b"":
            self.lines.pop()
        self.out = [line.split("\t") for line in printed.decode("ascii", "replace").split("\n")]
        if self.out[-1] == [""]:
            self.out.pop()
        self.taken = 0
        self.plan = self.unit = self.stop = None
        self.steps, self.ends = [], []
        self.exchange = first_sender(self.lines)
        self._follow()

    @property
    def names(self):
        return [point[0] for point in self.plan.points] if self.plan else None

    def _peek(self, letter=None):
        """The next printed line, if there is one and it begins with that letter."""
        found = self.out[self.taken] if self.taken < len(self.out) else None
        return None if found is None or (letter and found[0] != letter) else found

    def _follow(self):
        for at, line in enumerate(self.lines, 1):
            step = Step(at, line)
            self.steps.append(step)
            if self._peek() == ["E", str(at)]:
                self.stop = f"line {at} is no line of a bench input: E and its number are printed, and the run ends"
                return
            try:
                self._take(step)
            except model.Bad:
                self.stop = f"line {at} is no line of a bench input, and the output does not say so"
            if self.stop:
                if self.unit is None:
                    self.steps.pop()  # the plan was refused before this line was read
                return
        if self.unit is None and self.plan is not None:
            self._start()
        if self.stop is None:
            if self._peek("L"):
                self.ends = self.out[self.taken:]
            else:
                empty = "the input is empty: E 1"
                self.stop = empty if self._peek("E") else "the output ends before the places' lines"

    def _start(self):
        """The plan is taken when the A lines end."""
        if self._peek() == ["16", "-"] and self.taken == 0:
            self.stop = f"the plan is refused, number {number_words(16)}"
        elif not self.plan.holds():
            self.stop = "the plan breaks a limit, and the output does not say so"
        else:
            self.unit = Unit(self.plan)

    def _take(self, step):
        parts = step.line.split(b"\t")
        if step.at == 1:
            if parts[0] != b"N" or len(parts) != 8:
                raise model.Bad
            self.plan = model.Plan(*[model.address(part) for part in parts[1:4]],
                                   *[model.decimal(part) for part in parts[4:]])
            return
        if parts[0] == b"A" and self.unit is None:
            if len(parts) != 4 or len(self.plan.points) == model.NAMES:
                raise model.Bad
            step.point = len(self.plan.points)
            name = model.octets(parts[1], model.NAME_LENGTH)
            self.plan.points.append((name, model.decimal(parts[2]), model.decimal(parts[3])))
            return
        if self.unit is None:
            self._start()
            if self.stop:
                return
        if len(parts) != {b"C": 2, b"U": 2, b"D": 2, b"T": 1, b"X": 2}.get(parts[0]):
            raise model.Bad
        if parts[0] == b"X":
            step.place = model.decimal(parts[1])
        elif parts[0] == b"D":
            step.packet = model.octets(parts[1], model.DATAGRAM)
            step.aim = self._aim_of(step.packet)
        elif parts[0] != b"T":
            step.datagram = model.octets(parts[1], model.DATAGRAM)
        step.peer = self._peer_of(step)
        self._answer(step)

    def _answer(self, step):
        """What was printed for the line, and what the model makes of it."""
        unit, before = self.unit, Seen(self.unit)
        said = self._peek()
        fits = said is not None and said[0].isdecimal() and len(said[0]) <= 3
        if not fits or len(said) not in ((2, 3) if step.letter in "UD" else (2,)):
            self.stop = f"the output has no answer to line {step.at}"
            return
        self.taken += 1
        call = {"C": unit.control, "U": unit.user, "D": unit.down, "X": unit.close, "T": unit.tick}[step.letter]
        given = {"X": [step.place], "T": [], "D": [step.packet]}.get(step.letter, [step.datagram])
        step.answered, step.number = True, int(said[0])
        third = octets_of(said[2]) if len(said) == 3 else None
        if step.letter == "D":
            octets = octets_of(said[1])
            step.written = Written(octets, number(third) if len(third or b"") == 4 else None) if octets else None
        else:
            step.reply, step.payload = octets_of(said[1]), third
        self._compare(step, "\t".join(said), printed_line(*call(*given)))
        if step.payload is not None:
            step.handed = (number(step.datagram[4:8]) & 255) % USER_BIT % PLACES
        while step.letter in "TX":
            due, told = unit.send_next(), self._peek("D")
            if told is None:
                if due is not None:
                    step.notes.append("the model of the paper has another request due here")
                break
            self.taken += 1
            step.due.append(self._sent(octets_of(told[-1])))
            self._compare(step, "\t".join(told), "D\t" + (due or b"").hex().upper())
        step.changes = before.changes(unit, step)

    @staticmethod
    def _compare(step, said, wanted):
        if said != wanted:
            step.notes.append(f"the model of the paper prints otherwise: {wanted[:80].replace(chr(9), ' ')}")

    def _sent(self, octets):
        """The own request with the place whose number it has; where that place's peer is."""
        if octets[1:2] == bytes([ECHO]):
            return Sent(octets, None, self.exchange, self.unit.echo_sent)
        own = number(octets[8:11])
        for place in self.unit.places:
            if place.state == model.CLOSING and place.sent and place.own == own:
                return Sent(octets, place.index, place.peer_address, place.sent)
        return Sent(octets)

    def _aim_of(self, packet):
        """(place, its state, its access point) of the place with this packet's destination address, or None."""
        place = number(packet[16:20]) - self.plan.pool - 1 if len(packet) >= 20 else -1
        if not 0 <= place < PLACES:
            return None
        found = self.unit.places[place]
        return place, found.state, found.point

    def _peer_of(self, step):
        """Where a datagram comes from, as far as it can be told: from the address that the session of its TEID has,
        else from the Sender F-TEID of a Create, else from the exchange."""
        d = step.datagram
        if d is None:
            return None
        for place in self.unit.live() if len(d) >= 8 else []:
            if step.letter == "C" and d[0] & 8 and place.control_teid() == number(d[4:8]):
                return place.peer_address
            if step.letter == "U" and place.user_teid() == number(d[4:8]):
                return place.peer_user_address
        return sender_address(d) if step.letter == "C" and sender_address(d) else self.exchange


class Seen:
    """The places, the stored Recovery and the kept replies before a call."""

    def __init__(self, unit):
        self.places = [(place.state, place.use) for place in unit.places]
        self.peers = [(place.peer, place.peer_address, place.peer_user, place.peer_user_address)
                      for place in unit.places]
        self.stored, self.next, self.echo = unit.stored, unit.next, unit.echo_sent
        self.store = list(unit.store)
        unit.read = unit.again = None

    def recovery(self, unit):
        """What the Recovery that was read comes to, in words; the same one again, or none, to nothing."""
        if unit.read is None:
            return []
        if self.stored is None:
            return [f"the exchange's Recovery {unit.read} is stored"]
        if model.judged(unit.read, self.stored) == model.LATE:
            behind = (self.stored - unit.read) % 256
            return [f"the exchange's Recovery {unit.read} is late, {behind} behind the stored {self.stored}: "
                    "it is thrown away"]
        if model.judged(unit.read, self.stored) == model.RESTARTED:
            return [f"the exchange's Recovery went from {self.stored} to {unit.read}: it restarted"]
        return []

    def kept(self, unit, step):
        """What became of the kept replies, in words: one that was answered, those that are gone."""
        if unit.again is not None:
            age = model.LIFE - unit.again.life
            return [f"a repeat of a {KEPT_TYPES[unit.again.three[0]]}: answered from the kept replies ("
                    + (f"{counted(age, 'tick')} old" if age else "kept in this tick") + "), nothing changes"]
        gone = sum(kept not in unit.store for kept in self.store)
        if not gone:
            return []
        if step.letter == "T":
            return [f"a kept reply is dropped after {model.LIFE} ticks" if gone == 1 else
                    f"{gone} kept replies are dropped after {model.LIFE} ticks"]
        if unit.store:
            return ["the oldest kept reply makes room"]
        return ["the kept reply is dropped" if gone == 1 else f"all {gone} kept replies are dropped"]

    def changes(self, unit, step):
        """What is otherwise now, in words."""
        found, freed = self.recovery(unit), []
        if step.letter == "T" and self.echo == unit.plan.sends and unit.echo_sent == 0:
            found.append(f"the echo is given up after {self.echo} sends, which frees all places")
        for place, (state, use), peers in zip(unit.places, self.places, self.peers):
            name = f"place {place.index}"
            if state != model.FREE and (place.state == model.FREE or place.use != use):
                freed.append(place.index)
            if place.state != model.FREE and place.use != use:
                found.append(f"{name} is taken in its use {place.use}")
            elif place.state == model.CLOSING and state == model.LIVE:
                found.append(f"{name} is closing")
            elif place.state != model.FREE and state != model.FREE and peers != (
                    place.peer, place.peer_address, place.peer_user, place.peer_user_address):
                found.append(f"the peer of {name} moved")
        if freed:
            found.insert(len(found) if step.letter == "T" else found_before(found), f"{ranges(freed)} freed"
                         + (f", after {unit.plan.sends} sends without an answer" if step.letter == "T" and
                            not found else ""))
        taken = step.letter == "C" and step.number == 0 and step.datagram[1:2] == bytes([CREATE])
        if taken and not any("is taken" in text for text in found):
            found.append("a repeat of a Create: no place is taken")
        return found + self.kept(unit, step)


def found_before(found):
    """Freed places are named before the place that is taken after them."""
    return next((k for k, text in enumerate(found) if "is taken" in text), len(found))


def ranges(places):
    """Places in words, runs of them joined."""
    runs = []
    for place in places:
        if runs and runs[-1][1] == place - 1:
            runs[-1][1] = place
        else:
            runs.append([place, place])
    text = ", ".join(str(low) if low == high else f"{low} to {high}" for low, high in runs)
    return f"place {text} is" if len(places) == 1 else f"places {text} are"


def plan_lines(source):
    """The N line and the A lines at the head of a bench input, as (lines, plan); ValueError says what is wrong."""
    lines = source.split(b"\n")
    count = next((k for k, line in enumerate(lines[1:], 1) if line[:2] != b"A\t"), len(lines))
    run = Run(b"\n".join(lines[:count]) + b"\n", b"L\t0\n")
    if run.stop or not lines[0]:
        raise ValueError(run.stop.split(",")[0] if run.stop else "it is empty")
    return lines[:count], run.plan


def octets_of(text):
    """The octets of a printed field, `-` being none; what is no hex counts as none."""
    try:
        return b"" if text == "-" else bytes.fromhex(text)
    except ValueError:
        return b""


def printed_line(answer, reply, payload):
    shown = [str(answer), reply.hex().upper() or "-"] + ([] if payload is None else [payload.hex().upper() or "-"])
    return "\t".join(shown)


def sender_address(d):
    """The address in the Sender F-TEID of a control datagram with a TEID, or None."""
    if len(d) < 12 or d[0] & 8 == 0 or d[1] not in CONTROL_TYPES:
        return None
    found = gtp.fields(d[12:])
    value = gtp.first(found, gtp.FTEID) if found is not None else None
    if value is None or len(value) < 9 or not gtp.good_fteid(SENDER_INTERFACE)(value):
        return None
    return gtp.fteid_parts(value)[1]


def first_sender(lines):
    """The address of the first Create that can be read: where the exchange is taken to be. None: nothing says it."""
    for line in lines:
        if line[:2] == b"C\t":
            d = octets_of(line[2:].decode("ascii", "replace"))
            if d[1:2] == bytes([CREATE]) and sender_address(d):
                return sender_address(d)
    return None

