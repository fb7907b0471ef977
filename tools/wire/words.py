"""The lines of a bench run in words: what came in, what was answered, what was sent, what changed, and the places.

Each function answers phrases; tools/explain lays them out, tools/annotate makes packet comments of them.
"""
from . import datagrams
from .datagrams import counted, dotted, name_text
from .meanings import number_words

STATES = {"F": "free", "L": "live", "X": "closing"}


def plan_words(plan):
    """The line N."""
    return [f"the plan: control address {dotted(plan.control)}, user address {dotted(plan.user)}",
            f"pool base {dotted(plan.pool)}", f"own Recovery {plan.own_recovery}", f"resend time T {plan.resend}",
            f"sends N {plan.sends}", f"echo interval E {plan.interval}"]


def point_words(plan, index):
    """A line A."""
    name, guarantee, ceiling = plan.points[index]
    return [f"access point {index}: {name_text(name)}", f"guarantee {guarantee}", f"ceiling {ceiling}"]


def came_words(run, step):
    """What came in."""
    if step.letter == "N" and run.plan is not None and step.at == 1:
        return plan_words(run.plan)
    if step.point is not None:
        return point_words(run.plan, step.point)
    if step.datagram is not None:
        read = datagrams.control if step.letter == "C" else datagrams.user
        return read(step.datagram, False, run.names)
    if step.packet is not None:
        return packet_words(run, step)
    if step.letter == "T" and step.answered:
        return ["a tick"]
    if step.place is not None:
        return [f"close order for place {step.place}"]
    return ["no line of a bench input"]


def reply_words(step):
    """The reply to a datagram; nothing where there is none."""
    if not step.reply:
        return []
    read = datagrams.control if step.letter == "C" else datagrams.user
    return read(step.reply, True)


def handed_words(run, step):
    """The payload that was handed up; nothing where there is none."""
    if step.payload is None:
        return []
    whose = own_address(run.plan, step.handed)
    return [f"handed up for place {step.handed} (address {whose}): {datagrams.payload_words(step.payload)}"]


def packet_words(run, step):
    """A packet of the carrier's side: what it is, and whose its destination address is."""
    found = [datagrams.payload_words(step.packet, "packet", " from the carrier's side")]
    unfit = datagrams.unfit_words(step.packet)
    if unfit:
        return found + unfit
    if step.aim is None:
        return found + [f"destination {dotted(step.packet[16:20])} is no place's address"]
    place, state, point = step.aim
    return found + [f"destination {own_address(run.plan, place)} is place {place}, {STATES[state]}"
                    + ("" if state == "F" else f", access point {point} ({name_text(run.names[point])})")]


def written_words(step):
    """The G-PDU that a packet was written down as, with where it goes; nothing where there is none."""
    if step.written is None:
        return []
    whom = f"the peer of place {step.aim[0]}" if step.aim else "a peer"
    where = dotted(step.written.address) if step.written.address is not None else "an address that is not printed"
    return datagrams.user(step.written.octets, True) + [f"to {whom} at {where}"]


def sent_words(run, sent):
    """An own request with where it goes."""
    found = datagrams.control(sent.octets, True)
    where = dotted(sent.address) if sent.address is not None else "an address that nothing in the run names"
    whom = "the exchange" if sent.place is None else f"the peer of place {sent.place}"
    return found + [f"to {whom} at {where}"] + (
        [f"send {sent.times} of {run.plan.sends}"] if sent.times else [])


def silent_words(step):
    """What is said where no octets come back."""
    if step.packet is not None:
        return ["nothing written"] if step.written is None else []
    quiet = not step.reply and step.payload is None and not step.due
    return ["no reply"] if quiet and step.datagram is not None else []


def own_address(plan, place):
    return dotted(plan.pool + 1 + place)


def place_words(run, parts):
    """A line at the end of an output: the live count, or a place."""
    try:
        if len(parts) == 2 and parts[0] == "L":
            return [f"{counted(int(parts[1]), 'place')} live or closing"]
        return line_of_place(run, parts)
    except (ValueError, IndexError, KeyError, OverflowError):
        return [f"no line of a place: {' '.join(parts)[:80]}"]


def line_of_place(run, parts):
    """The line of a place; an exception where it is none."""
    place, use, state = int(parts[0]), int(parts[1]), STATES[parts[2]]
    if len(parts) != 11 or not 0 <= place < datagrams.PLACES:
        raise ValueError
    found = [f"place {place}, use {use}: {state}"]
    if state == "free":
        return found
    point, control, user = int(parts[3]), int(parts[6]), int(parts[8])
    return found + [
        f"access point {point} ({name_text(run.names[point])})", f"IMSI {parts[4]}", f"EBI {parts[5]}",
        f"address {own_address(run.plan, place)}", f"own control TEID {use * 256 + place:08X}",
        f"own user TEID {use * 256 + datagrams.USER_BIT + place:08X}",
        f"peer control TEID {control:08X} at {dotted(int(parts[7], 16))}",
        f"peer user TEID {user:08X} at {dotted(int(parts[9], 16))}", f"creating sequence number {parts[10]}"]


def answer_words(step):
    """The number that came back, with its meaning."""
    return [f"number {number_words(step.number)}"] if step.answered else []
