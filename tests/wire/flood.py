"""Random and damaged datagrams at the unit."""
import collections
import random
import time

from host import CONTROL, USER, USER_ECHO, USER_ECHOED, Peer, address, build
from link import ADDRESSES, OWN_CONTROL, OWN_USER

FLOOD = 100000
# the numbers that have to come
KINDS = {0, 3, 4, 5, 6, 7, 8, 9, 12, 13, 14, 15, 64, 67, 69, 70, 73, 78, 83}


def valid(r, tunnels):
    """A message that the unit takes, or would at another time: port and octets."""
    control, user = r.choice(tunnels)
    k = r.randrange(1000, 1090)
    here = address(ADDRESSES["plain"])
    fields = dict(imsi=build.person(k), sender=build.sender(0x1000 + k, here), user=build.user(0x2000 + k, here),
                  apn=build.apn(r.choice([b"\4data", b"\3net"])))
    extended = bytes.fromhex("0001000401123400") + b"\x45" * 8
    return r.choice([
        lambda: (CONTROL, build.create(k, **fields)),
        lambda: (CONTROL, build.create(k, more=build.recovery(5), **fields)),
        lambda: (CONTROL, build.modify(control, k, fields["sender"],
                                       build.bearer(build.ebi(5), build.user(k, here, instance=1)))),
        lambda: (CONTROL, build.delete(control, k, build.ebi(5))),
        lambda: (CONTROL, build.echo(k, build.recovery(5))),
        lambda: (CONTROL, build.echo_reply(k, build.recovery(5))),
        lambda: (CONTROL, build.bearer_deleted(control, k, build.cause(16))),
        lambda: (CONTROL, bytes.fromhex("4003000400000000")),
        lambda: (USER, build.gpdu(user, b"\x45" + bytes(39))),
        lambda: (USER, build.gpdu(user, extended, first=0x34)),
        lambda: (USER, bytes.fromhex("320100040000000000070000")),
    ])()


def damaged(r, octets):
    octets = bytearray(octets)
    for _ in range(r.choice([0, 1, 1, 1, 2, 4])):
        way, at = r.randrange(5), r.randrange(len(octets)) if octets else 0
        if way == 0 and octets:
            octets[at] ^= 1 << r.randrange(8)
        elif way == 1 and octets:
            octets[at] = r.choice([0, 1, 127, 128, 255, r.randrange(256)])
        elif way == 2:
            del octets[at:]
        elif way == 3:
            octets[at:at] = r.randbytes(r.randrange(1, 9))
        elif octets:
            del octets[at:at + r.randrange(1, 9)]
        # half of them with a length that fits again, so that what is behind the header is read
        if len(octets) > 8 and r.random() < 0.5:
            octets[2:4] = (len(octets) - (4 if octets[0] >> 5 == 2 else 8)).to_bytes(2, "big")
    return bytes(octets)


def under_a_flood(c, runs, seed):
    """Batches, each with an echo behind it whose answer is awaited, so that no socket runs over."""
    r = random.Random(seed)
    peer = Peer(ADDRESSES["plain"])
    unit = runs.start("flood", e=255)
    before, sent, missed = time.monotonic(), 0, 0
    for part in ("random", "damaged"):
        tunnels = [peer.create(OWN_CONTROL, 1000 + k)[:2] for k in range(50)]
        for batch in range(FLOOD // 2 // 50):
            for _ in range(50):
                if part == "random":
                    port, octets = r.choice([CONTROL, USER]), r.randbytes(min(int(r.expovariate(1 / 80)), 1400))
                    if r.random() < 0.5:
                        # the right version, so that more than the first octet is read
                        octets = bytes([0x48 if port == CONTROL else 0x32]) + octets[1:]
                else:
                    port, octets = valid(r, tunnels)
                    octets = damaged(r, octets)
                peer.send(octets, OWN_CONTROL if port == CONTROL else OWN_USER, port)
                sent += 1
            number = 0x700000 + batch
            for port, to, echo, answer in (
                    (CONTROL, OWN_CONTROL, build.echo(number), build.echo_reply(number, build.recovery(7))),
                    (USER, OWN_USER, USER_ECHO, USER_ECHOED)):
                peer.send(echo, to, port)
                came = peer.next(port)
                while came is not None and came != answer:
                    came = peer.next(port)
                missed += came is None
            if missed > 3:
                break
        lines, numbers, counts = unit.places()
        print("       (%s: %s; %s live)" % (part, " ".join("%d:%d" % n for n in sorted(numbers.items())),
                                            lines[0].split("\t")[1]))
    took = time.monotonic() - before
    c.same("flood: %d datagrams sent, every echo between them answered" % FLOOD, (sent, missed), (FLOOD, 0))
    print("       (in %.1f s, seed %d)" % (took, seed))
    with open(runs.file("flood.journal")) as file:
        came = collections.Counter(line[0] for line in file)
    # with them 100 Creates and, for each batch, two echoes
    c.same("flood: every one came in", came["C"] + came["U"], FLOOD + 100 + 2 * (FLOOD // 50))
    c.check("flood: number 2 never came", 2 not in numbers, numbers)
    c.check("flood: causes and refusals of every kind came", set(numbers) >= KINDS, sorted(numbers))
    taken = peer.create(OWN_CONTROL, 5000, apn=build.apn(b"\3net"))
    c.check("flood: a Create after it is accepted", isinstance(taken, tuple), taken)
    had = len(unit.packets)
    peer.send(build.gpdu(taken[1], b"after the flood"), OWN_USER, USER)
    came = unit.packet(had + 1)
    c.same("flood: and its packet handed up", came and came[1], b"after the flood")
    status, report = runs.ended(*unit.terminate(30))
    c.same("flood: SIGTERM ends it with 0, no place live", (status, report and report[0][0]), (0, "L\t0"))
    peer.end()
