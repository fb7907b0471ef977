"""wire.py FOLDER nextepc|scripted SEED: the checks of run, in a network namespace that is its own. The unit stands in a
second one, behind one link; everything that it sends is captured there. FOLDER has the program, `unit`, and gets plans,
journals and the capture."""
import os
import signal
import struct
import subprocess
import sys
import time
import traceback

from flood import under_a_flood
from host import (CONTROL, USER, USER_ECHO, USER_ECHOED, WAIT, Checks, Peer, address, build, cause_of, internet_sum,
                  ipv4)
from link import ADDRESSES, N, OWN_CONTROL, OWN_USER, ROOM, Runs, T, TICK, Wire, quietly
from sent import by_tshark, on_the_bench
from sgw import Nextepc, Scripted, packet_under


def through_the_sgw(c, runs, sgw):
    words = ["-u", "-w", "-e", "-a", ADDRESSES["sgw"]]
    unit = runs.start("sgw", *words)
    c.same("Create: the handset has the address of place 0", sgw.create(1), "100.64.0.1")
    c.same("Create: a second handset that of place 1", sgw.create(2), "100.64.0.2")
    payloads = [bytes([0x45]) * size for size in (0, 1, 33, 1400)]
    for k, payload in enumerate(payloads):
        sgw.packet(1, payload)
        c.same("packet of %d octets: handed up at place 0, octet for octet" % len(payload), unit.packet(k + 1),
               (0, payload))
    sgw.packet(2, b"second")
    c.same("packet of the second handset: handed up at place 1", unit.packet(len(payloads) + 1), (1, b"second"))
    c.same("Delete: cause 16", sgw.delete(1), 16)
    c.same("Delete: its place is free, the other is live", unit.states(), {0: "F", 1: "L"})
    c.same("close: 0", unit.close(1), 0)
    c.same("close: its answer, through the SGW, frees the place", unit.comes_to(0), 0)
    with open(runs.file("sgw.journal")) as file:
        c.same("close: it was answered, not given up", file.read().count("C\t4864"), 1)

    for k in range(3):
        sgw.create(10 + k)
    sgw.restart()
    c.same("restart of the SGW: without a Recovery the unit keeps the sessions", unit.live(), 3)
    before = time.monotonic()
    for k in range(3):
        unit.close(k)
    c.same("restart of the SGW: their closes are not answered, and they go", unit.comes_to(0), 0)
    took = (time.monotonic() - before) * 1000 / TICK
    c.check("restart of the SGW: by the N x T-th tick, and not before", N * T - 1 <= took < N * T + 10, took)
    c.same("restart of the SGW: it gets a new session", sgw.create(20), "100.64.0.1")
    sgw.packet(20, b"new")
    c.same("restart of the SGW: and its packets", unit.packet(len(payloads) + 2), (0, b"new"))

    status, report = runs.ended(*unit.quit())
    c.same("restart of the unit: it ends with 0, one session live", (status, report[0][0]), (0, "L\t1"))
    unit = runs.start("sgw", *words)
    c.same("restart of the unit: the counter is 8", unit.counter, 8)
    # the session of before had place 0 in its third use: without -u the third handset's tunnels would be the same
    c.same("restart of the unit: three handsets, one after another, get place 0",
           [(sgw.create(21 + k), k < 2 and sgw.delete(21 + k)) for k in range(3)],
           [("100.64.0.1", 16), ("100.64.0.1", 16), ("100.64.0.1", False)])
    sgw.packet(20, b"of before")
    time.sleep(0.3)
    c.same("restart of the unit: a packet of before is 15", unit.places()[1].get(15), 1)
    c.same("restart of the unit: and is not handed up as the new session's", unit.packets, [])
    sgw.packet(23, b"of now")
    c.same("restart of the unit: the new session's is", unit.packet(1), (0, b"of now"))
    c.same("restart of the unit: Delete", sgw.delete(23), 16)

    # the handset of before is in the SGW still; a fresh one serves the crowd
    sgw.restart()
    before = time.monotonic()
    got = [sgw.create(100 + k) for k in range(ROOM)]
    took = time.monotonic() - before
    c.same("%d sessions: each has its own address" % ROOM, got, ["100.64.0.%d" % (1 + k) for k in range(ROOM)])
    print("       (in %.0f ms)" % (1000 * took))
    c.same("one more: no reply, or a refusal", sgw.create(99, seconds=1), None)
    c.same("one more: the unit answered 73", unit.places()[1].get(73), 1)
    c.same("a name that is not in the plan: no reply, or a refusal", sgw.create(98, b"\7nowhere", seconds=1), None)
    c.same("a name that is not in the plan: the unit answered 78", unit.places()[1].get(78), 1)
    for k in range(ROOM):
        sgw.packet(100 + k, b"from %d" % k)
    unit.packet(1 + ROOM)
    c.same("%d sessions: a packet of each, at its place" % ROOM, unit.packets[1:],
           ["packet %d %s" % (k, (b"from %d" % k).hex().upper()) for k in range(ROOM)])
    status, report = runs.ended(*unit.terminate(60))
    c.same("SIGTERM: ends with 0, no place live", (status, report and report[0][0]), (0, "L\t0"))
    with open(runs.file("sgw.journal")) as file:
        last = file.read().rsplit("N\t", 1)[1].split("X\t", 1)[1].split("\n")
    c.check("SIGTERM: within 16 + N x T ticks", last.count("T") <= 16 + N * T, last.count("T"))
    print("       (%d of %d closes answered, %d ticks)" % (sum(line.startswith("C\t4864") for line in last), ROOM,
                                                          last.count("T")))


def with_an_exchange(c, runs):
    """What nextepc does not do: echoes, Recovery, Modify, refusals that come back."""
    peer, stranger = Peer(ADDRESSES["plain"]), Peer(ADDRESSES["stranger"])
    peer.recovery = 5
    unit = runs.start("plain", "-s", "-a", peer.own, "-a", stranger.own, e=10)
    c.same("echo: answered with the restart counter", peer.ask(build.echo(0x40, build.recovery(5)), OWN_CONTROL),
           build.echo_reply(0x40, build.recovery(7)))
    c.same("user echo: answered", peer.ask(USER_ECHO, OWN_USER, USER), USER_ECHOED)
    one, two = peer.create(OWN_CONTROL, 1), peer.create(OWN_CONTROL, 2)
    c.same("Create: two sessions", (one, two), ((256, 384, "100.64.0.1"), (257, 385, "100.64.0.2")))
    time.sleep(2.5 * 10 * TICK / 1000)
    own = [d for d in peer.came[CONTROL] if d[1] == 1]
    c.check("own echo: sent every E ticks, answered, the sessions stay", len(own) >= 2 and unit.live() == 2, own)
    stranger.send(build.gpdu(one[1], b"spoofed"), OWN_USER, USER)
    time.sleep(0.2)
    c.same("-s: a packet from an address that the session did not name is dropped", (unit.places()[2]["strangers"],
                                                                                    unit.packets), (1, []))
    moved = build.modify(one[0], 0x20, build.bearer(build.ebi(5), build.user(0x77, address(stranger.own), instance=1)))
    c.same("Modify: cause 16", cause_of(peer.ask(moved, OWN_CONTROL) or b""), 16)
    stranger.send(build.gpdu(one[1], b"moved"), OWN_USER, USER)
    c.same("Modify: now its packets are handed up", unit.packet(1), (0, b"moved"))
    c.same("a name that is not in the plan: cause 78", cause_of(
        peer.ask(build.create(9, imsi=build.person(9), apn=build.apn(b"\3abc")), OWN_CONTROL) or b""), 78)
    c.same("Error Indication on port 2152 for a number that is not live",
           peer.ask(build.gpdu(0x999, b""), OWN_USER, USER),
           bytes.fromhex("321A0010000000000000000010000009998500040A000002"))
    c.same("Modify of a session that is not there: cause 64",
           cause_of(peer.ask(build.modify(0x5555, 0x21), OWN_CONTROL) or b""), 64)
    c.same("another version: Version Not Supported", peer.ask(bytes.fromhex("2000000000000000"), OWN_CONTROL),
           bytes.fromhex("4003000400000000"))
    for k in range(3, ROOM + 1):
        peer.create(OWN_CONTROL, k)
    c.same("%d sessions: live" % ROOM, unit.live(), ROOM)
    c.same("one more: cause 73", cause_of(peer.create(OWN_CONTROL, 99) or b""), 73)
    answered = build.echo_reply(0x41, build.recovery(7))

    def heard(value):
        """The answer to an echo with this Recovery, and how many places are live after it."""
        return peer.ask(build.echo(0x41, build.recovery(value)), OWN_CONTROL), unit.live()

    c.same("a late Recovery in its echo, 1 and 128 behind: answered, the sessions stay", [heard(4), heard(133)],
           [(answered, ROOM)] * 2)
    c.same("restart of the exchange, by Recovery in its echo: answered, all sessions go", heard(6), (answered, 0))
    peer.recovery = 6
    for k in range(5):
        peer.create(OWN_CONTROL, 200 + k)
    c.same("restart of the exchange: new sessions", unit.live(), 5)
    c.same("an echo of before the restart comes late: answered, they stay", heard(5), (answered, 5))
    peer.create(OWN_CONTROL, 205, more=build.recovery(5))
    c.same("so does a Create: it has its session, beside the others", unit.live(), 6)
    peer.recovery, had = 5, sum(d[1] == 1 for d in peer.came[CONTROL])
    time.sleep(2.5 * 10 * TICK / 1000)
    had = sum(d[1] == 1 for d in peer.came[CONTROL]) - had
    c.check("a late Recovery in its answers to the unit's echo: they stay", had >= 2 and unit.live() == 6, had)
    peer.recovery = 7
    c.same("restart of the exchange, by Recovery in its answer to the unit's echo: all sessions go",
           unit.comes_to(0, WAIT), 0)
    peer.create(OWN_CONTROL, 300)
    peer.echoes = False
    c.same("an exchange that answers no echo: all sessions go", unit.comes_to(0, WAIT), 0)
    peer.echoes = True
    peer.create(OWN_CONTROL, 301)
    c.same("an exchange that answers again: a new session", unit.live(), 1)
    c.same("SIGTERM: ends with 0", runs.ended(*unit.terminate())[0], 0)
    peer.end()
    stranger.end()


CARRIER = "100.64.0.254"  # the address behind the TUN device


def with_a_tun(runs, name, *words):
    """A unit whose carrier's side is a TUN device, which is up and routed."""
    device = "tun-" + name
    unit = runs.start(name, "-t", device, *words)
    quietly(*runs.wire.inside, "ip", "address", "add", CARRIER + "/24", "dev", device)
    quietly(*runs.wire.inside, "ip", "link", "set", device, "up")
    return unit


def into_a_tun(c, runs):
    # ports that stand for no protocol: tshark reads what is inside a G-PDU too
    peer, handset, port = Peer(ADDRESSES["plain"]), "100.64.0.1", 40001
    unit = with_a_tun(runs, "udp")
    reader = subprocess.Popen([*runs.wire.inside, sys.executable, "-c", "import socket; s = socket.socket(2, 2); "
                               "s.bind(('%s', %d)); s.settimeout(5); print('bound', flush=True); "
                               "came = s.recvfrom(99); s.sendto(b'back', came[1]); print(came, flush=True)"
                               % (CARRIER, port)],
                              stdout=subprocess.PIPE, text=True)
    reader.stdout.readline()
    got = peer.create(OWN_CONTROL, 1)
    hello = struct.pack(">HHHH", 40000, port, 8 + 5, 0) + b"hello"
    peer.send(build.gpdu(got[1], ipv4(handset, CARRIER, hello)), OWN_USER, USER)
    c.same("-t: a socket behind the TUN device gets the handset's packet", reader.communicate(timeout=10)[0].strip(),
           "(b'hello', ('%s', 40000))" % handset)
    back = packet_under(0x2000 + 1, peer.next(USER)) or b""
    c.same("-t: the answer comes down to the handset", (back[12:20], back[20:26], back[28:]),
           (ipv4(CARRIER, handset, b"")[12:], struct.pack(">HHH", port, 40000, 8 + 4), b"back"))
    c.same("SIGTERM: ends with 0", runs.ended(*unit.terminate())[0], 0)
    peer.end()


def there_and_back(c, runs, sgw):
    """A handset's ping goes through the SGW and the unit to the address behind the TUN device, its answer back."""
    sgw.restart()
    unit = with_a_tun(runs, "ping", "-u", "-w", "-e", "-a", ADDRESSES["sgw"])
    c.same("ping: two handsets have places 0 and 1", [sgw.create(200 + k) for k in range(2)],
           ["100.64.0.1", "100.64.0.2"])
    c.same("ping: the SGW knows the base station's ends", [sgw.attach(200 + k) for k in range(2)], [16, 16])
    for number, (k, size) in enumerate([(0, 0), (1, 0), (0, 56), (1, 1372)]):
        echo = struct.pack(">BBHHH", 8, 0, 0, 77, number) + (bytes(range(256)) * 6)[:size]
        echo = echo[:2] + internet_sum(echo) + echo[4:]
        handset = "100.64.0.%d" % (1 + k)
        sgw.packet(200 + k, ipv4(handset, CARRIER, echo, protocol=1))
        back = sgw.came_down(200 + k) or b""
        want = ipv4(CARRIER, handset, b"")[12:20] + b"\0\0" + echo[4:]
        c.same("ping: with %d octets, by the handset of place %d: answered" % (size, k),
               back[12:22] + back[24:], want)
    c.same("ping: Delete", [sgw.delete(200 + k) for k in range(2)], [16, 16])
    status, report = runs.ended(*unit.terminate())
    c.same("SIGTERM: ends with 0, every datagram was sent", (status, report and report[2]["unsent"]), (0, 0))


def main(folder, which, seed):
    for name in os.listdir(folder):
        if name.endswith((".journal", ".counter", ".plan", ".pcap")):
            os.remove(os.path.join(folder, name))
    c, wire, sgw, runs = Checks(), Wire(folder), None, None
    try:
        runs = Runs(folder, wire)
        sgw = {"nextepc": Nextepc, "scripted": Scripted}[which](folder)
        print("---- with %s" % sgw.label)
        through_the_sgw(c, runs, sgw)
        there_and_back(c, runs, sgw)
        print("---- with a scripted exchange")
        with_an_exchange(c, runs)
        into_a_tun(c, runs)
        print("---- under a flood")
        under_a_flood(c, runs, seed)
        print("---- what was sent")
        c.same("the capture missed no packet", wire.captured(), 0)
        sent = wire.sent()
        on_the_bench(c, runs, sent)
        by_tshark(c, wire, sent, folder)
    except Exception as error:  # what the unit or the SGW did not do is a failed check too
        traceback.print_exc()
        c.check("the run came to its end", False, "%s: %s" % (type(error).__name__, error))
    finally:
        if runs is not None and runs.unit is not None:
            runs.unit.kill()
        if sgw is not None:
            sgw.end()
        wire.end()
    return c.end()


if __name__ == "__main__":
    # so that what was started ends too when the time is over
    signal.signal(signal.SIGTERM, lambda *_: sys.exit(1))
    sys.exit(main(sys.argv[1], sys.argv[2], int(sys.argv[3])))
