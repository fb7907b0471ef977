"""What the tests of examples/unit.c share: a running unit, a peer with the two ports, a list of checks, and the bench
that a journal goes through. Python's own library, and the datagrams of ../bench/build.py."""
import os
import queue
import re
import signal
import socket
import struct
import subprocess
import sys
import threading
import time

HERE = os.path.dirname(os.path.abspath(__file__))
ROOT = os.path.dirname(os.path.dirname(HERE))
X86 = os.path.join(ROOT, "tests", "x86")
sys.path.insert(0, os.path.join(ROOT, "tests", "bench"))
import build  # noqa: E402

CONTROL, USER = 2123, 2152
WAIT = 5  # seconds for what has to come
USER_ECHO, USER_ECHOED = bytes.fromhex("320100040000000000070000"), bytes.fromhex("3202000600000000000700000E00")


def address(text):
    """10.0.0.1 as the octets of a bench line."""
    return socket.inet_aton(text).hex().upper()


def number_of(datagram):
    """The sequence number of a control datagram."""
    at = 8 if datagram[0] & 8 else 4
    return int.from_bytes(datagram[at:at + 3], "big")


def cause_of(datagram):
    """The cause of a reply, which is its first field; None where there is none."""
    return datagram[16] if len(datagram) > 16 and datagram[12] == 2 else None


def ipv4(source, to, payload, protocol=17):
    """An IPv4 packet, addresses as text."""
    head = struct.pack(">BBHHHBBH", 0x45, 0, 20 + len(payload), 1, 0, 64, protocol, 0)
    head += socket.inet_aton(source) + socket.inet_aton(to)
    return head[:10] + internet_sum(head) + head[12:] + payload


def internet_sum(octets):
    """The checksum of IPv4 and ICMP, over octets whose own is 0."""
    total = sum(struct.unpack(">%dH" % ((len(octets) + 1) // 2), octets + bytes(len(octets) % 2)))
    while total >> 16:
        total = (total & 0xFFFF) + (total >> 16)
    return struct.pack(">H", ~total & 0xFFFF)


class Checks:
    """One line a check; `end` prints how many, and answers the exit status."""

    def __init__(self):
        self.done = self.failed = 0

    def check(self, what, holds, seen=""):
        self.done += 1
        self.failed += not holds
        print("%-6s %s%s" % ("ok" if holds else "FAILED", what, "" if holds else ": %s" % (seen,)), flush=True)
        return holds

    def same(self, what, got, want):
        return self.check(what, got == want, "%s, not %s" % (shortly(got), shortly(want)))

    def end(self):
        print("%d checks, %d failed" % (self.done, self.failed))
        return 1 if self.failed or not self.done else 0


def shortly(value):
    text = value.hex() if isinstance(value, bytes) else repr(value)
    return text if len(text) < 200 else text[:200] + ".."


class Unit:
    """A running unit. `before` is put before its command, to start it elsewhere."""

    def __init__(self, program, plan, *words, before=()):
        command = [*before, X86, program, *words, plan]
        self.process = subprocess.Popen(command, stdin=subprocess.PIPE, stdout=subprocess.PIPE,
                                        stderr=subprocess.PIPE, text=True, bufsize=1)
        self.lines, self.words, self.packets = queue.Queue(), queue.Queue(), []
        threading.Thread(target=self._read, daemon=True).start()
        threading.Thread(target=self._read_words, daemon=True).start()
        line = self.word()
        start = re.match(r"unit: restart counter (\d+), uses from (\d+)$", line)
        if start is None:
            self.kill()
            raise RuntimeError("the unit did not start: %s" % (line or "no word"))
        self.counter, self.first_use = int(start.group(1)), int(start.group(2))

    def _read(self):
        for line in self.process.stdout:
            line = line.rstrip("\n")
            if line.startswith("packet "):
                self.packets.append(line)
            else:
                self.lines.put(line)

    def _read_words(self):
        for line in self.process.stderr:
            self.words.put(line.rstrip("\n"))
        self.words.put("")

    def word(self):
        """The next line on standard error; empty if none comes."""
        try:
            return self.words.get(timeout=WAIT)
        except queue.Empty:
            return ""

    def order(self, text):
        self.process.stdin.write(text + "\n")
        self.process.stdin.flush()

    def close(self, place):
        """Orders a close, and answers the number that came."""
        self.order("close %d" % place)
        return int(self.lines.get(timeout=WAIT).split(": ")[1])

    def down(self, packet):
        """Orders a packet from the carrier's side down, and answers the number that came."""
        self.order("down %s" % packet.hex().upper())
        return int(self.lines.get(timeout=WAIT).split(": ")[1])

    def report(self):
        """The L lines, the counts of the numbers, and the four counts of what was not taken or sent."""
        lines = []
        while not lines or not lines[-1].startswith("strangers "):
            lines.append(self.lines.get(timeout=WAIT))
        numbers = {int(n): int(k) for n, k in (part.split(":") for part in lines[-2].split()[1:])}
        counts = {k: int(n) for k, n in (part.split() for part in lines[-1].split(", "))}
        return lines[:-2], numbers, counts

    def places(self):
        self.order("places")
        return self.report()

    def states(self):
        """Place and state (F, L, X) of every place that was ever used."""
        return {int(f[0]): f[2] for f in (line.split("\t") for line in self.places()[0][1:])}

    def live(self):
        return int(self.places()[0][0].split("\t")[1])

    def comes_to(self, live, seconds=WAIT):
        """Waits until so many places are live; answers how many are."""
        end = time.monotonic() + seconds
        while self.live() != live and time.monotonic() < end:
            time.sleep(0.02)
        return self.live()

    def packet(self, count, seconds=WAIT):
        """The `count`-th packet that was handed up, as place and payload, or None if it does not come."""
        end = time.monotonic() + seconds
        while len(self.packets) < count and time.monotonic() < end:
            time.sleep(0.005)
        if len(self.packets) < count:
            return None
        place, payload = self.packets[count - 1].split(" ")[1:]
        return int(place), bytes.fromhex(payload)

    def quit(self):
        self.order("quit")
        return self.ended()

    def terminate(self, seconds=WAIT):
        self.process.send_signal(signal.SIGTERM)
        return self.ended(seconds)

    def ended(self, seconds=WAIT):
        """Waits for the end; answers the exit status (None: it did not end, and was killed) and the last report."""
        try:
            status = self.process.wait(seconds)
        except subprocess.TimeoutExpired:
            self.process.kill()
            self.process.wait()
            return None, None
        return status, self.report()

    def kill(self):
        if self.process.poll() is None:
            self.process.kill()
            self.process.wait()


class Peer:
    """An exchange with both ports. It answers echoes on its own, if it is to, and Delete Bearers for tunnels that it
    knows; all else waits in `control` and `user`. Its answers go to `answers`, or to where the request came from."""

    def __init__(self, own, answers=None):
        self.own, self.answers, self.echoes, self.deletes, self.recovery = own, answers, True, True, None
        self.control, self.user = queue.Queue(), queue.Queue()
        self.came = {CONTROL: [], USER: []}  # all datagrams, in order
        self.elsewhere = []  # those that came from another port than they came to
        self.tunnels = {}  # the other side's control TEIDs by the own ones
        self.sockets, self.readers, self.ending = {}, [], False
        for port, waiting in ((CONTROL, self.control), (USER, self.user)):
            s = socket.socket(socket.AF_INET, socket.SOCK_DGRAM)
            s.setsockopt(socket.SOL_SOCKET, socket.SO_RCVBUF, 4 << 20)
            s.bind((own, port))
            s.settimeout(0.1)
            self.sockets[port] = s
            self.readers.append(threading.Thread(target=self._read, args=(s, port, waiting), daemon=True))
            self.readers[-1].start()

    def _read(self, s, port, waiting):
        while not self.ending:
            try:
                datagram, source = s.recvfrom(4096)
            except socket.timeout:
                continue
            self.came[port].append(datagram)
            if source[1] != port:
                self.elsewhere.append(datagram)
            kind = datagram[1] if port == CONTROL and len(datagram) > 1 else 0
            if kind == 1 and self.echoes:
                fields = [] if self.recovery is None else [build.recovery(self.recovery)]
                s.sendto(build.echo_reply(number_of(datagram), *fields), self.answers or source)
            elif kind == 99 and self.deletes and int.from_bytes(datagram[4:8], "big") in self.tunnels:
                s.sendto(self.deleted(datagram), self.answers or source)
            else:
                waiting.put(datagram)

    def deleted(self, request):
        """The answer to a Delete Bearer."""
        teid = self.tunnels[int.from_bytes(request[4:8], "big")]
        return build.bearer_deleted(teid, number_of(request), build.cause(16), build.ebi(5),
                                    build.bearer(build.ebi(5), build.cause(16)))

    def send(self, datagram, to, port=CONTROL):
        self.sockets[port].sendto(datagram, (to, port))

    def ask(self, datagram, to, port=CONTROL, seconds=WAIT):
        """Sends, and answers what comes then on that port, not what waits there from before; None if nothing does."""
        waiting = self.control if port == CONTROL else self.user
        while not waiting.empty():
            waiting.get()
        self.send(datagram, to, port)
        return self.next(port, seconds)

    def next(self, port=CONTROL, seconds=WAIT):
        try:
            return (self.control if port == CONTROL else self.user).get(timeout=seconds)
        except queue.Empty:
            return None

    def create(self, to, k, teid=None, **other):
        """A Create of person k; where it is accepted, answers the unit's two TEIDs and the address, else the reply."""
        teid = teid or 0x1000 + k
        fields = dict(imsi=build.person(k), sender=build.sender(teid, address(self.own)),
                      user=build.user(0x2000 + k, address(self.own)))
        fields.update(other)
        reply = self.ask(build.create(k, **fields), to)
        if reply is None or len(reply) != 78 or cause_of(reply) != 16:
            return reply
        own = int.from_bytes(reply[23:27], "big")
        self.tunnels[teid] = own
        return own, int.from_bytes(reply[65:69], "big"), socket.inet_ntoa(reply[36:40])

    def end(self):
        self.ending = True
        for reader in self.readers:
            reader.join()
        for s in self.sockets.values():
            s.close()


# ---- a journal through the bench
def moved(line, counter, back=False):
    """With -u the first octet of every tunnel number of the unit has the restart counter added. Takes it out of what
    went in (bench lines C and U), or puts it into what came out."""
    kind, text = line
    octets = bytearray.fromhex(text)
    step = counter if back else -counter
    at = []
    if not back and len(octets) >= 8:
        if kind == "C" and octets[1] != 32 and octets[0] & 8 or kind == "U" and octets[1] == 255:
            at = [4]
    if back and kind == "C" and octets[1:2] == b"\x21" and len(octets) == 78:
        at = [23, 65]
    if back and kind == "U" and octets[1:2] == b"\x1A":
        at = [13]
    for k in at:
        octets[k] = (octets[k] + step) % 256
    return bytes(octets)


class Start:
    """What the bench says of one start in a journal: datagrams, in order, each with its kind (C, U: replies; D: what
    was due; P: a packet from the carrier's side) and octets; packets as the unit prints them but without the place;
    the addresses that those of kind P go to; how often each number came; the L lines."""

    def __init__(self):
        self.sent, self.payloads, self.peers, self.numbers, self.places = [], [], [], {}, []


def port_of(kind):
    """The unit's port that a datagram of this kind leaves from."""
    return USER if kind in "UP" else CONTROL


def replay(bench, journal, own_uses=False):
    """The journal through the bench: a Start for each line N."""
    with open(journal) as file:
        lines = [line.rstrip("\n").split("\t") for line in file]
    counter, given = 0, []
    for f in lines:
        if f[0] == "N":
            counter = int(f[4]) if own_uses else 0
        given.append("\t".join(f) if f[0] not in "CU" else f[0] + "\t" + moved(f, counter).hex().upper())
    done = subprocess.run([X86, bench, "stream"], input="\n".join(given) + "\n", stdout=subprocess.PIPE, text=True,
                          timeout=300)
    if done.returncode != 0:
        raise RuntimeError("the bench ended with %s" % done.returncode)
    out = [line.split("\t") for line in done.stdout.splitlines()]
    at, starts = 0, []

    def take_places():
        nonlocal at
        if not starts:
            return
        while at < len(out) and (out[at][0] == "L" or len(out[at]) == 11):
            f = list(out[at])
            if f[0] != "L":
                f[1] = str(int(f[1]) + counter * 65536)
            starts[-1].places.append("\t".join(f))
            at += 1

    for f in lines:
        if f[0] == "N":
            take_places()
            counter = int(f[4]) if own_uses else 0
            starts.append(Start())
        if f[0] in "NA":
            continue
        start, (number, reply, *rest) = starts[-1], out[at]
        at += 1
        start.numbers[int(number)] = start.numbers.get(int(number), 0) + 1
        if reply != "-":
            start.sent.append(("P" if f[0] == "D" else f[0], moved((f[0], reply), counter, True)))
        if f[0] == "D":
            start.peers += rest
        else:
            start.payloads += ["" if p == "-" else p for p in rest]
        while at < len(out) and out[at][0] == "D":
            start.sent.append(("D", bytes.fromhex(out[at][1])))
            at += 1
    take_places()
    if at != len(out):
        raise RuntimeError("the bench printed %d lines more than the journal asks for" % (len(out) - at))
    return starts
