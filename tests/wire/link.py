"""The link between the two network namespaces, and the capture on it; the units that run behind it."""
import os
import signal
import struct
import subprocess
import time

from host import WAIT, Unit, address

# in the namespace of the test, on w0; the first is what a socket that is bound to none sends from
ADDRESSES = {"sgw": "10.0.0.8", "mme": "10.0.0.9", "plain": "10.0.0.10", "stranger": "10.0.0.11"}
# the unit's, on w1
OWN_CONTROL, OWN_USER = "10.0.0.1", "10.0.0.2"
TICK, T, N = 100, 3, 3
ROOM = 60  # the ceiling of the access point "data"


def quietly(*words):
    subprocess.run(words, check=True, stdout=subprocess.DEVNULL)


class Wire:
    """The link, the unit's namespace and the capture."""

    def __init__(self, folder):
        self.capture = os.path.join(folder, "capture.pcap")
        self.holder = subprocess.Popen(["unshare", "-n", "sleep", "900"])
        self.inside = ["nsenter", "-t", str(self.holder.pid), "-n"]
        own = os.readlink("/proc/self/ns/net")
        while os.readlink("/proc/%d/ns/net" % self.holder.pid) == own:
            time.sleep(0.01)
        quietly("ip", "link", "set", "lo", "up")
        quietly("ip", "link", "add", "w0", "type", "veth", "peer", "name", "w1")
        quietly("ip", "link", "set", "w1", "netns", str(self.holder.pid))
        for text in ADDRESSES.values():
            quietly("ip", "address", "add", text + "/24", "dev", "w0")
        quietly("ip", "link", "set", "w0", "up")
        for text in (OWN_CONTROL, OWN_USER):
            quietly(*self.inside, "ip", "address", "add", text + "/24", "dev", "w1")
        for device in ("lo", "w1"):
            quietly(*self.inside, "ip", "link", "set", device, "up")
        # what a damaged Create names goes over the wire too, and is seen there
        quietly(*self.inside, "ip", "route", "add", "default", "via", ADDRESSES["sgw"])
        self.words = open(os.path.join(folder, "dumpcap.log"), "w+")
        command = [*self.inside, "dumpcap", "-q", "-P", "-B", "64", "-i", "w1", "-w", self.capture]
        self.dumpcap = subprocess.Popen(command, stderr=self.words)
        end = time.monotonic() + WAIT
        while time.monotonic() < end and not (os.path.exists(self.capture) and os.path.getsize(self.capture) >= 24):
            time.sleep(0.05)

    def captured(self):
        """Ends the capture; answers how many packets it missed (None: it does not say)."""
        time.sleep(0.5)
        self.dumpcap.send_signal(signal.SIGINT)
        self.dumpcap.wait(WAIT)
        self.words.seek(0)
        for line in self.words:
            if line.startswith("Packets received/dropped"):
                return int(line.split(": ")[1].split(" ")[0].split("/")[1])
        return None

    def sent(self):
        """Every datagram of the unit in the capture, in order: port and octets."""
        with open(self.capture, "rb") as file:
            octets = file.read()
        at, found = 24, []
        own = {bytes(map(int, text.split("."))) for text in (OWN_CONTROL, OWN_USER)}
        while at + 16 <= len(octets):
            size = struct.unpack("<IIII", octets[at:at + 16])[2]
            frame = octets[at + 16:at + 16 + size]
            at += 16 + size
            if frame[12:14] == b"\x08\x00" and frame[23] == 17 and frame[26:30] in own:
                port, _, length = struct.unpack(">HHH", frame[34:40])
                found.append((port, frame[42:34 + length]))
        return found

    def end(self):
        for process in (self.dumpcap, self.holder):
            if process.poll() is None:
                process.kill()
                process.wait()


class Runs:
    """The units that were started, one after another, each with its journal; what their ends reported."""

    def __init__(self, folder, wire):
        self.folder, self.wire, self.done, self.unit = folder, wire, [], None

    def file(self, name):
        return os.path.join(self.folder, name)

    def start(self, name, *words, e=60):
        """`name` names plan, counter and journal: the same one again is a restart of the same unit."""
        own = address(OWN_CONTROL), address(OWN_USER)
        with open(self.file(name + ".plan"), "w") as file:
            file.write("N\t%s\t%s\t64400000\t7\t%d\t%d\t%d\n" % (*own, T, N, e))
            file.write("A\t0464617461\t1\t%d\nA\t036E6574\t0\t64\n" % ROOM)
        self.words = words
        self.name = name
        self.unit = Unit(self.file("unit"), self.file(name + ".plan"), "-m", str(TICK), "-r",
                         self.file(name + ".counter"), "-j", self.file(name + ".journal"), *words,
                         before=self.wire.inside)
        return self.unit

    def ended(self, status, report):
        self.done.append((self.name, self.words, report))
        return status, report
