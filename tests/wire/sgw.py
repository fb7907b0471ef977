"""The SGW: Debian's nextepc-sgwd, with an MME and a base station that are scripted; or a script in its place."""
import os
import subprocess
import time

from host import CONTROL, USER, WAIT, Peer, address, build, cause_of
from link import ADDRESSES, OWN_CONTROL, OWN_USER


def packet_under(teid, datagram):
    """The packet of a G-PDU under this number; any other datagram as it is."""
    if datagram is not None and datagram[:2] == b"\x30\xFF" and datagram[4:8] == teid.to_bytes(4, "big"):
        return datagram[8:]
    return datagram


class Nextepc:
    """Session k: the MME's TEID is 3000 hex + k, the base station's 5000 hex + k; the SGW's two are kept from its
    reply."""
    label = "nextepc-sgwd"

    def __init__(self, folder):
        self.folder = folder
        self.mme = Peer(ADDRESSES["mme"], answers=(ADDRESSES["sgw"], CONTROL))
        self.sessions = {}
        self.sequence = 0x100
        self.start()

    def start(self):
        path = os.path.join(self.folder, "sgw.conf")
        log = os.path.join(self.folder, "sgw.log")
        with open(path, "w") as file:
            file.write("logger:\n    file: %s\nparameter:\n    no_ipv6: true\nsgw:\n    gtpc:\n      addr: %s\n"
                       "    gtpu:\n      addr: %s\n" % (log, ADDRESSES["sgw"], ADDRESSES["sgw"]))
        self.process = subprocess.Popen(["nextepc-sgwd", "-f", path, "-l", log, "-p", path + ".pid"],
                                        stdout=subprocess.DEVNULL, stderr=subprocess.DEVNULL)
        end = time.monotonic() + 10
        wanted = "%08X:%04X" % (int.from_bytes(bytes(map(int, ADDRESSES["sgw"].split("."))), "little"), USER)
        while time.monotonic() < end and wanted not in open("/proc/net/udp").read():
            time.sleep(0.05)

    def restart(self):
        self.stop()
        self.start()

    def stop(self):
        self.process.kill()
        self.process.wait()
        self.sessions = {}
        self.mme.tunnels = {}

    def end(self):
        self.stop()
        self.mme.end()

    def create(self, k, name=b"\x04data", seconds=WAIT):
        """Answers the handset's address; None if no accepted reply comes back."""
        self.sequence += 1
        field = build.field
        reply = self.mme.ask(build.with_teid(
            32, 0, self.sequence, build.person(k), field(76, bytes.fromhex("4401000000")),
            field(86, bytes.fromhex("1844F001000144F00100000001")), field(83, bytes.fromhex("44F001")), build.rat(6),
            build.fteid(0x8A, 0x3000 + k, address(ADDRESSES["mme"]), 0), build.fteid(0x87, 0, address(OWN_CONTROL), 1),
            build.apn(name), field(128, b"\0"), field(99, b"\1"), build.paa(), field(127, b"\0"),
            field(72, bytes.fromhex("0000FFFF0000FFFF")), build.bearer(build.ebi(5), build.qos())),
            ADDRESSES["sgw"], seconds=seconds)
        if reply is None or reply[1] != 33 or cause_of(reply) != 16:
            return None
        teids = [reply[k + 5:k + 9] for k in range(12, len(reply) - 8) if reply[k:k + 4] == b"\x57\0\x09\0"]
        self.sessions[k] = [int.from_bytes(teid, "big") for teid in teids]
        self.mme.tunnels[0x3000 + k] = self.sessions[k][0]
        at = reply.index(b"\x4F\0\5\0")
        return ".".join(map(str, reply[at + 5:at + 9]))

    def packet(self, k, payload):
        self.mme.send(build.gpdu(self.sessions[k][1], payload), ADDRESSES["sgw"], USER)

    def attach(self, k):
        """Tells the SGW the base station's end, to which packets go down; answers the cause."""
        self.sequence += 1
        end = build.fteid(0x80, 0x5000 + k, address(ADDRESSES["mme"]), 0)
        reply = self.mme.ask(build.modify(self.sessions[k][0], self.sequence, build.bearer(build.ebi(5), end)),
                             ADDRESSES["sgw"])
        return cause_of(reply or b"")

    def came_down(self, k):
        """The next packet that comes to the base station, or None."""
        return packet_under(0x5000 + k, self.mme.next(USER))

    def delete(self, k):
        """Answers the cause."""
        self.sequence += 1
        reply = self.mme.ask(build.delete(self.sessions[k][0], self.sequence, build.ebi(5)), ADDRESSES["sgw"])
        return cause_of(reply or b"")


class Scripted:
    """The same without nextepc: a peer at the SGW's address asks the unit itself."""
    label = "a scripted SGW"

    def __init__(self, folder):
        self.peer, self.sessions = Peer(ADDRESSES["sgw"]), {}

    def restart(self):
        self.end()
        self.__init__(None)

    def end(self):
        self.peer.end()

    def create(self, k, name=b"\x04data", seconds=WAIT):
        reply = self.peer.create(OWN_CONTROL, k, apn=build.apn(name))
        if not isinstance(reply, tuple):
            return None
        self.sessions[k] = reply
        return reply[2]

    def packet(self, k, payload):
        self.peer.send(build.gpdu(self.sessions[k][1], payload), OWN_USER, USER)

    def attach(self, k):
        return 16

    def came_down(self, k):
        return packet_under(0x2000 + k, self.peer.next(USER))

    def delete(self, k):
        return cause_of(self.peer.ask(build.delete(self.sessions[k][0], 0x8000 + k, build.ebi(5)), OWN_CONTROL) or b"")
