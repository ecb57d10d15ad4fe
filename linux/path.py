#!/usr/bin/env python3
"""Paths that carry less than the host's link, and datagrams that go in pieces, in a network namespace of its own (unshare -n), which is a
router between the program `host` and a client in a namespace within:

    path.py PUMP HOST [FOLDER [tap]]

By either family datagrams and pings of up to 4,000 bytes there and back, and a page of a megabyte while the link behind the
router is lowered to 1,280 bytes: Linux's router says so (RFC 8201; by IPv4 it cuts, since the host lets it), and from then on no longer packet
may come. By IPv6 also a datagram of 2,000 bytes for a port at which nobody is. PUMP is linux/pump.c, built. `tap` makes the host's link one of Ethernet frames. FOLDER keeps what went over the device (path.pcap),
if tshark is there, which then looks for what is malformed or has a wrong checksum.
"""
import contextlib, ctypes, os, signal, socket, subprocess, sys, threading, time

import hostile, talk
from talk import OURS, OURS6, STATION, say, sh

CLIENT, CLIENT6 = "10.78.0.2", "fd78::2"
NEAR = ("addr add 10.78.0.1/24 dev near", "addr add fd78::1/64 dev near nodad", "link set near up")
FAR = ("addr add 10.78.0.2/24 dev far", "addr add fd78::2/64 dev far nodad", "link set far up", "link set lo up", "route add default via 10.78.0.1",
       "-6 route add default via fd78::1")
SMALL, HALF = 1280, 500_000
CLONE_NEWNET = 0x40000000


@contextlib.contextmanager
def within(pid):
    """The thread is in the network namespace of this process for so long."""
    libc = ctypes.CDLL(None, use_errno=True)
    with open("/proc/thread-self/ns/net") as own, open(f"/proc/{pid}/ns/net") as other:
        if libc.setns(other.fileno(), CLONE_NEWNET):
            raise OSError(ctypes.get_errno(), "setns")
        try:
            yield
        finally:
            libc.setns(own.fileno(), CLONE_NEWNET)


def set_up():
    """Makes this namespace a router, and the client's one behind it; a process there."""
    client = subprocess.Popen(["unshare", "-n", "sh", "-c", "echo here; exec sleep 100000"], stdout=subprocess.PIPE, text=True)
    client.stdout.readline()
    sh("ip", *"link add near type veth peer name far".split())
    sh("ip", "link", "set", "far", "netns", str(client.pid))
    for words in NEAR:
        sh("ip", *words.split())
    for words in FAR:
        sh("nsenter", "-t", str(client.pid), "-n", "ip", *words.split())
    for name in ("ipv4/ip_forward", "ipv6/conf/all/forwarding"):
        with open(f"/proc/sys/net/{name}", "w") as it:
            it.write("1")
    time.sleep(0.3)
    return client


def set_mtu(client, mtu):
    """Of the link between the router and the client."""
    sh("ip", "link", "set", "near", "mtu", str(mtu))
    sh("nsenter", "-t", str(client.pid), "-n", "ip", "link", "set", "far", "mtu", str(mtu))


def told():
    """How often this router said that a packet is too big, and how many pieces it made."""
    counts = dict(line.split()[:2] for line in open("/proc/net/snmp6") if len(line.split()) == 2)
    rows = [line.split() for line in open("/proc/net/snmp")]
    ip = dict(zip(rows[0], rows[1]))
    return int(counts["Icmp6OutPktTooBigs"]), int(ip["FragCreates"])


class Lengths:
    """The lengths of the packets that the host sends to the client, as they come over the device."""

    def __init__(self, at):
        self.it = socket.socket(socket.AF_PACKET, socket.SOCK_DGRAM, socket.htons(0x86DD if ":" in at else 0x0800))
        self.it.bind(("zemplovir", 0x86DD if ":" in at else 0x0800))
        self.it.settimeout(0.2)
        place, size = (8, 16) if ":" in at else (12, 4)
        self.source, self.slice = socket.inet_pton(talk.family(at), at), slice(place, place + size)
        self.seen, self.ends = [], False
        self.reader = threading.Thread(target=self.read)
        self.reader.start()

    def read(self):
        while not self.ends:
            try:
                packet = self.it.recv(65536)
            except OSError:
                continue
            if packet[self.slice] == self.source:
                self.seen.append((time.monotonic(), len(packet)))

    def stop(self):
        self.ends = True
        self.reader.join()
        self.it.close()


def read_until(it, got, size):
    """Reads from a connection until so many bytes came, or it ends."""
    while len(got) < size and (piece := it.recv(65536)):
        got += piece


def lowered(client, at):
    """A page of a megabyte, and in the middle of it the link behind the router is lowered. What the client holds is small, so that half of
    the page is still to go then, in full segments."""
    set_mtu(client, 1500)
    with within(client.pid):
        it = socket.socket(socket.AF_INET6 if ":" in at else socket.AF_INET)
        it.setsockopt(socket.SOL_SOCKET, socket.SO_RCVBUF, 32768)
        it.settimeout(60)
        it.connect((at, 80))
    lengths, before, got = Lengths(at), told(), bytearray()
    with it:
        it.sendall(b"GET /megabyte HTTP/1.1\r\nHost: h\r\nConnection: close\r\n\r\n")
        read_until(it, got, HALF)
        longest = max((size for _, size in lengths.seen), default=0)
        set_mtu(client, SMALL)
        began = time.monotonic()
        read_until(it, got, 1 << 30)
        took = time.monotonic() - began
    lengths.stop()
    after = told()
    body = bytes(got).partition(b"\r\n\r\n")[2]
    well = len(body) == 1_000_000 and all(body[n:n + 94] == body[:94] for n in range(0, len(body) - 94, 94))
    late = [when - began for when, size in lengths.seen if when >= began and size > SMALL]
    heard = after[0] - before[0] if ":" in at else after[1] - before[1]
    what = f"a megabyte while the path goes from {longest} to {SMALL} bytes{talk.named(at)}: the second half in {took:.2f} s; " \
        f"{len(late)} longer packets, the last after {max(late, default=0):.2f} s; the router {'told' if ':' in at else 'cut'} {heard} times"
    return say(what, well and longest > SMALL and heard > 0 and (":" not in at or max(late, default=0) < 2))


def sizes(client, at):
    """Datagrams of up to 4,000 bytes, there and back, from the client, over its link of 1,500 bytes."""
    set_mtu(client, 1500)
    with within(client.pid):
        it = socket.socket(talk.family(at), socket.SOCK_DGRAM)
    it.settimeout(2)
    it.connect((at, 7))
    them, well = [1, 1400, 1453, 1473, 2000, 2960, 3000, 3999, 4000], []
    for size in them:
        sent = os.urandom(size)
        it.send(sent)
        try:
            well.append(it.recv(65536) == sent)
        except OSError:
            well.append(False)
    it.close()
    lost = [size for size, came in zip(them, well) if not came]
    return say(f"datagrams of {them[0]} to {them[-1]} bytes echoed{talk.named(at)}{f', but of {lost}' if lost else ''}", not lost)


def pings(client, at):
    """By IPv6 a host asks for its router at the first packet, and what answers that one doesn't wait."""
    set_mtu(client, 1500)
    with within(client.pid):
        if ":" in at:
            with socket.socket(talk.family(at), socket.SOCK_DGRAM) as it:
                it.sendto(b"who is there", (at, 7))
            time.sleep(2)
        return all([talk.pings(3, size, at) for size in (56, 1453, 1473, 2000, 4000)])


def rebuilt(client, at):
    """A datagram in pieces for a port at which nobody is: what says so quotes its front, so the host had all of it."""
    set_mtu(client, 1500)
    with within(client.pid):
        out, heard = socket.socket(talk.family(at), socket.SOCK_DGRAM), socket.socket(talk.family(at), socket.SOCK_RAW, socket.IPPROTO_ICMPV6)
    sent = os.urandom(2000)
    with out, heard:
        out.sendto(sent, (at, 9))
        heard.settimeout(2)
        try:
            while (said := heard.recv(65536))[:2] != b"\1\4":
                pass
        except OSError:
            said = b""
    return say(f"a datagram of {len(sent)} bytes in pieces is rebuilt{talk.named(at)}", sent[:1000] in said)


def main():
    pump_program, program, folder, *rest = [*sys.argv[1:], ""]
    pump = hostile.start(pump_program, program, "-1", *(("-e", STATION) if "tap" in rest else ()))
    taken = hostile.capture(folder)
    client = set_up()
    well = []
    for at, trials in ((OURS, (pings, sizes, lowered)), (OURS6, (pings, sizes, rebuilt, lowered))):
        well += [hostile.tried(it, client, at) for it in trials]
    wrong = hostile.refused()
    well.append(say(f"Linux found {wrong} packets with a wrong header or checksum", wrong == 0))
    if taken:
        taken.send_signal(signal.SIGINT)
        taken.wait()
        os.replace(f"{folder}/hostile.pcap", f"{folder}/path.pcap")
        well += [hostile.looked_at(f"{folder}/path.pcap")]
    talk.stop(pump)
    client.terminate()
    print(f"{sum(well)} of {len(well)} well")
    return 0 if all(well) else 1


if __name__ == "__main__":
    sys.exit(main())
