#!/usr/bin/env python3
"""A path that carries less than its ends' links, and whose end drops fragments, as firewalls do, in a network namespace of its own (unshare -n):

    blackhole.py PUMP HOST [SIZE [SECONDS [silent]]]

A station fetches a page of a megabyte from the program `host`, and from a Linux server, over a link that drops each IPv4 packet of more than
SIZE bytes (1400) and each fragment, and tells the sender of a packet that may not be cut (RFC 1191). `silent`: it says nothing (RFC 2923), which
the host doesn't notice, and Linux only where its sysctl tcp_mtu_probing is 1, as it is here then. A page has so many SECONDS (15). PUMP is
linux/pump.c, built.
"""
import select, socket, struct, sys, threading, time

import stations
from path import within
from talk import OURS, checksum, say, sh

SERVER = """
import http.server
class Page(http.server.BaseHTTPRequestHandler):
    def do_GET(self):
        self.send_response(200); self.send_header("Content-Length", "1000000"); self.end_headers(); self.wfile.write(bytes(1000000))
    def log_message(self, *words): pass
http.server.ThreadingHTTPServer(("", 80), Page).serve_forever()
"""


def is_dropped(frame, size):
    """An IPv4 packet that is too long (what a router would make of it are fragments), or a fragment."""
    if frame[12:14] != b"\x08\0":
        return False
    return int.from_bytes(frame[16:18], "big") > size or int.from_bytes(frame[20:22], "big") & 0x3FFF != 0


def told(frame, size):
    """What tells of a packet that is too long: a frame back to who sent it."""
    front = struct.pack(">BBHHHBBH", 0x45, 0, 56, 1, 0, 64, 1, 0) + frame[30:34] + frame[26:30]
    rest = struct.pack(">HH", 0, size) + frame[14:42]
    message = b"\3\4" + struct.pack(">H", checksum(b"\3\4\0\0" + rest)) + rest
    return frame[6:12] + frame[:6] + b"\x08\0" + front[:10] + struct.pack(">H", checksum(front)) + front[12:] + message


def forward(ends, here, there, size, tells, dropped):
    """Hands frames over between two devices."""
    of = {}
    for name in (here, there):
        it = socket.socket(socket.AF_PACKET, socket.SOCK_RAW, socket.htons(3))
        it.bind((name, 3))
        it.setsockopt(263, 1, struct.pack("iHH8s", socket.if_nametoindex(name), 1, 0, b""))
        of[it] = name
    one, other = of
    while not ends.is_set():
        for it in select.select([one, other], [], [], 0.2)[0]:
            try:
                frame, at = it.recvfrom(65536)
            except OSError:  # an end that just came up
                continue
            if at[2] == socket.PACKET_OUTGOING:
                continue
            if is_dropped(frame, size):
                dropped.append(len(frame))
                if tells.is_set() and frame[20] & 0x40:
                    it.send(told(frame, size))
            else:
                try:
                    (other if it is one else one).send(frame)
                except OSError:
                    pass


def page(station, at, seconds):
    """How many bytes of the page came, and in what time."""
    with within(station.pid):
        it = socket.socket()
    it.settimeout(seconds)
    began, got = time.monotonic(), 0
    try:
        it.connect((at, 80))
        it.sendall(b"GET /megabyte HTTP/1.1\r\nHost: h\r\nConnection: close\r\n\r\n")
        while time.monotonic() - began < seconds and (piece := it.recv(65536)):
            got += len(piece)
    except OSError:
        pass
    it.close()
    return got, time.monotonic() - began


def main():
    pump, program, *rest = sys.argv[1:]
    size, seconds, telling = int(rest[0]) if rest else 1400, float(rest[1]) if rest[1:] else 15, "silent" not in rest
    stations.SERVER = SERVER
    host, pages, namespaces, (station,) = stations.set_up(pump, program, 1)
    # the station's end leaves the bridge, and the forwarder joins it again
    sh("ip", "link", "set", "s0", "nomaster")
    sh("ip", *"link add tap0 type veth peer name tap1".split())
    sh("ip", *"link set tap1 master bridge up".split())
    sh("ip", *"link set tap0 up".split())
    for name, process in (("lan", station), ("lan", namespaces[0])):
        sh("nsenter", "-t", str(process.pid), "-n", "ethtool", "-K", name, "tx", "off", "gso", "off", "tso", "off")
    ends, tells, dropped, well = threading.Event(), threading.Event(), [], []
    threading.Thread(target=forward, args=(ends, "s0", "tap0", size, tells, dropped)).start()
    if telling:
        tells.set()
    else:
        sh("nsenter", "-t", str(namespaces[0].pid), "-n", "sh", "-c", "echo 1 > /proc/sys/net/ipv4/tcp_mtu_probing")
    try:
        for name, at in (("the host", OURS), ("Linux", stations.LINUX_SERVER)):
            before = len(dropped)
            got, took = page(station, at, seconds)
            what = f"{name}: {got} bytes in {took:.2f} s through a path of {size} that {'tells' if telling else 'says nothing'}"
            well.append(say(f"{what}; {len(dropped) - before} packets dropped", got > 1_000_000 and took < 5))
    finally:
        ends.set()
        for it in (host, pages, *namespaces):
            it.terminate()
    return 0 if well[0] else 1


if __name__ == "__main__":
    sys.exit(main())
