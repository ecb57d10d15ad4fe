#!/usr/bin/env python3
"""Datagrams from addresses that never answer, beside a station that is there, in a network namespace of its own (unshare -n):

    starve.py PUMP HOST [RATE [COUNT]]

A station sends COUNT datagrams (300) to the echo of the program `host`, ten a second, and counts those that come back within a second. Meanwhile
another one sends datagrams to the same echo from addresses of the network that nobody has, and from addresses of other networks: RATE a second
(0.8, four each five seconds). Then the same beside a Linux server. PUMP is linux/pump.c, built.
"""
import socket, struct, subprocess, sys, threading, time

import stations
from path import within
from talk import OURS, checksum, say

ECHO = """
import socket
it = socket.socket(socket.AF_INET, socket.SOCK_DGRAM); it.bind(("", 7))
while True:
    got, at = it.recvfrom(65536)
    try: it.sendto(got, at)
    except OSError: pass
"""
NOBODY = [f"10.77.0.{number}" for number in range(200, 250)] + [f"192.0.2.{number}" for number in range(1, 50)]


def datagram(hardware, own, source, to, text=b"nobody"):
    """A frame with a datagram to the echo."""
    ends = socket.inet_aton(source) + socket.inet_aton(to)
    head = struct.pack(">HHHH", 40000, 7, 8 + len(text), 0)
    right = checksum(ends + struct.pack(">BBH", 0, 17, len(head + text)) + head + text) or 0xFFFF
    udp = head[:6] + struct.pack(">H", right) + text
    front = struct.pack(">BBHHHBBH", 0x45, 0, 20 + len(udp), 1, 0, 64, 17, 0) + ends
    return hardware + own + b"\x08\0" + front[:10] + struct.pack(">H", checksum(front)) + front[12:] + udp


def attack(station, hardware, to, rate, ends):
    with within(station.pid):
        it = socket.socket(socket.AF_PACKET, socket.SOCK_RAW)
        it.bind(("lan", 0))
    with it:
        number = 0
        while not ends.wait(1 / rate):
            source = NOBODY[number * 7 % len(NOBODY)]
            it.send(datagram(hardware, it.getsockname()[4], source, to, b"nobody %d" % number))
            number += 1


def hardware_of(station, at):
    """The hardware address that a station has for this address, once it has spoken with it."""
    said = subprocess.run(["nsenter", "-t", str(station.pid), "-n", "ip", "neigh", "show", at], capture_output=True, text=True).stdout.split()
    return bytes.fromhex(said[said.index("lladdr") + 1].replace(":", ""))


def echoes(station, at, count):
    """How many of so many datagrams come back within a second of their own."""
    with within(station.pid):
        it = socket.socket(socket.AF_INET, socket.SOCK_DGRAM)
    it.connect((at, 7))
    it.settimeout(0.05)
    began, sent, came = time.monotonic(), [], {}
    while len(sent) < count or time.monotonic() - sent[-1] < 1:
        if len(sent) < count and time.monotonic() >= began + len(sent) / 10:
            it.send(b"%d" % len(sent))
            sent.append(time.monotonic())
        try:
            number = int(it.recv(100))
            came.setdefault(number, time.monotonic() - sent[number])
        except OSError:
            pass
    it.close()
    return sum(took < 1 for took in came.values())


def main():
    pump, program, *rest = sys.argv[1:]
    rate, count = float(rest[0]) if rest else 0.8, int(rest[1]) if rest[1:] else 300
    host, pages, namespaces, (near, far) = stations.set_up(pump, program, 2)
    echo = subprocess.Popen(["nsenter", "-t", str(namespaces[0].pid), "-n", sys.executable, "-c", ECHO])
    well = []
    try:
        for name, at in (("the host", OURS), ("Linux", stations.LINUX_SERVER)):
            stations_know = [echoes(station, at, 2) for station in (near, far)]
            ends = threading.Event()
            attacker = threading.Thread(target=attack, args=(far, hardware_of(far, at), at, rate, ends))
            attacker.start()
            came = echoes(near, at, count)
            ends.set()
            attacker.join()
            well.append(say(f"{name}: {came} of {count} echoes beside {rate:g} datagrams a second from nobody", came == count and all(stations_know)))
    finally:
        for it in (host, pages, echo, *namespaces):
            it.terminate()
    return 0 if all(well) else 1


if __name__ == "__main__":
    sys.exit(main())
