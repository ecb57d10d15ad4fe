#!/usr/bin/env python3
"""First fragments whose rest never comes, beside a station that sends whole datagrams, in a network namespace of its own (unshare -n):

    fragments.py PUMP HOST [RATE [COUNT]]

A station sends COUNT datagrams of 4,000 bytes (120), which its kernel sends in fragments, to the echo of the program `host`, four a second, and
counts those that come back within a second. Meanwhile another one sends RATE first fragments a second (2) to the same echo, by turns from its own
address and from one of many that nobody has. Then the same beside a Linux server. PUMP is linux/pump.c, built.
"""
import socket, struct, subprocess, sys, threading, time

import stations
from path import within
from starve import ECHO, NOBODY, hardware_of
from talk import OURS, checksum, say

LEN = 4000


def first_fragment(hardware, own, source, to, number):
    """A frame with the first 1,000 bytes of a datagram."""
    part = struct.pack(">HHHH", 40000, 7, 8 + LEN, 0) + bytes(992)
    front = struct.pack(">BBHHHBBH", 0x45, 0, 20 + len(part), number & 0xFFFF, 0x2000, 64, 17, 0) + socket.inet_aton(source) + socket.inet_aton(to)
    return hardware + own + b"\x08\0" + front[:10] + struct.pack(">H", checksum(front)) + front[12:] + part


def attack(station, address, hardware, to, rate, ends):
    with within(station.pid):
        it = socket.socket(socket.AF_PACKET, socket.SOCK_RAW)
        it.bind(("lan", 0))
    with it:
        number = 0
        while not ends.wait(1 / rate):
            source = address if number % 2 == 0 else NOBODY[number * 7 % len(NOBODY)]
            it.send(first_fragment(hardware, it.getsockname()[4], source, to, number))
            number += 1


def echoes(station, at, count):
    """How many of so many datagrams come back whole within a second of their own."""
    with within(station.pid):
        it = socket.socket(socket.AF_INET, socket.SOCK_DGRAM)
    it.connect((at, 7))
    it.settimeout(0.05)
    began, sent, came = time.monotonic(), [], {}
    text = bytes(n % 251 for n in range(LEN - 8))
    while len(sent) < count or time.monotonic() - sent[-1] < 1:
        if len(sent) < count and time.monotonic() >= began + len(sent) / 4:
            it.send(b"%08d" % len(sent) + text)
            sent.append(time.monotonic())
        try:
            got = it.recv(65536)
            if got[8:] == text:
                came.setdefault(int(got[:8]), time.monotonic() - sent[int(got[:8])])
        except OSError:
            pass
    it.close()
    return sum(took < 1 for took in came.values())


def main():
    pump, program, *rest = sys.argv[1:]
    rate, count = float(rest[0]) if rest else 2, int(rest[1]) if rest[1:] else 120
    host, pages, namespaces, (near, far) = stations.set_up(pump, program, 2)
    echo = subprocess.Popen(["nsenter", "-t", str(namespaces[0].pid), "-n", sys.executable, "-c", ECHO])
    well = []
    try:
        for name, at in (("the host", OURS), ("Linux", stations.LINUX_SERVER)):
            know = [echoes(station, at, 2) for station in (near, far)]
            ends = threading.Event()
            own = f"10.77.0.{stations.FIRST + 1}"
            attacker = threading.Thread(target=attack, args=(far, own, hardware_of(far, at), at, rate, ends))
            attacker.start()
            came = echoes(near, at, count)
            ends.set()
            attacker.join()
            well.append(say(f"{name}: {came} of {count} datagrams in fragments beside {rate:g} first fragments a second", came == count and all(know)))
    finally:
        for it in (host, pages, echo, *namespaces):
            it.terminate()
    return 0 if all(well) else 1


if __name__ == "__main__":
    sys.exit(main())
