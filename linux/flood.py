#!/usr/bin/env python3
"""SYNs from addresses that never answer, at the site, in a network namespace of its own (unshare -n):

    flood.py PUMP HOST [PAGES [RATE ..]]

A station sends RATE SYNs a second (100, 130, 500, 10000), each from another address of a network behind it that nobody has, to the port of the
site; from the first of them on another station fetches PAGES pages (30), three a second: prints how many came within five seconds, and the
middle and the longest of their times; then the same of a Linux server. It fetched a page before, so the host knows its hardware address. With a
rate of 0 nothing else is on the link. PUMP is linux/pump.c, built.
"""
import random, socket, statistics, struct, subprocess, sys, threading, time

from idle import begun, ended
from path import within
from stations import LINUX_SERVER, SERVER, fetch, join, namespace
from talk import OURS, say, sh

FROM, PORT = "10.88", 80


def checksum(data):
    total = sum(struct.unpack(f"!{len(data) // 2}H", data))
    while total >> 16:
        total = (total & 0xffff) + (total >> 16)
    return ~total & 0xffff


def syn(source, target, port, seq):
    """A SYN behind an IPv4 header (RFC 791, 3.1; RFC 9293, 3.1)."""
    ends = socket.inet_aton(source) + socket.inet_aton(target)
    head = struct.pack("!HHIIBBHHH", port, PORT, seq, 0, 5 << 4, 2, 64240, 0, 0)
    summed = checksum(ends + struct.pack("!BBH", 0, 6, len(head)) + head)
    return struct.pack("!BBHHHBBH", 0x45, 0, 40, 0, 0x4000, 64, 6, 0) + ends + head[:16] + struct.pack("!H", summed) + head[18:]


def flood(station, at, rate, ends, sent):
    """Sends so many SYNs a second, until it ends."""
    draw = random.Random(rate)
    with within(station.pid):
        raw = socket.socket(socket.AF_INET, socket.SOCK_RAW, socket.IPPROTO_RAW)
    start = time.monotonic()
    while not ends.is_set():
        while sent[0] < (time.monotonic() - start) * rate:
            source = f"{FROM}.{draw.randrange(1, 255)}.{draw.randrange(1, 255)}"
            raw.sendto(syn(source, at, draw.randrange(1024, 65536), draw.getrandbits(32)), (at, 0))
            sent[0] += 1
        time.sleep(0.001)


def pages(station, at, count):
    """The times of so many pages, three a second, each by its own thread; None where one doesn't come."""
    times, threads = [], []

    def one():
        with within(station.pid):
            times.append(fetch(at))
    for _ in range(count):
        threads.append(threading.Thread(target=one))
        threads[-1].start()
        time.sleep(1 / 3)
    for it in threads:
        it.join()
    return times


def served():
    """A Linux server, whose way to those that never answer is by a router that nobody is."""
    server = namespace()
    join(server, "server", LINUX_SERVER)
    sh("nsenter", "-t", str(server.pid), "-n", *"ip route add default via 10.77.0.1".split())
    site = subprocess.Popen(["nsenter", "-t", str(server.pid), "-n", sys.executable, "-c", SERVER])
    time.sleep(1)
    return server, site


def tried(name, both, at, rate, most):
    """Whether nearly each page of a site comes within a second beside a flood."""
    ends, sent = threading.Event(), [0]
    sender = threading.Thread(target=flood, args=(both[0], at, rate, ends, sent))
    try:
        # (the host knows its neighbor: linux/starve.py asks what becomes of those that it has to search for)
        pages(both[1], at, 1)
        if rate:
            sender.start()
        times = pages(both[1], at, most)
    finally:
        ends.set()
        if sender.is_alive():
            sender.join()
    came = sorted(it for it in times if it is not None)
    said = f"; middle {statistics.median(came):.3f} s, longest {came[-1]:.3f} s" if came else ""
    fast = sum(it < 1 for it in came)
    return say(f"{name} beside {rate} SYNs a second that nobody answers: {len(came)} of {most} pages, {fast} within a second{said}", fast >= 0.95 * most)


def both_tried(pump, program, rate, most):
    """The host, and a Linux server beside it, whose figure is to be compared."""
    host, both = begun(program, pump)
    server, site = served()
    try:
        well = tried("the host", both, OURS, rate, most)
        tried("Linux", both, LINUX_SERVER, rate, most)
        return well
    finally:
        ended(host, [*both, site, server])


def main(pump, program, most=30, *rates):
    most = int(most)
    well = [both_tried(pump, program, int(rate), most) for rate in rates or (0, 100, 130, 500, 10000)]
    return 0 if all(well) else 1


if __name__ == "__main__":
    sys.exit(main(*sys.argv[1:]))
