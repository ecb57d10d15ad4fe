#!/usr/bin/env python3
"""Clients that hold a connection of the site and do nothing with it, in a network namespace of its own (unshare -n):

    idle.py PUMP HOST [COUNT [PAGES]]

COUNT clients (64, as many as the site has sockets) connect to the program `host`: first such that say nothing, then such that ask for a
megabyte and don't read, then such that send one byte of a request each second. Beside each a station fetches PAGES pages (22), one a second:
prints how many came within five seconds, and the middle and the longest of their times. PUMP is linux/pump.c, built.
"""
import socket, statistics, subprocess, sys, threading, time

from path import within
from stations import STATION, fetch, join, namespace
from talk import OURS, say, sh

HEAD = b"GET / HTTP/1.1\r\nHost: h\r\nX: " + b"x" * 4000


def begun(program, pump):
    """The host on a bridge, and two stations."""
    sh("ip", *"link add bridge type bridge forward_delay 0".split())
    sh("ip", *"link set bridge up".split())
    host = subprocess.Popen([pump, "-1", "-e", STATION, "zemplovir", program, f"{OURS}/24", "10.77.0.1"], stdout=subprocess.PIPE, text=True)
    host.stdout.readline()
    sh("ip", *"link set zemplovir master bridge up".split())
    both = [namespace(), namespace()]
    for number, station in enumerate(both):
        join(station, f"s{number}", f"10.77.0.{10 + number}")
    time.sleep(1)
    return host, both


def ended(host, both):
    for it in (host, *both):
        it.terminate()
        it.wait()
    sh("ip", *"link del bridge".split())


def held(station, count, text):
    """So many connections that sent this text, and read nothing."""
    made = []
    with within(station.pid):
        for _ in range(count):
            it = socket.socket(socket.AF_INET, socket.SOCK_STREAM)
            it.setsockopt(socket.SOL_SOCKET, socket.SO_RCVBUF, 4096)
            it.settimeout(2)
            made.append(it)
    for it in made:
        try:
            it.connect((OURS, 80))
            it.sendall(text)
        except OSError:
            pass
    return made


def trickle(connections, ends):
    """Sends a byte on each, once a second; one that was reset connects no more."""
    at = 0
    while not ends.wait(1):
        for it in connections:
            try:
                it.send(HEAD[at:at + 1])
            except OSError:
                pass
        at += 1


def pages(station, count):
    """The times of so many pages, one a second, each by its own thread; None where one doesn't come."""
    times, threads = [], []
    def one():
        with within(station.pid):
            times.append(fetch(OURS))
    for _ in range(count):
        threads.append(threading.Thread(target=one))
        threads[-1].start()
        time.sleep(1)
    for it in threads:
        it.join()
    return times


def tried(pump, program, what, text, trickles, count, most):
    host, both = begun(program, pump)
    ends, connections = threading.Event(), []
    try:
        connections = held(both[0], count, text)
        time.sleep(2)
        sender = threading.Thread(target=trickle, args=(connections, ends))
        if trickles:
            sender.start()
        times = pages(both[1], most)
    finally:
        ends.set()
        for it in connections:
            it.close()
        ended(host, both)
    came = sorted(it for it in times if it is not None)
    spent = f"; middle {statistics.median(came):.3f} s, longest {came[-1]:.3f} s" if came else ""
    return say(f"beside {count} clients that {what}: {len(came)} of {most} pages{spent}", len(came) == most)


def main(pump, program, count=64, most=22):
    count, most = int(count), int(most)
    well = [
        tried(pump, program, "say nothing", b"", False, count, most),
        tried(pump, program, "don't read", b"GET /megabyte HTTP/1.1\r\nHost: h\r\n\r\n", False, count, most),
        tried(pump, program, "send a byte a second", b"", True, count, most),
    ]
    return 0 if all(well) else 1


if __name__ == "__main__":
    sys.exit(main(*sys.argv[1:]))
