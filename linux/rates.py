#!/usr/bin/env python3
"""How fast the program's echoes answer over a TUN device, beside those of Linux's own stack behind a second TUN device, both through
the same pump, in a network namespace of its own (unshare -n):

    rates.py PUMP HOST SECONDS [tap]

TCP: round trips of 64 bytes one at a time, and bytes there and back with the pipe kept full. UDP: round trips of 64 bytes one at a time,
and datagrams of 1,400 bytes there and back, 32 of them under way. Each for so many seconds. PUMP is linux/pump.c, built. `tap` makes the
devices carry Ethernet frames. It prints a table.
"""
import socket, sys, time

import badlink, hostile
from talk import OURS, STATION

PORT = (OURS, 7)


def stream_trips(seconds):
    count, text = 0, bytes(range(64))
    with socket.create_connection(PORT, timeout=20) as it:
        it.setsockopt(socket.IPPROTO_TCP, socket.TCP_NODELAY, 1)
        end = time.monotonic() + seconds
        while time.monotonic() < end:
            it.sendall(text)
            got = b""
            while len(got) < len(text):
                got += it.recv(len(text) - len(got))
            assert got == text
            count += 1
    return f"{count / seconds:.0f} /s"


def stream_bytes(seconds):
    piece, got = bytes(16384), 0
    with socket.create_connection(PORT, timeout=20) as it:
        it.setblocking(False)
        end = time.monotonic() + seconds
        while time.monotonic() < end:
            for act in (lambda: it.send(piece) and 0, lambda: len(it.recv(65536))):
                try:
                    got += act()
                except BlockingIOError:
                    pass
    return f"{got / seconds / 1e6:.2f} MB/s"


def datagram_trips(seconds):
    count, lost, text = 0, 0, bytes(range(64))
    with socket.socket(socket.AF_INET, socket.SOCK_DGRAM) as it:
        it.settimeout(1)
        it.connect(PORT)
        end = time.monotonic() + seconds
        while time.monotonic() < end:
            it.send(text)
            try:
                count += it.recv(2000) == text
            except TimeoutError:
                lost += 1
    return f"{count / seconds:.0f} /s{f', {lost} lost' if lost else ''}"


def datagram_bytes(seconds, size=1400, most=32):
    """A datagram goes for each that comes back; where none comes for a second, those under way are lost, and so many go again."""
    text, sent, got = bytes(size), 0, 0
    with socket.socket(socket.AF_INET, socket.SOCK_DGRAM) as it:
        it.settimeout(1)
        it.connect(PORT)
        end, under_way = time.monotonic() + seconds, 0
        while time.monotonic() < end:
            while under_way < most:
                it.send(text)
                sent, under_way = sent + 1, under_way + 1
            try:
                got += len(it.recv(2000)) == size
                under_way -= 1
            except TimeoutError:
                under_way = 0
    return f"{got * size / seconds / 1e6:.2f} MB/s, {sent - got - under_way} of {sent} lost"


RATES = (
    ("TCP, 64 bytes there and back", stream_trips),
    ("TCP, the pipe full", stream_bytes),
    ("UDP, 64 bytes there and back", datagram_trips),
    ("UDP, 1,400 bytes, 32 under way", datagram_bytes),
)


def main():
    pump, program, seconds, *rest = sys.argv[1:]
    options = ("-e", STATION) if "tap" in rest else ()
    host = hostile.start(pump, program, *options)
    first = [it(float(seconds)) for _, it in RATES]
    badlink.end([host])
    started = badlink.linux_beyond(pump, *options)
    second = [it(float(seconds)) for _, it in RATES]
    badlink.end(started)
    print(f"| Echo over {'TAP' if options else 'TUN'} | The host | Linux's own stack |\n|---|---|---|")
    for (name, _), host_rate, linux_rate in zip(RATES, first, second):
        print(f"| {name} | {host_rate} | {linux_rate} |")


if __name__ == "__main__":
    main()
