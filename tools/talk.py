#!/usr/bin/env python3
"""Talks to an echo at port 7 of an address: datagrams of several lengths, so many megabytes through a stream and back with their sum, round
trips, and a ping.

    talk.py ADDRESS [MEGABYTES]
"""
import hashlib
import os
import socket
import struct
import sys
import threading
import time

ADDRESS, MEGABYTES = sys.argv[1], int(sys.argv[2]) if len(sys.argv) > 2 else 20
PIECE = bytes(it * 7 % 251 for it in range(1 << 20))


def datagrams():
    it = socket.socket(socket.AF_INET, socket.SOCK_DGRAM)
    it.settimeout(5)
    for length in (0, 1, 100, 1472, 1473, 3000):
        sent = os.urandom(length)
        it.sendto(sent, (ADDRESS, 7))
        got, _ = it.recvfrom(70000)
        assert got == sent, f"a datagram of {length} bytes came back as {len(got)} others"
    return "datagrams"


def stream():
    it = socket.create_connection((ADDRESS, 7), 10)
    sums = hashlib.sha256(), hashlib.sha256()

    def send():
        for _ in range(MEGABYTES):
            it.sendall(PIECE)
            sums[0].update(PIECE)
        it.shutdown(socket.SHUT_WR)

    begun, count = time.time(), 0
    sender = threading.Thread(target=send)
    sender.start()
    while got := it.recv(1 << 20):
        sums[1].update(got)
        count += len(got)
    sender.join()
    took = time.time() - begun
    assert count == MEGABYTES << 20, f"{count} bytes of {MEGABYTES << 20} came back"
    assert sums[0].digest() == sums[1].digest(), "other bytes came back"
    return f"{count / 1e6 / took:.0f} MB/s there and back"


def trips():
    it = socket.create_connection((ADDRESS, 7), 10)
    it.setsockopt(socket.IPPROTO_TCP, socket.TCP_NODELAY, 1)
    begun, count = time.time(), 0
    while time.time() - begun < 2:
        it.sendall(b"y" * 64)
        left = 64
        while left:
            left -= len(it.recv(left))
        count += 1
    return f"{count / (time.time() - begun):.0f} round trips a second"


def word_sum(data):
    total = sum(struct.unpack(f"!{len(data) // 2}H", data))
    while total >> 16:
        total = (total & 0xFFFF) + (total >> 16)
    return 0xFFFF ^ total


def ping():
    try:
        it = socket.socket(socket.AF_INET, socket.SOCK_RAW, socket.IPPROTO_ICMP)
    except PermissionError:
        return "no ping"
    it.settimeout(5)
    for number in range(1, 6):
        body = struct.pack("!HH", 0x5A57, number) + PIECE[:56]
        head = struct.pack("!BBH", 8, 0, word_sum(b"\x08\0\0\0" + body))
        it.sendto(head + body, (ADDRESS, 0))
        while True:
            packet, _ = it.recvfrom(2048)
            message = packet[(packet[0] & 15) * 4 :]
            if message[0] == 0 and message[4:8] == body[:4]:
                break
        assert message[4:] == body, "other bytes came back"
    return "pings"


print(", ".join(it() for it in (datagrams, ping, stream, trips)))
