#!/usr/bin/env python3
"""A long exchange for the program `host`, without a device: turns.py COUNT writes so many turns to standard output.

Each turn brings an ICMP echo request, a datagram to port 7, or nothing, in turn, a millisecond apart. `turns.py COUNT HOST` gives
them to the program and says every hundred thousand turns how much memory it holds (VmRSS), and at the end how long it took.
"""
import struct, subprocess, sys, threading, time

OWN, OTHER = bytes([10, 77, 0, 2]), bytes([10, 77, 0, 1])
# a link of bare packets, no hardware address; the addresses of IPv4; none of IPv6; the seed
SETTINGS = bytes(7) + OWN + bytes([24]) + OTHER + bytes(33) + struct.pack("<Q", 7)


def checksum(data):
    total = sum(struct.unpack(f">{len(data) // 2}H", data))
    while total >> 16:
        total = (total & 0xFFFF) + (total >> 16)
    return total ^ 0xFFFF


def packet(protocol, payload):
    head = struct.pack(">BBHHHBBH4s4s", 0x45, 0, 20 + len(payload), 1, 0, 64, protocol, 0, OTHER, OWN)
    return head[:10] + struct.pack(">H", checksum(head)) + head[12:] + payload


def ping(number):
    rest = struct.pack(">HH", 4242, number % 65536) + bytes(56)
    return packet(1, b"\x08\0" + struct.pack(">H", checksum(b"\x08\0\0\0" + rest)) + rest)


def datagram(number):
    text = struct.pack(">Q", number) * 16
    return packet(17, struct.pack(">HHHH", 40000, 7, 8 + len(text), 0) + text)


def turns(count):
    for number in range(count):
        come = SETTINGS if number == 0 else (b"", ping(number), datagram(number))[number % 3]
        yield struct.pack("<HQ", len(come), number * 1000) + come


def resident(pid):
    with open(f"/proc/{pid}/status") as status:
        return next(line.split()[1] for line in status if line.startswith("VmRSS"))


def main():
    count = int(sys.argv[1])
    if len(sys.argv) < 3:
        for turn in turns(count):
            sys.stdout.buffer.write(turn)
        return
    host = subprocess.Popen([sys.argv[2]], stdin=subprocess.PIPE, stdout=subprocess.PIPE)
    got = [0]

    def drain():
        while piece := host.stdout.read(1 << 16):
            got[0] += len(piece)

    reader = threading.Thread(target=drain)
    reader.start()
    began = time.monotonic()
    for number, turn in enumerate(turns(count)):
        host.stdin.write(turn)
        if number % 100_000 == 1000:
            host.stdin.flush()
            print(f"{number} turns: {resident(host.pid)} kB", flush=True)
    host.stdin.flush()
    time.sleep(0.5)
    print(f"{count} turns: {resident(host.pid)} kB", flush=True)
    host.stdin.close()
    reader.join()
    print(f"{got[0]} bytes answered in {time.monotonic() - began:.1f} s, status {host.wait()}")


main()
