#!/usr/bin/env python3
"""The program `host boot` and a DHCP server that answers each message at once, by what makes a careless client ask again at once: a refusal, a
lease that is over or to be renewed at once, an address that no host can have.

    storm.py HOST

For a minute of the host's clock, which is this program's, at most one message a second may go, the first request for an offer besides (RFC
2131, section 4.1), and the host isn't to take an address of the network 0, of the loopback network, of a group, or a broadcast.
"""
import struct
import sys
import tempfile

sys.dont_write_bytecode = True
import boot

SECOND, MINUTE = 1_000_000, 60_000_000
SERVER, SERVER_IP = bytes([2, 0, 0, 0, 0, 1]), bytes([10, 11, 12, 1])
DISCOVER, OFFER, REQUEST, ACK, NAK = 1, 2, 3, 5, 6
ALL = bytes([255] * 4)


def seconds(code, count):
    """A time as an option."""
    return struct.pack(">BBI", code, 4, count)


MASK = bytes([1, 4, 255, 255, 255, 0])
HOUR = MASK + seconds(51, 3600)
USUAL = bytes([10, 11, 12, 54])
# What is given behind a request: the kind of message, its options, the address; and whether the host is configured by it.
GIVEN = {
    "a server that refuses": (NAK, b"", USUAL, False),
    "leases of no time": (ACK, MASK + seconds(51, 0), USUAL, False),
    "leases of a second": (ACK, MASK + seconds(51, 1), USUAL, True),
    "T1 at once": (ACK, HOUR + seconds(58, 0) + seconds(59, 1800), USUAL, True),
    "T1 and T2 at once": (ACK, HOUR + seconds(58, 0) + seconds(59, 1), USUAL, True),
    "an address of the network 0": (ACK, HOUR, bytes([0, 11, 12, 54]), False),
    "an address of the loopback network": (ACK, HOUR, bytes([127, 0, 0, 1]), False),
    "a group": (ACK, HOUR, bytes([224, 0, 0, 1]), False),
    "the broadcast of the network": (ACK, HOUR, bytes([10, 11, 12, 255]), False),
}


def checksum(data):
    total = sum(struct.unpack(f">{len(data) // 2}H", data))
    while total >> 16:
        total = (total & 0xFFFF) + (total >> 16)
    return ~total & 0xFFFF


def answer(message, kind, options, address, to):
    """The frame that answers a message of DHCP."""
    inside = bytes([53, 1, kind, 54, 4]) + SERVER_IP + options + b"\xff"
    given = bytes(4) if kind == NAK else address
    data = bytes([2, 1, 6, 0]) + message[4:8] + bytes(4) + message[12:16] + given + bytes(8) + message[28:44] + bytes(192) + bytes([99, 130, 83, 99]) + inside
    datagram = struct.pack(">HHHH", 67, 68, 8 + len(data), 0) + data
    head = struct.pack(">BBHHHBBH", 0x45, 0, 20 + len(datagram), 0, 0, 64, 17, 0) + SERVER_IP + to
    head = head[:10] + struct.pack(">H", checksum(head)) + head[12:]
    station = b"\xff" * 6 if to == ALL else boot.STATION
    return station + SERVER + b"\x08\0" + head + datagram


def heard(frame, sent, now, kind, options, address):
    """What the server says to a frame, if anything: an answer to ARP, or to a message, which counts as sent."""
    if frame[12:14] == b"\x08\x06" and frame[20:22] == b"\0\1" and frame[38:42] == SERVER_IP:
        return [frame[6:12] + SERVER + frame[12:20] + b"\0\2" + SERVER + SERVER_IP + frame[22:32]]
    if frame[12:14] != b"\x08\0" or frame[23] != 17 or frame[36:38] != b"\0\x43":
        return []
    message = frame[42:]
    sent.append((now, message[242]))
    # a client that has an address hears what goes to it alone
    to = message[12:16] if any(message[12:16]) else ALL
    if message[242] == DISCOVER:
        return [answer(message, OFFER, HOUR, address, to)]
    return [answer(message, kind, options, address, to)]


def storm(program, kind, options, address):
    """The messages of a minute, with their moments, and whether the host was configured."""
    with tempfile.TemporaryDirectory() as folder:
        host, sent, waiting = boot.Host(program, 1, [], folder), [], []
        while host.now < MINUTE:
            for frame in host.turn(waiting.pop(0) if waiting else b""):
                waiting += heard(frame, sent, host.now, kind, options, address)
            if not waiting:
                host.now = min(max(host.now + 1000, host.at), MINUTE)
        configured = boot.has(host.lines(), " configured ")
        host.end()
    return sent, configured


def main():
    bad = 0
    for name, (kind, options, address, may_take) in GIVEN.items():
        sent, configured = storm(sys.argv[1], kind, options, address)
        gaps = [now - before for (before, first), (now, second) in zip(sent, sent[1:]) if (first, second) != (DISCOVER, REQUEST)]
        good = len(sent) <= MINUTE // SECOND + 1 and min(gaps, default=SECOND) >= SECOND and configured == may_take
        bad += not good
        print(f"storm: {'ok' if good else 'WRONG'}: {name}: {len(sent)} messages in a minute, {'configured' if configured else 'no address'}")
    sys.exit(1 if bad else 0)


if __name__ == "__main__":
    main()
