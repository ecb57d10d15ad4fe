#!/usr/bin/env python3
"""Prints a recorded exchange, the files stdin and stdout of a folder: show.py FOLDER [PORT], with a port that port's packets alone.

Each line has the moment in seconds and a packet that came (<) or that answers it (>), or the moment for which the host asks (next).
"""
import ipaddress, struct, sys

NEVER = 2**64 - 1
FLAGS = ("FIN", "SYN", "RST", "PSH", "ACK")
CONTROL = {0: "echo reply", 3: "unreachable", 8: "echo request", 11: "time exceeded"}
CONTROL6 = {1: "unreachable", 128: "echo request", 129: "echo reply", 133: "router solicitation", 135: "neighbor solicitation", 136: "neighbor advertisement"}


def tcp(segment):
    source, target, number, wanted, head, flags, window = struct.unpack(">HHIIBBH", segment[:16])
    set_ = "+".join(name for i, name in enumerate(FLAGS) if flags >> i & 1)
    size = len(segment) - (head >> 4) * 4
    return (source, target), f"tcp {source} > {target} {set_} seq {number} ack {wanted} window {window}, {size} bytes"


def udp(datagram):
    source, target, size = struct.unpack(">HHH", datagram[:6])
    return (source, target), f"udp {source} > {target}, {size - 8} bytes"


def within(protocol, it, names):
    if protocol == 6:
        return tcp(it)
    if protocol == 17:
        return udp(it)
    if protocol in (1, 58):
        return (), f"icmp {names.get(it[0], it[0])}, {len(it)} bytes"
    return (), f"protocol {protocol}, {len(it)} bytes"


def packet(it):
    """The ports of a packet, and what it is in words."""
    if it[0] >> 4 == 4:
        return within(it[9], it[(it[0] & 15) * 4:], CONTROL)
    if it[0] >> 4 == 6:
        ports, text = within(it[6], it[40:], CONTROL6)
        return ports, f"IPv6 {text}"
    return (), f"IP version {it[0] >> 4}, {len(it)} bytes"


def frame(it):
    """The same of an Ethernet frame."""
    kind = struct.unpack(">H", it[12:14])[0]
    if kind in (0x0800, 0x86DD):
        return packet(it[14:])
    if kind == 0x0806:
        sender, target = (ipaddress.ip_address(it[at:at + 4]) for at in (28, 38))
        return (), f"arp {'request' if it[21] == 1 else 'reply'} from {sender} for {target}"
    return (), f"type {kind:04x}, {len(it)} bytes"


def settings(it):
    link = f"Ethernet {it[1:7].hex(':')}" if it[0] else "bare IP"
    families = [
        f"{ipaddress.ip_address(it[at:at + size])}/{it[at + size]}, router {ipaddress.ip_address(it[at + size + 1:at + 2 * size + 1])}"
        for at, size in ((7, 4), (16, 16))
    ]
    return f"settings: {link}; {'; '.join(families)}; seed {struct.unpack('<Q', it[49:57])[0]}{'; a key' if it[57:] else ''}"


def take(file, count):
    got = file.read(count)
    if len(got) < count:
        raise EOFError
    return got


def turn(stdin):
    """The next turn's moment and packet."""
    size, moment = struct.unpack("<HQ", take(stdin, 10))
    return moment, take(stdin, size)


def answer(stdout):
    """The packets of the next answer, and the moment that it asks for."""
    packets = []
    while size := struct.unpack("<H", take(stdout, 2))[0]:
        packets.append(take(stdout, size))
    return packets, struct.unpack("<Q", take(stdout, 8))[0]


def exchange(stdin, stdout):
    """Each turn's moment and packet, the packets that answer it, and the moment that is asked for; the last may have been cut off."""
    try:
        while True:
            yield (*turn(stdin), *answer(stdout))
    except EOFError:
        pass


def show(stdin, stdout, port):
    shape = packet
    for count, (moment, come, packets, at) in enumerate(exchange(stdin, stdout)):
        if count == 0 and come[0]:
            shape = frame
        lines = [] if count == 0 or not come else [("<", *shape(come))]
        lines += [(">", *shape(it)) for it in packets]
        shown = [(way, text) for way, ports, text in lines if port is None or port in ports]
        if count == 0:
            print(f"{moment / 1e6:.6f} {settings(come)}")
        for way, text in shown or ([("-", "tick")] if port is None and count else []):
            print(f"{moment / 1e6:.6f} {way} {text}")
        if shown or port is None:
            print(f"{'':8} next {'never' if at == NEVER else f'{at / 1e6:.6f}'}")


with open(f"{sys.argv[1]}/stdin", "rb") as stdin, open(f"{sys.argv[1]}/stdout", "rb") as stdout:
    show(stdin, stdout, int(sys.argv[2]) if len(sys.argv) > 2 else None)
