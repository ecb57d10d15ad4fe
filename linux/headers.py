#!/usr/bin/env python3
"""What the program `host` does with extension headers of IPv6 (RFC 8200, section 4), in a network namespace of its own (unshare -n):

    headers.py HOST [--tap MAC]

Linux's own stack puts hop-by-hop and destination options before datagrams and a stream. Packets that it wouldn't send (routing headers
with segments left, fragment headers, options that nobody knows) are written here and go by a raw socket; what Linux's stack makes of the
answers, their checksum verified, is what counts.
"""
import ipaddress, os, socket, struct, sys, time

import talk
from talk import LINUX6, OURS6, say

HOP, DESTINATION, ROUTING, FRAGMENT, NONE = 0, 60, 43, 44, 59
ICMPV6, UDP = 58, 17
# of <linux/in6.h>
IPV6_HOPOPTS, IPV6_DSTOPTS = 54, 59
GROUP = "ff02::1"


def packed(at):
    return ipaddress.ip_address(at).packed


def options(*them):
    """Options, padded to whole units behind the two bytes of a header's front."""
    body = b"".join(bytes([kind, len(data)]) + data for kind, data in them)
    missing = -(2 + len(body)) % 8
    return body + (b"\0" if missing == 1 else bytes([1, missing - 2]) + bytes(missing - 2) if missing else b"")


def header(next_header, body):
    """A header that says its length in units of eight bytes beyond the first."""
    return bytes([next_header, (2 + len(body)) // 8 - 1]) + body


def fragment(next_header, offset, more, number):
    return struct.pack("!BBHI", next_header, 0, offset | more, number)


def checked(source, destination, protocol, message, at):
    """The message with its checksum, which stands at this place."""
    pseudo = packed(source) + packed(destination) + struct.pack("!I3xB", len(message), protocol)
    return message[:at] + talk.checksum(pseudo + message).to_bytes(2, "big") + message[at + 2:]


def packet(next_header, payload, to=OURS6):
    return struct.pack("!IHBB", 6 << 28, len(payload), next_header, 64) + packed(LINUX6) + packed(to) + payload


def echo(rest, to=OURS6):
    return checked(LINUX6, to, ICMPV6, b"\x80\0\0\0" + rest, 2)


def ask(it, out, sent, wanted, seconds=2):
    """Sends a packet, and says whether a message comes of which this holds. Without one that is wanted, none may come."""
    out.sendto(sent, (OURS6 if sent[24] != 0xff else GROUP, 0, 0, socket.if_nametoindex("zemplovir")))
    end = time.monotonic() + (seconds if wanted else 0.4)
    while (left := end - time.monotonic()) > 0:
        it.settimeout(left)
        try:
            message, who = it.recvfrom(65536)
        except OSError:
            break
        if who[0] != OURS6 or message[0] in (133, 134, 135, 136, 143):
            continue
        return bool(wanted) and wanted(message)
    return not wanted


def is_reply(rest):
    return lambda message: message[0] == 129 and message[4:] == rest


def is_problem(code, place, sent):
    """A parameter problem at this place of a packet, which it quotes as it went."""
    return lambda message: message[:2] == bytes([4, code]) and message[4:8] == place.to_bytes(4, "big") and message[8:] == sent[:1280 - 48]


def cases():
    """What is sent, and what is wanted of the answer: a test of it, or none where nothing may come."""
    rest = struct.pack("!HH", 4343, 1) + os.urandom(40)
    request, reply = echo(rest), is_reply(rest)
    skipped, dropped, told, told_one = (options((kind, b"zz")) for kind in (0x3e, 0x7e, 0xbe, 0xfe))
    yield "hop-by-hop options", packet(HOP, header(ICMPV6, options()) + request), reply
    yield "a router alert", packet(HOP, header(ICMPV6, options((5, b"\0\0"))) + request), reply
    yield "destination options", packet(DESTINATION, header(ICMPV6, options((0x1e, bytes(20)))) + request), reply
    yield "a routing header with no segments left", packet(ROUTING, header(ICMPV6, b"\0\0" + bytes(4)) + request), reply
    yield "an atomic fragment", packet(FRAGMENT, fragment(ICMPV6, 0, 0, 99) + request), reply
    every = header(DESTINATION, options()) + header(ROUTING, options()) + header(FRAGMENT, b"\x04\0" + bytes(4))
    yield "all of them", packet(HOP, every + fragment(DESTINATION, 0, 0, 7) + header(ICMPV6, options()) + request), reply
    yield "an option to be skipped", packet(DESTINATION, header(ICMPV6, skipped) + request), reply
    yield "an option that drops", packet(DESTINATION, header(ICMPV6, dropped) + request), None
    for name, body, of_group in (("told", told, True), ("told unless to a group", told_one, False)):
        sent = packet(DESTINATION, header(ICMPV6, body) + request)
        yield f"an option that is {name}", sent, is_problem(2, 42, sent)
        sent = packet(DESTINATION, header(ICMPV6, body) + echo(rest, GROUP), GROUP)
        yield f"the same, to a group", sent, is_problem(2, 42, sent) if of_group else None
    sent = packet(DESTINATION, header(ROUTING, options()) + header(ICMPV6, b"\xc8\3" + bytes(4)) + request)
    yield "segments left", sent, is_problem(0, 50, sent)
    sent = packet(253, b"1234")
    yield "an unknown next header", sent, is_problem(1, 6, sent)
    sent = packet(HOP, header(DESTINATION, options()) + header(253, options()) + b"1234")
    yield "an unknown next header behind others", sent, is_problem(1, 48, sent)
    sent = packet(DESTINATION, header(HOP, options()) + header(ICMPV6, options()) + request)
    yield "hop-by-hop options that aren't first", sent, is_problem(1, 40, sent)
    yield "no next header", packet(DESTINATION, header(NONE, options()) + b"1234"), None
    yield "a header that runs past its packet", packet(DESTINATION, bytes([ICMPV6, 30]) + options() + request), None
    yield "an option that runs past its header", packet(DESTINATION, header(ICMPV6, b"\x3e\5" + bytes(4)) + request), None
    datagram = checked(LINUX6, OURS6, UDP, struct.pack("!HHHH", 4000, 9, 12, 0) + b"1234", 6)
    sent = packet(DESTINATION, header(UDP, options()) + datagram)
    yield "a datagram for no socket", sent, lambda message: message[:2] == b"\1\4" and message[8:] == sent
    error = checked(LINUX6, OURS6, ICMPV6, b"\1\4\0\0" + bytes(4) + packet(253, b"")[:40], 2)
    yield "an error behind an unknown option", packet(DESTINATION, header(ICMPV6, told) + error), None


def spelled():
    well = []
    with socket.socket(socket.AF_INET6, socket.SOCK_RAW, socket.IPPROTO_ICMPV6) as it, \
            socket.socket(socket.AF_INET6, socket.SOCK_RAW, socket.IPPROTO_RAW) as out:
        for name, sent, wanted in cases():
            well.append(say(name, ask(it, out, sent, wanted)))
            # the errors that answer are a few a second
            time.sleep(0.2)
    return well


def by_linux(level, name):
    """Datagrams and a stream, before which Linux's stack puts a header with options."""
    front = header(0, options((0x1e, bytes(9))))
    with socket.socket(socket.AF_INET6, socket.SOCK_DGRAM) as it:
        it.setsockopt(socket.IPPROTO_IPV6, level, front)
        it.settimeout(2)
        it.connect((OURS6, 7))
        count = 0
        for _ in range(20):
            sent = os.urandom(600)
            it.send(sent)
            try:
                count += it.recv(2000) == sent
            except OSError:
                pass
    well = [say(f"{count} of 20 datagrams behind {name}, echoed", count == 20)]
    with socket.socket(socket.AF_INET6, socket.SOCK_STREAM) as it:
        it.setsockopt(socket.IPPROTO_IPV6, level, front)
        it.settimeout(20)
        it.connect((OURS6, 7))
        sent, got = os.urandom(20_000), bytearray()
        it.sendall(sent)
        it.shutdown(socket.SHUT_WR)
        while piece := it.recv(65536):
            got += piece
    return well + [say(f"a stream of {len(sent)} bytes behind {name}, echoed", bytes(got) == sent)]


def main():
    pump = talk.start(sys.argv[1], *sys.argv[2:])
    well = spelled() + by_linux(IPV6_HOPOPTS, "hop-by-hop options") + by_linux(IPV6_DSTOPTS, "destination options")
    talk.stop(pump)
    print(f"{sum(well)} of {len(well)} well")
    return 0 if all(well) else 1


if __name__ == "__main__":
    sys.exit(main())
