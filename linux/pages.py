#!/usr/bin/env python3
"""What the site of the program `host` says, held against HTTP's rules (RFC 9110, RFC 9112), in a network namespace of its own
(unshare -n):

    pages.py HOST [--tap MAC]

Connections that stay and pipelining, HEAD, refusals, requests in pieces, a megabyte, what the host counted, also of frames with faults.
"""
import socket, struct, subprocess, sys

import talk
from talk import LINUX, LINUX6, OURS, OURS6, STATION, checksum, connect, named, say

PAGE, MEGABYTE = "/", bytes(33 + it % 94 for it in range(1_000_000))


class Reader:
    """Reads the answers of a connection one after the other."""

    def __init__(self, it):
        self.it, self.bytes = it, b""

    def more(self):
        piece = self.it.recv(65536)
        self.bytes += piece
        return bool(piece)

    def answer(self, is_head=False):
        """The status, the fields and the body of the next answer, if it comes."""
        while b"\r\n\r\n" not in self.bytes:
            if not self.more():
                return None
        head, self.bytes = self.bytes.split(b"\r\n\r\n", 1)
        lines = head.decode().split("\r\n")
        fields = {it.split(":", 1)[0].lower(): it.split(":", 1)[1].strip() for it in lines[1:]}
        count = 0 if is_head else int(fields["content-length"])
        while len(self.bytes) < count:
            if not self.more():
                return None
        body, self.bytes = self.bytes[:count], self.bytes[count:]
        return int(lines[0].split()[1]), fields, body

    def is_end(self):
        return not self.bytes and not self.more()


def request(path="/", method="GET", version="1.1", fields="Host: h\r\n"):
    return f"{method} {path} HTTP/{version}\r\n{fields}\r\n".encode()


def asked(text, at=OURS, is_head=False):
    """The answer to these bytes, and whether the host closes behind it."""
    with connect(80, at=at) as it:
        it.sendall(text)
        reader = Reader(it)
        answer = reader.answer(is_head)
        it.settimeout(0.5)
        try:
            ends = reader.is_end()
        except TimeoutError:
            ends = False
    return answer, ends


def is_page(answer):
    return answer is not None and answer[0] == 200 and b"promises are proved" in answer[2]


def stays(at, count=20):
    """Several requests on one connection, the client closing first."""
    with connect(80, at=at) as it:
        reader, well = Reader(it), 0
        for _ in range(count):
            it.sendall(request())
            well += is_page(reader.answer())
    return say(f"{well} of {count} pages on one connection{named(at)}", well == count)


def pipelined(at, times=3):
    """Requests that don't wait for the answers, in one piece."""
    paths = ["/", "/nothing", "/counts", "/", "/nothing", "/?query", "/", "/counts", "/", "/"] * times
    with connect(80, at=at) as it:
        it.sendall(b"".join(request(path, "HEAD" if number % 4 == 3 else "GET") for number, path in enumerate(paths)))
        reader, well = Reader(it), 0
        for number, path in enumerate(paths):
            answer = reader.answer(number % 4 == 3)
            well += answer is not None and answer[0] == (404 if path == "/nothing" else 200)
    return say(f"{well} of {len(paths)} pipelined requests answered in order{named(at)}", well == len(paths))


def in_pieces(at):
    """A request that comes byte by byte."""
    with connect(80, at=at) as it:
        for byte in request():
            it.sendall(bytes([byte]))
        return say(f"a request in pieces of a byte{named(at)}", is_page(Reader(it).answer()))


def heads(at):
    with_body, head = asked(request(), at)[0], asked(request(method="HEAD"), at, True)[0]
    return say(f"HEAD says what GET does, without the body{named(at)}", with_body[:2] == head[:2] and is_page(with_body) and head[2] == b"")


# A request, the status of its answer, and whether the host closes behind it.
CASES = (
    ("a path at which nothing is", request("/nothing"), 404, False),
    ("an absolute target", request("http://h/"), 200, False),
    ("an absolute target without a path", request("http://h"), 200, False),
    ("a query", request("/?a=b"), 200, False),
    ("no Host", request(fields=""), 400, True),
    ("two Hosts", request(fields="Host: a\r\nHost: b\r\n"), 400, True),
    ("two lengths", request(fields="Host: h\r\nContent-Length: 1\r\nContent-Length: 2\r\n"), 400, True),
    ("no request", b"no request\r\n\r\n", 400, True),
    ("a bare byte 0", b"GET /\0 HTTP/1.1\r\nHost: h\r\n\r\n", 400, True),
    ("HTTP/1.0", request(version="1.0", fields=""), 200, True),
    ("Connection: close", request(fields="Host: h\r\nConnection: close\r\n"), 200, True),
    ("Connection: CLOSE in a list", request(fields="Host: h\r\nConnection: a, CLOSE\r\n"), 200, True),
    ("POST", request(method="POST", fields="Host: h\r\nContent-Length: 3\r\n") + b"abc", 405, True),
    ("OPTIONS *", request("*", "OPTIONS"), 405, False),
    ("a method that nobody knows", request(method="BREW"), 501, False),
    ("GET with a body", request(fields="Host: h\r\nContent-Length: 3\r\n") + b"abc", 200, True),
    ("forty fields", request(fields="Host: h\r\n" + "".join(f"X-{it}: y\r\n" for it in range(40))), 431, True),
    ("a field of 8,000 bytes", request(fields=f"Host: h\r\nX: {'y' * 8000}\r\n"), 431, True),
    ("an end inside a request", None, 400, True),
)


def case(what, text, status, closes, at):
    if text is None:
        with connect(80, at=at) as it:
            it.sendall(b"GET / HT")
            it.shutdown(1)
            reader = Reader(it)
            answer, ends = reader.answer(), reader.is_end()
    else:
        answer, ends = asked(text, at)
    got = answer and answer[0]
    well = got == status and ends == closes and (status != 405 or answer[1].get("allow") == "GET, HEAD")
    return say(f"{what}: {got}{', close' if ends else ''}{named(at)}", well)


def megabytes(at, count=3):
    """A megabyte, and again on the same connection, by curl."""
    where = f"http://{f'[{at}]' if ':' in at else at}/megabyte"
    ran = subprocess.run(["curl", "-sSg", "-m", "120", "-w", "%{num_connects} %{time_total}\n", *[where] * count], capture_output=True)
    body, said = ran.stdout, []
    well = ran.returncode == 0
    for _ in range(count):
        well = well and body[:1_000_000] == MEGABYTE
        line, body = body[1_000_000:].split(b"\n", 1) if b"\n" in body[1_000_000:] else (b"? ?", b"")
        said.append(line.decode().split())
    one = [it[0] for it in said] == ["1"] + ["0"] * (count - 1)
    return say(f"a megabyte {count} times over one connection by curl, in {', '.join(it[1] for it in said)} s{named(at)}", well and one)


def counted(at=OURS):
    """What the host counted, by its labels."""
    answer = asked(request("/counts"), at)[0]
    return [(int(it[:20]), it[21:]) for it in answer[2].decode().splitlines()] if answer else []


def counts(at):
    before, _, after = counted(at), asked(request(), at), counted(at)
    change = {name: b - a for (a, name), (b, _) in zip(before[::-1], after[::-1])}
    well = bool(before) and change["requests answered"] == 2 and change["connections of the page accepted"] == 2 and change["frames received"] > 5
    return say(f"/counts: {', '.join(f'{number} {name}' for number, name in after)}{named(at)}", well)


def v4(protocol, payload, total=None, first=0x45, off=0):
    """An IPv4 packet to the host, whose header's checksum is off by so much."""
    ends = socket.inet_aton(LINUX) + socket.inet_aton(OURS)
    head = struct.pack(">BBHHHBBH", first, 0, total or 20 + len(payload), 7, 0, 64, protocol, 0) + ends
    right = (checksum(head[: first % 16 * 4]) + off) % 65536
    return head[:10] + struct.pack(">H", right) + head[12:] + payload


def faulty():
    """Frames with a fault of each kind, and some without one: the EtherType, the packet, and the label under which it is counted."""
    ends = socket.inet_aton(LINUX) + socket.inet_aton(OURS)
    text = b"text"
    udp = struct.pack(">HHHH", 4000, 9, 12, 0) + text
    right = checksum(ends + struct.pack(">BBH", 0, 17, 12) + udp)
    with_sum = lambda sum: udp[:6] + struct.pack(">H", sum) + text
    syn = struct.pack(">HHIIBBHHH", 4000, 9, 1, 0, 5 << 4, 4, 1000, 0, 0)  # a reset, which nobody answers
    ping = struct.pack(">BBHHH", 8, 0, 1, 2, 3)
    six = socket.inet_pton(socket.AF_INET6, LINUX6) + socket.inet_pton(socket.AF_INET6, OURS6)
    v6 = lambda kind, payload, length: struct.pack(">IHBB", 6 << 28, length, kind, 64) + six + payload
    unknown, header, damaged = "of them neither IP nor ARP, dropped", "of them with a damaged header, dropped", "of them with a wrong checksum, dropped"
    return [
        (0x88B5, bytes([0x75]) + bytes(40), unknown),
        (0x0800, v4(17, with_sum(right), off=1), header),
        (0x0800, v4(17, with_sum(right), total=33), header),
        (0x0800, v4(17, with_sum(right), first=0x44), header),
        (0x86DD, v6(59, b"", 1), header),
        (0x0800, v4(17, with_sum(right ^ 1)), damaged),
        (0x0800, v4(6, syn), damaged),
        (0x0800, v4(1, ping), damaged),
        (0x86DD, v6(58, bytes([128]) + bytes(7), 8), damaged),
        (0x0800, v4(17, with_sum(right)), None),
        (0x0800, v4(17, with_sum(0)), None),
        (0x0800, v4(59, text), None),
    ]


def faults():
    """Frames with faults are counted by their kinds, and others aren't."""
    frames, before = faulty(), dict((name, number) for number, name in counted())
    with socket.socket(socket.AF_PACKET, socket.SOCK_DGRAM) as it:
        for kind, packet, _ in frames:
            it.sendto(packet, ("zemplovir", kind, 0, 0, bytes.fromhex(STATION.replace(":", ""))))
    after, names = dict((name, number) for number, name in counted()), [it[2] for it in frames]
    change = {name: after[name] - before[name] for name in {*names} - {None}} if before and after else {}
    well = bool(change) and all(number == names.count(name) for name, number in change.items())
    return say(f"{len(frames)} frames, {len(names) - names.count(None)} of them with a fault, are counted by their kinds", well)


def try_site(at=OURS):
    return [stays(at), pipelined(at), in_pieces(at), heads(at), *[case(*it, at) for it in CASES], megabytes(at), counts(at)]


def main():
    pump = talk.start(sys.argv[1], *sys.argv[2:])
    well = [it for at in (OURS, OURS6) for it in try_site(at)] + [faults()]
    talk.stop(pump)
    print(f"{sum(well)} of {len(well)} well")
    return 0 if all(well) else 1


if __name__ == "__main__":
    sys.exit(main())
