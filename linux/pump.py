#!/usr/bin/env python3
"""Owns a TUN or TAP device, the clock and the waiting for the program `host`, which is a function of its standard input.

    pump.py HOST DEVICE ADDRESS/LEN ROUTER [ADDRESS6/LEN ROUTER6] [--tap MAC] [--seed N] [--lose N] [--repeat N] [--hold N]
            [--record FOLDER]

--tap makes it a link of Ethernet frames, on which the host has this hardware address.

A turn is a packet's length (2 bytes), the moment in microseconds (8 bytes) and the packet, all numbers with the low byte first;
the answer is each packet behind its length, a length of 0, and the moment of the next turn (8 bytes, all ones for never).
--lose, --repeat and --hold take so many of 100 packets each way: they are dropped, sent twice, or held back behind the next one.
--record keeps what the program read and wrote as the files stdin and stdout.
"""
import argparse, fcntl, ipaddress, os, random, select, signal, socket, struct, subprocess, sys, time

NEVER = 2**64 - 1


def open_device(name, is_tap):
    device = os.open("/dev/net/tun", os.O_RDWR)
    iff_tun, iff_tap, iff_no_pi, tunsetiff = 0x0001, 0x0002, 0x1000, 0x400454CA
    fcntl.ioctl(device, tunsetiff, struct.pack("16sH", name.encode(), (iff_tap if is_tap else iff_tun) | iff_no_pi))
    return device


class Link:
    """What becomes of packets on one way."""

    def __init__(self, given):
        self.given, self.held = given, []

    def carry(self, packet):
        """The packets that come now."""
        chance = random.randrange(100)
        before, self.held = self.held, []
        if chance < self.given.lose:
            return before
        if chance < self.given.lose + self.given.hold:
            self.held = [packet]
            return before
        repeats = chance < self.given.lose + self.given.hold + self.given.repeat
        return [packet] * (2 if repeats else 1) + before


class Host:
    """The program at the other end of a pair of sockets."""

    def __init__(self, program, folder):
        ours, its = socket.socketpair()
        self.process = subprocess.Popen([program], stdin=its, stdout=its)
        its.close()
        self.stream = ours.makefile("rwb", buffering=1 << 16)
        self.kept = [open(f"{folder}/{name}", "wb") for name in ("stdin", "stdout")] if folder else None
        self.started, self.turns = time.monotonic_ns(), 0

    def now(self):
        return (time.monotonic_ns() - self.started) // 1000

    def read(self, count):
        got = self.stream.read(count)
        if len(got) < count:
            sys.exit("pump: the program ended")
        if self.kept:
            self.kept[1].write(got)
        return got

    def turn(self, packet=b""):
        """The packets that answer this one, and the moment of the next turn."""
        said = struct.pack("<HQ", len(packet), self.now()) + packet
        self.stream.write(said)
        self.stream.flush()
        if self.kept:
            self.kept[0].write(said)
        self.turns += 1
        answers = []
        while True:
            (size,) = struct.unpack("<H", self.read(2))
            if size == 0:
                return answers, struct.unpack("<Q", self.read(8))[0]
            answers.append(self.read(size))


def family(address, router):
    own = ipaddress.ip_interface(address)
    return own.ip.packed + bytes([own.network.prefixlen]) + ipaddress.ip_address(router).packed


def settings(given):
    """The medium and the hardware address; the addresses, prefixes and routers of both families; the seed, and the key of first numbers
    where no seed is named."""
    seed = os.urandom(24) if given.seed is None else struct.pack("<Q", given.seed)
    link = b"\1" + bytes.fromhex(given.tap.replace(":", "")) if given.tap else bytes(7)
    return link + family(given.address, given.router) + family(given.address6, given.router6) + seed


def run(host, tun, given):
    to_host, to_linux = Link(given), Link(given)

    def send(packets):
        for packet in packets:
            for it in to_linux.carry(packet):
                try:
                    os.write(tun, it)
                except OSError:  # a device that is down takes nothing
                    pass

    answers, at = host.turn(settings(given))
    print("pump: ready", flush=True)
    send(answers)
    while True:
        wait = None if at == NEVER else max(at - host.now(), 0) / 1e6
        ready, _, _ = select.select([tun], [], [], wait)
        come = to_host.carry(os.read(tun, 65536)) if ready else [b""]
        for packet in come:
            answers, at = host.turn(packet)
            send(answers)


def main():
    parser = argparse.ArgumentParser()
    for name in ("host", "device", "address", "router"):
        parser.add_argument(name)
    parser.add_argument("address6", nargs="?", default="::/0")
    parser.add_argument("router6", nargs="?", default="::")
    parser.add_argument("--tap", metavar="MAC")
    parser.add_argument("--seed", type=int)
    for name in ("--lose", "--repeat", "--hold"):
        parser.add_argument(name, type=int, default=0)
    parser.add_argument("--record")
    given = parser.parse_args()
    tun = open_device(given.device, given.tap)
    host = Host(given.host, given.record)

    def end(*_):
        print(f"pump: {host.turns} turns", flush=True)
        for it in host.kept or []:
            it.close()
        host.process.kill()
        os._exit(0)

    signal.signal(signal.SIGTERM, end)
    run(host, tun, given)


main()
