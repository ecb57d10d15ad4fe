#!/usr/bin/env python3
"""What Linux's stack says to the program `host`, in a network namespace of its own:

    talk.py HOST SECONDS [FOLDER]   over a TUN device and over a TAP device, by IPv4 and by IPv6: first over a good link, then for so many
                                    seconds over one that loses, repeats and reorders
    talk.py HOST exchange FOLDER    a short exchange over a TAP device: of either family pings, datagrams and a stream, each echoed; the
                                    page by curl, a request that isn't understood, ten requests in one piece, GET and HEAD; frames with
                                    faults, and what the host counted of them

FOLDER keeps what the program read and wrote (over the TAP device that loses, in the first form): the files stdin and stdout.
"""
import os, random, socket, subprocess, sys, time

HERE = os.path.dirname(os.path.abspath(__file__))
LINUX, OURS = "10.77.0.1", "10.77.0.2"
LINUX6, OURS6 = "fd77::1", "fd77::2"
STATION = "02:00:00:00:00:02"


def sh(*words):
    return subprocess.run(words, capture_output=True, text=True)


def set_up():
    """Gives this end of the device its addresses."""
    for words in (f"addr add {LINUX}/24 dev zemplovir", f"addr add {LINUX6}/64 dev zemplovir nodad", "link set zemplovir up", "link set lo up"):
        sh("ip", *words.split())
    time.sleep(0.3)


def start(program, *options):
    pump = subprocess.Popen(
        [sys.executable, f"{HERE}/pump.py", program, "zemplovir", f"{OURS}/24", LINUX, f"{OURS6}/64", LINUX6, *options],
        stdout=subprocess.PIPE, text=True)
    pump.stdout.readline()
    set_up()
    return pump


def stop(pump):
    pump.terminate()
    print(pump.stdout.readline().strip())
    pump.wait()


def say(what, well):
    print(f"{'ok' if well else 'WRONG'}: {what}", flush=True)
    return well


def checksum(data):
    total = sum(int.from_bytes(data[i:i + 2].ljust(2, b"\0"), "big") for i in range(0, len(data), 2))
    while total >> 16:
        total = (total & 0xFFFF) + (total >> 16)
    return total ^ 0xFFFF


def family(at):
    return socket.AF_INET6 if ":" in at else socket.AF_INET


def named(at):
    return " by IPv6" if ":" in at else ""


def connect(port, at=OURS, seconds=20):
    return socket.create_connection((at, port), timeout=seconds)


def is_answered(it, rest, at, seconds=3):
    """Whether an echo reply with this text comes within so many seconds; one that comes late is passed over."""
    end = time.monotonic() + seconds
    while (left := end - time.monotonic()) > 0:
        it.settimeout(left)
        try:
            message = it.recv(65536)
        except OSError:
            return False
        # Linux hands an IPv4 packet over whole, and of an IPv6 packet the message, whose checksum it has verified.
        if ":" in at:
            well = message[0] == 129
        else:
            message = message[20:]
            well = message[0] == 0 and checksum(message) == 0
        if well and message[4:] == rest:
            return True
    return False


def pings(count=20, size=56, at=OURS):
    """ICMP echo requests, by a raw socket: not every machine has a ping."""
    well = 0
    protocol, kind = (socket.IPPROTO_ICMPV6, b"\x80\0") if ":" in at else (socket.IPPROTO_ICMP, b"\x08\0")
    with socket.socket(family(at), socket.SOCK_RAW, protocol) as it:
        it.connect((at, 0))
        for number in range(count):
            rest = (4242).to_bytes(2, "big") + number.to_bytes(2, "big") + os.urandom(size)
            it.send(kind + checksum(kind + b"\0\0" + rest).to_bytes(2, "big") + rest)
            well += is_answered(it, rest, at)
    return say(f"{well} of {count} pings of {size} bytes{named(at)}", well == count)


def datagrams(count=200, at=OURS):
    with socket.socket(family(at), socket.SOCK_DGRAM) as it:
        it.settimeout(1)
        it.connect((at, 7))
        well = 0
        for _ in range(count):
            sent = os.urandom(random.randrange(1, 1400))
            it.send(sent)
            try:
                well += it.recv(2000) == sent
            except OSError:
                pass
    return say(f"{well} of {count} datagrams echoed{named(at)}", well == count)


def stream(count, at=OURS, seconds=60):
    sent, got = os.urandom(count), bytearray()
    began = time.monotonic()
    with socket.create_connection((at, 7), timeout=seconds) as it:
        it.setblocking(False)
        given, shut = 0, False
        while time.monotonic() - began < seconds:
            if given < count:
                try:
                    given += it.send(sent[given:given + 65536])
                except BlockingIOError:
                    pass
            elif not shut:
                it.shutdown(socket.SHUT_WR)
                shut = True
            try:
                piece = it.recv(65536)
                if not piece:
                    break
                got += piece
            except BlockingIOError:
                time.sleep(0.0005)
    took = time.monotonic() - began
    return say(f"{count} bytes through the stream echo in {took:.2f} s{named(at)}", bytes(got) == sent)


def page(at=OURS):
    began = time.monotonic()
    where = f"[{at}]" if ":" in at else at
    ran = subprocess.run(["curl", "-sS", "-g", "-m", "60", f"http://{where}/"], capture_output=True, text=True)
    took = time.monotonic() - began
    return say(f"the page in {took:.2f} s{named(at)} {ran.stderr.strip()}".strip(), ran.returncode == 0 and "promises are proved" in ran.stdout)


def refusal(at=OURS):
    """What a request that isn't understood is told."""
    with socket.create_connection((at, 80), timeout=20) as it:
        it.sendall(b"no request\r\n\r\n")
        got = b""
        while piece := it.recv(65536):
            got += piece
    return say(f"a request that isn't understood is refused{named(at)}", got.startswith(b"HTTP/1.1 400 "))


def exchange(program, folder):
    """A short exchange with each service, which goes on until the last connection is forgotten."""
    import pages  # it imports this file

    pump = start(program, "--tap", STATION, "--seed", "7", "--record", folder)
    well = []
    for at in (OURS, OURS6):
        well += [pings(3, at=at), datagrams(5, at), stream(5000, at), page(at), refusal(at), pages.pipelined(at, 1), pages.heads(at)]
    well.append(pages.faults())
    time.sleep(11)
    stop(pump)
    return well


def try_all(program, seconds, record):
    well = []
    for name, link in (("TUN", ()), ("TAP", ("--tap", STATION))):
        print(f"over a {name} device")
        pump = start(program, *link)
        for at in (OURS, OURS6):
            well += [pings(at=at), pings(20, 1400, at), datagrams(at=at), stream(1_000_000, at), page(at), refusal(at)]
        stop(pump)
        print(f"over a {name} device that loses, repeats and holds back")
        pump = start(program, *link, "--lose", "5", "--repeat", "5", "--hold", "5", *(record if link else ()))
        end = time.monotonic() + seconds / 2
        while time.monotonic() < end:
            for at in (OURS, OURS6):
                well += [stream(100_000, at), page(at)]
        stop(pump)
    print(f"{sum(well)} of {len(well)} well")
    return well


def main():
    program, what, folder = sys.argv[1], sys.argv[2], "".join(sys.argv[3:4])
    if what == "exchange":
        well = exchange(program, folder)
    else:
        well = try_all(program, float(what), ["--record", folder] if folder else [])
    return 0 if all(well) else 1


if __name__ == "__main__":
    sys.exit(main())
