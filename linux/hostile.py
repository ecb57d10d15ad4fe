#!/usr/bin/env python3
"""What a host on a real link must bear, tried by Linux's own stack in a network namespace of its own:

    hostile.py PUMP HOST [FOLDER [tap] [SYNS [PAGES]]]

So many SYNs from nobody (10,000), a client that is killed and comes again from its port, resets and SYNs inside a connection, clients that
vanish at every stage, a packet that is longer than the host's link, so many pages in a row and fifty at once (1,000). `tap` makes it a
link of Ethernet frames. PUMP is linux/pump.c, built. FOLDER keeps what went over the device (hostile.pcap), if tshark is there, which then
looks for what is malformed or has a wrong checksum.
"""
import os, random, shutil, signal, socket, struct, subprocess, sys, threading, time

import talk
from talk import LINUX, LINUX6, OURS, OURS6, STATION, say, sh

SO_REPAIR, REPAIR_QUEUE, QUEUE_SEQ, SEND_QUEUE = 19, 20, 21, 2


def start(pump, program, *options):
    ran = subprocess.Popen([pump, *options, "zemplovir", program, f"{OURS}/24", LINUX, f"{OURS6}/64", LINUX6], stdout=subprocess.PIPE, text=True)
    ran.stdout.readline()
    talk.set_up()
    return ran


def raw():
    it = socket.socket(socket.AF_INET, socket.SOCK_RAW, socket.IPPROTO_RAW)
    it.setsockopt(socket.IPPROTO_IP, socket.IP_HDRINCL, 1)
    return it


def segment(source, port, to_port, seq, ack, flags, text=b""):
    """An IPv4 packet with a TCP segment."""
    ends = socket.inet_aton(source) + socket.inet_aton(OURS)
    head = struct.pack(">HHIIBBHHH", port, to_port, seq % 2**32, ack % 2**32, 5 << 4, flags, 64000, 0, 0)
    right = talk.checksum(ends + struct.pack(">BBH", 0, 6, len(head) + len(text)) + head + text)
    head = head[:16] + struct.pack(">H", right) + head[18:]
    return struct.pack(">BBHHHBBH", 0x45, 0, 40 + len(text), random.randrange(65536), 0, 64, 6, 0) + ends + head + text


FIN, SYN, RST, ACK = 1, 2, 4, 16


def fetch(seconds=20):
    """Whether the page comes within so many seconds."""
    try:
        with socket.create_connection((OURS, 80), timeout=seconds) as it:
            it.sendall(b"GET / HTTP/1.0\r\n\r\n")
            got = b""
            while piece := it.recv(65536):
                got += piece
        return b"promises are proved" in got
    except OSError:
        return False


def fetches(count, at_once=1, seconds=60):
    """How many of so many pages come, so many at a time."""
    left, well, lock = [count], [0], threading.Lock()

    def go():
        while True:
            with lock:
                if left[0] == 0:
                    return
                left[0] -= 1
            came = fetch(seconds)
            with lock:
                well[0] += came

    began = time.monotonic()
    threads = [threading.Thread(target=go) for _ in range(at_once)]
    for it in threads:
        it.start()
    for it in threads:
        it.join()
    return well[0], time.monotonic() - began


def pages(what, count, at_once=1):
    well, took = fetches(count, at_once)
    return say(f"{what}: {well} of {count} pages in {took:.1f} s", well == count)


def flood(count=10_000):
    """SYNs from addresses at which nobody is, a fifth of them for port 7."""
    with raw() as it:
        for number in range(count):
            source = f"10.77.0.{3 + random.randrange(250)}"
            port = random.choice((80, 80, 80, 80, 7))
            it.sendto(segment(source, random.randrange(1024, 65536), port, random.randrange(2**32), 0, SYN), (OURS, 0))
            if number % 50 == 49:
                time.sleep(0.002)
    return pages(f"{count} SYNs from nobody", 100)


def vanish(it):
    """Closes a connection of this machine without a word to its remote."""
    it.setsockopt(socket.IPPROTO_TCP, SO_REPAIR, 1)
    it.close()


def connected(port, own=0, seconds=20):
    it = socket.socket()
    it.settimeout(seconds)
    it.setsockopt(socket.SOL_SOCKET, socket.SO_REUSEADDR, 1)
    it.bind((LINUX, own))
    it.connect((OURS, port))
    return it


def echoes(it, count=1000):
    sent, got = os.urandom(count), b""
    it.sendall(sent)
    while len(got) < count and (piece := it.recv(65536)):
        got += piece
    return got == sent


def is_repeated():
    """A client is killed, and another comes from its port at once."""
    first = connected(7)
    port = first.getsockname()[1]
    well = echoes(first)
    vanish(first)
    began = time.monotonic()
    with connected(7, port) as second:
        well = well and echoes(second)
    took = time.monotonic() - began
    return say(f"a client that was killed is served again from its port after {took:.2f} s", well and took < 5)


def next_number(it):
    """The number of the next byte that this machine sends."""
    it.setsockopt(socket.IPPROTO_TCP, SO_REPAIR, 1)
    it.setsockopt(socket.IPPROTO_TCP, REPAIR_QUEUE, SEND_QUEUE)
    number = it.getsockopt(socket.IPPROTO_TCP, QUEUE_SEQ) % 2**32
    it.setsockopt(socket.IPPROTO_TCP, SO_REPAIR, 0)
    return number


def attacks():
    """Resets and SYNs inside the window leave a connection as it is, and the reset at its very number ends it."""
    with connected(7) as it, raw() as forged:
        own = it.getsockname()[1]
        well = echoes(it)
        number = next_number(it)
        for step in (1, 2, 100, 1000, 30_000, 60_000, -1, -1000):
            forged.sendto(segment(LINUX, own, 7, number + step, 0, RST), (OURS, 0))
            forged.sendto(segment(LINUX, own, 7, number + step, 0, SYN), (OURS, 0))
        well = well and echoes(it)
        said = say("a connection bears 8 resets and 8 SYNs at other numbers", well)
        forged.sendto(segment(LINUX, own, 7, next_number(it), 0, RST), (OURS, 0))
        time.sleep(0.2)
        it.settimeout(5)
        try:
            it.sendall(b"x")
            dead = it.recv(10) == b""
        except ConnectionResetError:
            dead = True
        except OSError:
            dead = False
        return [said, say("the reset at the connection's number ends it", dead)]


def answer_to(heard, port, seconds=2):
    """The number of the host's SYN that went to this port, if it comes within so many seconds."""
    end = time.monotonic() + seconds
    while (left := end - time.monotonic()) > 0:
        heard.settimeout(left)
        try:
            packet = heard.recv(65536)
        except OSError:
            return None
        head = packet[(packet[0] & 15) * 4:]
        if packet[9] == 6 and head[2:4] == struct.pack(">H", port) and head[13] == SYN | ACK:
            return struct.unpack(">I", head[4:8])[0]
    return None


def claim(heard, source):
    """On Ethernet the host learns from an ARP request where a client at this address is: here."""
    if "tap" in sys.argv:
        own = heard.getsockname()[4]
        asks = struct.pack(">HHBBH", 1, 0x0800, 6, 4, 1) + own + socket.inet_aton(source) + bytes(6) + socket.inet_aton(OURS)
        heard.sendto(asks, ("zemplovir", 0x0806, 0, 0, bytes.fromhex(STATION.replace(":", ""))))


def nobody(heard, forged, stage, port):
    """A client at an address at which nobody is, who comes as far as this stage and vanishes: a SYN, a connection, half a request, a
    whole one, half a request and the end. Whether it came so far."""
    source, own = f"10.77.0.{3 + random.randrange(250)}", random.randrange(1024, 65536)
    claim(heard, source)
    number = random.randrange(2**32)
    for _ in range(3):  # a SYN for which no socket is free is dropped, and comes again
        forged.sendto(segment(source, own, port, number, 0, SYN), (OURS, 0))
        if stage == 0:
            return True
        said = answer_to(heard, own)
        if said is not None:
            break
    else:
        return False
    text = (b"", b"", b"GET /", b"GET / HTTP/1.0\r\n\r\n", b"GET /")[stage]
    forged.sendto(segment(source, own, port, number + 1, said + 1, ACK), (OURS, 0))
    if text:
        forged.sendto(segment(source, own, port, number + 1, said + 1, ACK, text), (OURS, 0))
    if stage == 4:
        forged.sendto(segment(source, own, port, number + 1 + len(text), said + 1, FIN | ACK), (OURS, 0))
    return True


def at_once(count, seconds):
    """How many connections stand at once: of 20, four for echoes and sixteen for pages."""
    held = []
    try:
        for number in range(count):
            held.append(connected(7 if number < 4 else 80, seconds=seconds))
    except OSError:
        pass
    for it in held:
        it.close()
    return len(held)


def vanished(pump, count=200, group=50):
    """Clients that vanish, as many at each of five stages, in groups for which the host has sockets; after each group the host's clock
    goes on by an hour, and then all sockets are free."""
    came, free = [0] * 5, []
    with raw() as forged, socket.socket(socket.AF_PACKET, socket.SOCK_DGRAM, socket.htons(0x0800)) as heard:
        heard.bind(("zemplovir", 0x0800))
        for number in range(count):
            came[number % 5] += nobody(heard, forged, number % 5, 7 if number % group % 20 == 1 else 80)
            if number % group == group - 1:
                before = at_once(20, 0.9)
                pump.send_signal(signal.SIGUSR1)
                print(pump.stdout.readline().strip(), flush=True)
                free.append((before, at_once(20, 20)))
    what = f"{sum(came)} of {count} clients vanished (SYN, open, half, whole, end: {came}); of 20 sockets free, at once and an hour later: {free}"
    return say(what, sum(came) == count and all(it[1] == 20 for it in free))


def long_packets():
    """The device takes packets of 9,000 bytes now, and the host's link 1,500: a longer one is dropped."""
    with connected(7) as it:
        well = echoes(it)
        sh("ip", "link", "set", "zemplovir", "mtu", "9000")
        with socket.socket(socket.AF_INET, socket.SOCK_DGRAM) as long:
            for size in (1473, 3000, 8000):
                long.sendto(bytes(size), (OURS, 7))
        well = well and echoes(it, 100_000)
        sh("ip", "link", "set", "zemplovir", "mtu", "1280")
        well = well and echoes(it, 100_000)
        sh("ip", "link", "set", "zemplovir", "mtu", "1500")
    return say("packets of 1,501 to 8,028 bytes, and the device's MTU at 9,000 and 1,280 within a connection", well)


def by_ab(count, at_once):
    ran = subprocess.run(["ab", "-q", "-s", "60", "-n", str(count), "-c", str(at_once), f"http://{OURS}/"], capture_output=True, text=True)
    lines = {it.split(":")[0]: it.split(":")[1].strip() for it in ran.stdout.splitlines() if ":" in it}
    done, failed = lines.get("Complete requests", "0"), lines.get("Failed requests", "?")
    took = lines.get("Time taken for tests", "?")
    return say(f"ab: {done} of {count} pages, {at_once} at a time, {failed} failed, {took}", done == str(count) and failed == "0")


def capture(folder):
    if not folder or not shutil.which("tshark"):
        return None
    file = f"{folder}/hostile.pcap"
    ran = subprocess.Popen(["tshark", "-q", "-i", "zemplovir", "-w", file], stdout=subprocess.DEVNULL, stderr=subprocess.DEVNULL)
    end = time.monotonic() + 60
    while time.monotonic() < end and not (os.path.exists(file) and os.path.getsize(file)):
        time.sleep(0.1)
    time.sleep(1)
    return ran


def looked_at(file):
    """What tshark says of the packets that the host sent."""
    ours = f"(ip.src#1 == {OURS} || ipv6.src#1 == {OURS6})"
    wrong_sums = " || ".join(f"{name}.checksum.status == 0" for name in ("ip", "tcp", "udp", "icmp", "icmpv6"))
    bad = f"{ours} && (_ws.malformed || {wrong_sums})"
    options = [it for name in ("ip", "tcp", "udp") for it in ("-o", f"{name}.check_checksum:TRUE")]
    count = lambda words: len(subprocess.run(["tshark", "-r", file, *options, "-Y", words], capture_output=True, text=True).stdout.splitlines())
    all_of_it, wrong = count(ours), count(bad)
    return say(f"tshark: {all_of_it} packets of the host, {wrong} malformed or with a wrong checksum", all_of_it > 0 and wrong == 0)


def refused():
    """How many packets this namespace's stack found wrong: by IP's header, or by a checksum of TCP, UDP or ICMP."""
    found, names = 0, None
    for line in open("/proc/net/snmp"):
        words = line.split()
        if names is None:
            names = words
            continue
        found += sum(int(it) for name, it in zip(names, words) if name in ("InHdrErrors", "InCsumErrors"))
        names = None
    return found


def tried(what, *given):
    """Whether a trial goes well; one that breaks off doesn't."""
    try:
        said = what(*given)
    except OSError as error:
        said = say(f"{what.__name__}: {error}", False)
    return all(said) if isinstance(said, list) else said


def main():
    pump_program, program, folder, *rest = [*sys.argv[1:], ""]
    syns, count = ([int(it) for it in rest if it.isdigit()] + [10_000, 1000][sum(it.isdigit() for it in rest):])[:2]
    trials = (
        (talk.pings,), (pages, "at first", 10), (is_repeated,), (attacks,), (long_packets,), (talk.stream, 1_000_000),
        (flood, syns), (pages, "one after the other", count), (pages, "50 at a time", count, 50), (by_ab, count, 1), (by_ab, count // 2, min(50, count // 2)),
        (pages, "at last", 20),
    )
    pump = start(pump_program, program, "-1", *(("-e", STATION) if "tap" in rest else ()))
    taken = capture(folder)
    well = [tried(*it) for it in trials if it[0] is not by_ab or shutil.which("ab")]
    well += [tried(vanished, pump), tried(pages, "an hour later", 20)]
    wrong = refused()
    well.append(say(f"Linux found {wrong} packets with a wrong header or checksum", wrong == 0))
    if taken:
        taken.send_signal(signal.SIGINT)
        taken.wait()
        well += [looked_at(f"{folder}/hostile.pcap")]
    talk.stop(pump)
    print(f"{sum(well)} of {len(well)} well")
    return 0 if all(well) else 1


if __name__ == "__main__":
    sys.exit(main())
