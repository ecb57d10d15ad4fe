#!/usr/bin/env python3
"""The program `host boot` at one end of a TAP device, Linux's stack with dnsmasq at the other: run it in a network namespace of its own.

    boot.py HOST [--lose N] [--seed N] [--rounds N] [--record FOLDER] [--others]

The host starts without an address. It has to be configured within five seconds of its clock, ping its router, and ask for names: one
with an address of each family, one that is an alias of an alias, one that doesn't exist; to fetch a page of 10,000 bytes by the name of
its host, which is Linux's stack; to renew a lease of two minutes twice; and to be deconfigured once the server is gone. --lose takes so
many of 100 frames each way: then it has only to be configured, --rounds times. With --others ISC's dhcpd gives the leases, and unbound
knows the names. The host's clock is this program's: where nothing is to be carried it goes on to the moment that the host waits for.
--record keeps what the program read and wrote as the files stdin and stdout.
"""
import argparse, fcntl, os, random, select, signal, socket, struct, subprocess, sys, tempfile, threading, time

NEVER = 2**64 - 1
STATION = bytes([2, 0, 0, 0, 0, 0x21])
ROUTER, FIRST, LAST = "10.11.12.1", "10.11.12.50", "10.11.12.60"
NAMES = [("A", "both.example.test"), ("AAAA", "both.example.test"), ("A", "alias.example.test"), ("A", "nobody.example.test"), ("GET", "page.example.test")]
FOUND = {"both.example.test": {"10.11.12.99", "fd00::99"}, "alias.example.test": {"10.11.12.99"}}


def sh(*words):
    subprocess.run(words, check=True)


def tap(name):
    device = os.open("/dev/net/tun", os.O_RDWR)
    fcntl.ioctl(device, 0x400454CA, struct.pack("16sH", name.encode(), 0x0002 | 0x1000))
    sh("ip", "link", "set", name, "up")
    sh("ip", "addr", "add", f"{ROUTER}/24", "dev", name)
    return device


def dnsmasq(name, folder):
    return subprocess.Popen(
        ["dnsmasq", "--no-daemon", "--conf-file=/dev/null", "--no-resolv", "--no-hosts", "--user=root", f"--interface={name}",
         "--bind-interfaces", f"--dhcp-range={FIRST},{LAST},2m", f"--dhcp-leasefile={folder}/leases", "--dhcp-authoritative", "--no-ping",
         "--local=/example.test/", "--host-record=both.example.test,10.11.12.99,fd00::99", f"--host-record=page.example.test,{ROUTER}",
         "--cname=middle.example.test,both.example.test", "--cname=alias.example.test,middle.example.test"],
        stdout=open(f"{folder}/dnsmasq", "ab"), stderr=subprocess.STDOUT)


DHCPD = f"""default-lease-time 120; max-lease-time 120; authoritative; ping-check false;
subnet 10.11.12.0 netmask 255.255.255.0 {{
  range {FIRST} {LAST}; option routers {ROUTER}; option domain-name-servers {ROUTER}; }}
"""
UNBOUND = f"""server:
  interface: {ROUTER}
  access-control: 10.11.12.0/24 allow
  do-daemonize: no
  username: ""
  chroot: ""
  directory: "."
  pidfile: ""
  use-syslog: no
  logfile: ""
  local-zone: "example.test." static
  local-data: "both.example.test. A 10.11.12.99"
  local-data: "both.example.test. AAAA fd00::99"
  local-data: "page.example.test. A 10.11.12.1"
remote-control:
  control-enable: no
"""


def serve_page():
    """Linux's stack serves a page of 10,000 bytes to whoever asks."""
    server = socket.create_server((ROUTER, 80))

    def run():
        while True:
            connection, _ = server.accept()
            connection.recv(4096)
            connection.sendall(b"HTTP/1.0 200 OK\r\n\r\n" + bytes(10_000))
            connection.close()

    threading.Thread(target=run, daemon=True).start()


class Others:
    """dhcpd and unbound, as one server."""

    def __init__(self, name, folder):
        for file, text in (("dhcpd.conf", DHCPD), ("unbound.conf", UNBOUND), ("leases", "")):
            with open(f"{folder}/{file}", "w") as out:
                out.write(text)
        log = open(f"{folder}/others", "ab")
        self.servers = [
            subprocess.Popen(words, stdout=log, stderr=log)
            for words in (["dhcpd", "-4", "-f", "-user", "root", "-group", "root", "-cf", f"{folder}/dhcpd.conf", "-lf", f"{folder}/leases",
                           "-pf", f"{folder}/pid", name], ["unbound", "-d", "-c", f"{folder}/unbound.conf"])]
        time.sleep(1)

    def kill(self):
        for server in self.servers:
            server.kill()

    def wait(self):
        for server in self.servers:
            server.wait()


class Host:
    """The program, and its clock in microseconds."""

    def __init__(self, program, seed, names, folder, record=None):
        ours, its = socket.socketpair()
        self.said = open(f"{folder}/said", "w+b", buffering=0)
        self.process = subprocess.Popen([program, "boot"], stdin=its, stdout=its, stderr=self.said)
        its.close()
        self.stream = ours.makefile("rwb", buffering=1 << 16)
        self.now, self.at, self.read_to = 0, 0, 0
        self.kept = [open(os.path.join(record, name), "wb") for name in ("stdin", "stdout")] if record else None
        orders = STATION + struct.pack("<Q", seed) + b"".join(f"{kind} {name}\n".encode() for kind, name in names)
        self.turn(orders)

    def read(self, count):
        got = self.stream.read(count)
        if len(got) < count:
            self.said.seek(0)
            sys.exit(f"boot: the program ended: {self.said.read().decode()}")
        if self.kept:
            self.kept[1].write(got)
        return got

    def turn(self, frame=b""):
        said = struct.pack("<HQ", len(frame), self.now) + frame
        self.stream.write(said)
        self.stream.flush()
        if self.kept:
            self.kept[0].write(said)
        frames = []
        while True:
            (size,) = struct.unpack("<H", self.read(2))
            if size == 0:
                (self.at,) = struct.unpack("<Q", self.read(8))
                return frames
            frames.append(self.read(size))

    def lines(self):
        """What it said since the last call."""
        self.said.seek(self.read_to)
        text = self.said.read()
        self.read_to += len(text)
        return text.decode().splitlines()

    def end(self):
        for it in self.kept or []:
            it.close()
        self.stream.close()
        self.process.kill()
        self.process.wait()


def run(host, device, lose, until, most):
    """Turns until this is said by the lines, or the host's clock is at `most`: whether it was said, and all that was."""
    said, sent = [], []
    while True:
        said += host.lines()
        if until(said):
            return True, said
        if host.now >= most:
            return False, said
        # A frame has 20 milliseconds of ours to come, an answer 200; its way takes one of the host's.
        ready, _, _ = select.select([device], [], [], 0.2 if sent else 0.02)
        if ready:
            frame = os.read(device, 65536)
            host.now += 1000
            if random.randrange(100) < lose:
                continue
            sent = host.turn(frame)
        else:
            host.now = min(max(host.now, host.at), most) if host.at != NEVER else most
            sent = host.turn()
        for frame in sent:
            if random.randrange(100) >= lose:
                os.write(device, frame)


def has(said, text):
    return any(text in line for line in said)


def whole(program, device, name, folder, record, others):
    server, bad = Others(name, folder) if others else dnsmasq(name, folder), 0
    time.sleep(0.5)
    # unbound answers a local alias without its target, which dnsmasq adds
    names = [it for it in NAMES if not (others and it[1].startswith("alias"))]
    host = Host(program, 7, names, folder, record)

    def check(good, what):
        nonlocal bad
        bad += not good
        print(f"boot: {'ok' if good else 'WRONG'}: {what}", flush=True)

    good, said = run(host, device, 0, lambda all_: has(all_, " configured "), 5_000_000)
    check(good, f"configured at {host.now / 1e6:.3f} s of its clock")
    good, more = run(host, device, 0, lambda all_: has(said + all_, "the router answers"), 20_000_000)
    said += more
    check(good, "its router answers a ping")
    good, more = run(host, device, 0, lambda all_: has(said + all_, "nobody.example.test has no address"), 60_000_000)
    said += more
    check(good, "a name that doesn't exist has no address")
    for asked in dict.fromkeys(name for _, name in names if name in FOUND):
        wanted = FOUND[asked]
        found = {line.split(" is ")[1] for line in said if f" {asked} is " in line}
        check(found == wanted, f"{asked} is {', '.join(sorted(found))}")
    good, more = run(host, device, 0, lambda all_: has(said + all_, "the page has "), 120_000_000)
    said += more
    check(has(said, "the page has 10019 bytes"), "a page of 10,000 bytes and its head, fetched by the name of its host")
    _, more = run(host, device, 0, lambda all_: sum(" configured " in line for line in said + all_) >= 3, 400_000_000)
    said += more
    count = sum(" configured " in line for line in said)
    check(count == 3 and not has(said[1:], "deconfigured"), f"a lease of two minutes renewed {count - 1} times, by {host.now / 1e6:.3f} s")
    server.kill()
    server.wait()
    last = host.now
    good, more = run(host, device, 0, lambda all_: has(all_, "deconfigured"), last + 400_000_000)
    said += more
    check(good and host.now - last <= 121_000_000, f"deconfigured {(host.now - last) / 1e6:.3f} s behind the last renewal")
    host.end()
    for line in said:
        print(f"boot:     {line}")
    return bad


def lossy(program, device, name, folder, lose, rounds, seed):
    server, worst, bad = dnsmasq(name, folder), 0, 0
    time.sleep(0.5)
    for i in range(rounds):
        random.seed(seed + i)
        host = Host(program, 1000 + i, [], folder)
        good, said = run(host, device, lose, lambda all_: has(all_, " configured "), 600_000_000)
        bad += not good
        worst = max(worst, host.now)
        host.end()
    server.kill()
    server.wait()
    print(f"boot: {'ok' if not bad else 'WRONG'}: with {lose} of 100 frames lost {rounds - bad} of {rounds} are configured, the last "
          f"at {worst / 1e6:.3f} s of its clock")
    return bad


def main():
    parser = argparse.ArgumentParser()
    parser.add_argument("program")
    for name, default in (("--lose", 0), ("--seed", 1), ("--rounds", 20)):
        parser.add_argument(name, type=int, default=default)
    parser.add_argument("--record", metavar="FOLDER")
    parser.add_argument("--others", action="store_true")
    given = parser.parse_args()
    sh("ip", "link", "set", "lo", "up")
    device = tap("boot0")
    serve_page()
    with tempfile.TemporaryDirectory() as folder:
        if given.lose:
            bad = lossy(given.program, device, "boot0", folder, given.lose, given.rounds, given.seed)
        else:
            bad = whole(given.program, device, "boot0", folder, given.record, given.others)
    sys.exit(1 if bad else 0)


if __name__ == "__main__":
    main()
