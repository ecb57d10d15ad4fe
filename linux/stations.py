#!/usr/bin/env python3
"""Many stations on one Ethernet, in a network namespace of its own (unshare -n):

    stations.py PUMP HOST COUNT [SECONDS [--scan RATE]]

A bridge joins the program `host` (over a TAP device), a Linux server, and COUNT stations, each in a namespace of its own. Each station fetches a
page once a second for so many SECONDS (30), first from the host, then from the Linux server. --scan sends so many ARP requests a second for the
host beside it, each from another address. For each server it prints how many pages failed (none within five seconds), and the middle, the ninth
decile and the longest of the times in seconds. PUMP is linux/pump.c, built.
"""
import argparse, os, socket, statistics, struct, subprocess, sys, threading, time

from path import within
from talk import OURS, say, sh

STATION, LINUX_SERVER = "02:00:00:00:00:02", "10.77.0.3"
FIRST, PATIENCE = 10, 5

SERVER = """
import http.server
class Page(http.server.BaseHTTPRequestHandler):
    def do_GET(self):
        self.send_response(200); self.send_header("Content-Length", "13"); self.end_headers(); self.wfile.write(b"hello, world\\n")
    def log_message(self, *words): pass
http.server.ThreadingHTTPServer.request_queue_size = 128
http.server.ThreadingHTTPServer(("", 80), Page).serve_forever()
"""


def namespace():
    """A process in a network namespace of its own."""
    it = subprocess.Popen(["unshare", "-n", "sh", "-c", "echo here; exec sleep 100000"], stdout=subprocess.PIPE, text=True)
    it.stdout.readline()
    return it


def join(process, name, address):
    """Joins a namespace to the bridge, with this address."""
    sh("ip", "link", "add", name, "type", "veth", "peer", "name", "lan", "netns", str(process.pid))
    sh("ip", "link", "set", name, "master", "bridge", "up")
    for words in (f"addr add {address}/24 dev lan", "link set lan up", "link set lo up"):
        sh("nsenter", "-t", str(process.pid), "-n", "ip", *words.split())


def set_up(pump, program, count):
    """The bridge with the host, the Linux server and the stations; what is to be ended."""
    sh("ip", *"link add bridge type bridge forward_delay 0".split())
    sh("ip", *"link set bridge up".split())
    host = subprocess.Popen([pump, "-1", "-e", STATION, "zemplovir", program, f"{OURS}/24", "10.77.0.1"], stdout=subprocess.PIPE, text=True)
    host.stdout.readline()
    sh("ip", *"link set zemplovir master bridge up".split())
    server = namespace()
    join(server, "server", LINUX_SERVER)
    pages = subprocess.Popen(["nsenter", "-t", str(server.pid), "-n", sys.executable, "-c", SERVER])
    stations = [namespace() for _ in range(count)]
    for number, station in enumerate(stations):
        join(station, f"s{number}", f"10.77.0.{FIRST + number}")
    time.sleep(1)
    return host, pages, [server, *stations], stations


def fetch(at):
    """The seconds that a page takes; None where it doesn't come."""
    began = time.monotonic()
    try:
        with socket.create_connection((at, 80), timeout=PATIENCE) as it:
            it.sendall(b"GET / HTTP/1.1\r\nHost: h\r\nConnection: close\r\n\r\n")
            got = b""
            while piece := it.recv(65536):
                got += piece
    except OSError:
        return None
    return time.monotonic() - began if got.startswith(b"HTTP/1.1 200") or got.startswith(b"HTTP/1.0 200") else None


def visits(station, at, seconds, offset, times):
    """A station's pages, one each second; each has its own thread, so that a slow one doesn't delay the next."""
    def one():
        with within(station.pid):
            times.append(fetch(at))
    began, threads = time.monotonic() + offset, []
    for number in range(seconds):
        time.sleep(max(0, began + number - time.monotonic()))
        threads.append(threading.Thread(target=one))
        threads[-1].start()
    for it in threads:
        it.join()


def scan(rate, ends):
    """ARP requests for the host, each from another hardware and protocol address of the network."""
    with socket.socket(socket.AF_PACKET, socket.SOCK_RAW) as it:
        it.bind(("bridge", 0))
        number = 0
        while not ends.wait(1 / rate):
            number += 1
            hardware, address = b"\x02\x99" + struct.pack(">I", number), bytes([10, 77, 0, 130 + number % 120])
            it.send(b"\xff" * 6 + hardware + b"\x08\x06" + struct.pack(">HHBBH", 1, 0x800, 6, 4, 1) + hardware + address + bytes(6)
                    + socket.inet_aton(OURS))


def round_of(stations, at, seconds):
    times, threads = [], []
    for number, station in enumerate(stations):
        threads.append(threading.Thread(target=visits, args=(station, at, seconds, number / len(stations), times)))
        threads[-1].start()
    for it in threads:
        it.join()
    came = sorted(it for it in times if it is not None)
    if not came:
        return len(times), len(times), 0, 0, 0
    return len(times), len(times) - len(came), statistics.median(came), came[len(came) * 9 // 10], came[-1]


def main():
    words = argparse.ArgumentParser()
    words.add_argument("pump")
    words.add_argument("host")
    words.add_argument("count", type=int)
    words.add_argument("seconds", type=int, nargs="?", default=30)
    words.add_argument("--scan", type=int, default=0)
    given = words.parse_args()
    host, pages, namespaces, stations = set_up(given.pump, given.host, given.count)
    ends, well = threading.Event(), []
    if given.scan:
        threading.Thread(target=scan, args=(given.scan, ends)).start()
    try:
        for name, at in (("the host", OURS), ("Linux", LINUX_SERVER)):
            tried, failed, middle, ninth, longest = round_of(stations, at, given.seconds)
            what = f"{name}: {given.count} stations, {tried} pages, {failed} failed; middle {middle:.3f} s, ninth decile {ninth:.3f} s, longest {longest:.3f} s"
            well.append(say(what, failed == 0 and ninth < 0.1))
    finally:
        ends.set()
        for it in (host, pages, *namespaces):
            it.terminate()
    return 0 if all(well) else 1


if __name__ == "__main__":
    sys.exit(main())
