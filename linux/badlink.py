#!/usr/bin/env python3
"""The program `host` beside Linux's own stack over the same bad link, in a network namespace of its own:

    badlink.py PUMP HOST [SEEDS [BYTES [TRIPS [WORD [ROWS]]]]]

For each round trip (a list of milliseconds, 0 alone where none is given), each kind of link and each of so many seeds (5) a stream of so many
bytes (200,000) is echoed: first by the host, over a TUN device, then by a program over Linux's own stack, between two TUN devices, of which
the other one is in a namespace within. PUMP is linux/pump.c, built; it loses, repeats, holds back, damages and delays the packets of both by
the same chances, whose random numbers begin with the seed. A round trip is the pump's delay, half of it each way. It prints one table, with
the quotients of the medians and of the longest, and in how many rows the medians' one is at most 1.0 and at most 1.5. With a word only the
kinds of link with this word in their name are tried, and with =NAME this one alone. So many rows (1) are tried at once, each in a namespace
of its own: where the round trip is long they wait, and disturb each other little. The variable CONTROL names the congestion control of
Linux's sockets at both ends, where it isn't to be CUBIC, the kernel's own choice: some machines are set to BBR, which slows down little where
segments are lost by chance (sysctl net.ipv4.tcp_available_congestion_control has what there is). Linux keeps nothing of one stream for the
next.
"""
import os, random, select, socket, statistics, subprocess, sys, time
from concurrent.futures import ThreadPoolExecutor

import talk
from hostile import start
from talk import LINUX, OURS, sh

LINKS = (
    ("good", ()),
    ("0.1% lost", ("-l", "1")),
    ("1% lost", ("-l", "10")),
    ("2% lost", ("-l", "20")),
    ("5% lost", ("-l", "50")),
    ("10% lost", ("-l", "100")),
    ("10% repeated", ("-r", "100")),
    ("bursts of 2 lost", ("-b", "2")),
    ("bursts of 10 lost", ("-b", "10")),
    ("bursts of 40 lost", ("-b", "40")),
    ("1% held back", ("-h", "10")),
    ("10% held back", ("-h", "100")),
    ("25% held back", ("-h", "250")),
    ("up to 5 ms later", ("-j", "5000")),
    ("5% damaged", ("-d", "50")),
    ("3% lost, 3% repeated, 3% held back, 3% damaged", ("-l", "30", "-r", "30", "-h", "30", "-d", "30")),
)

# A link of 10 Mbit/s, whose queue has room for so many bandwidth-delay products: where there is a delay.
QUEUES = (("10 Mbit/s, a queue of one product", 1.0), ("10 Mbit/s, a queue of a quarter", 0.25))


def links(trip):
    """The kinds of link with this round trip in milliseconds."""
    delay = ("-t", str(trip * 500)) if trip else ()
    queues = [(name, ("-m", "10000", "-q", str(int(1250 * trip * part)))) for name, part in QUEUES] if trip else []
    return [(name, (*options, *delay)) for name, options in (*LINKS, *queues)]


# Linux's congestion control: the one that is named, or CUBIC, the kernel's own choice, where it is there
with open("/proc/sys/net/ipv4/tcp_available_congestion_control", encoding="ascii") as it:
    CONTROL = os.environ.get("CONTROL") or next((it for it in it.read().split() if it == "cubic"), "reno")

# echoes of streams and of datagrams over Linux's own stack
ECHO = f"""
import socket, threading
def serve(it):
    it.setsockopt(socket.IPPROTO_TCP, socket.TCP_NODELAY, 1)
    with it:
        while piece := it.recv(65536):
            it.sendall(piece)
def datagrams():
    with socket.socket(socket.AF_INET, socket.SOCK_DGRAM) as it:
        it.bind(("{OURS}", 7))
        while True:
            it.sendto(*it.recvfrom(65536))
threading.Thread(target=datagrams, daemon=True).start()
with socket.create_server(("{OURS}", 7)) as server:
    server.setsockopt(socket.IPPROTO_TCP, socket.TCP_CONGESTION, {CONTROL.encode()})
    print("ready", flush=True)
    while True:
        threading.Thread(target=serve, args=(server.accept()[0],), daemon=True).start()
"""


def stream(count, seconds=300):
    """How long so many bytes take there and back, or None if they don't come back as they went."""
    sent, got, at = os.urandom(count), bytearray(), 0
    began = time.monotonic()
    try:
        with socket.socket() as it:
            it.setsockopt(socket.IPPROTO_TCP, socket.TCP_CONGESTION, CONTROL.encode())
            it.settimeout(seconds)
            it.connect((OURS, 7))
            it.setblocking(False)
            while len(got) < count and time.monotonic() < began + seconds:
                ready = select.select([it], [it] if at < count else [], [], 1)
                if ready[1]:
                    at += it.send(sent[at:at + 65536])
                if ready[0]:
                    piece = it.recv(65536)
                    if not piece:
                        break
                    got += piece
    except OSError:
        return None
    return time.monotonic() - began if got == sent else None


def said(took):
    """How many came whole, the median and the longest."""
    came = [it for it in took if it is not None]
    if not came:
        return f"0 of {len(took)}"
    return f"{len(came)} of {len(took)}; {statistics.median(came):.2f} s, {max(came):.2f} s"


def quotient(of, host, linux):
    """The host's median, or its longest, beside Linux's; none where no stream came whole."""
    host, linux = ([it for it in took if it is not None] for took in (host, linux))
    return of(host) / of(linux) if host and linux else None


def shown(quotient):
    return "none" if quotient is None else f"{quotient:.2f}"


def tried(started, size):
    took = stream(size)
    end(started)
    return took


def forget(*inside):
    """Linux's stack, here or within, keeps nothing of one stream for the next."""
    sh(*inside, "sh", "-c", "echo 1 > /proc/sys/net/ipv4/tcp_no_metrics_save")


def linux_beyond(pump, *options):
    """Linux's own stack behind a second device, in a namespace within, with its echoes; what was started."""
    within = subprocess.Popen(["unshare", "-n", "sh", "-c", "echo here; exec sleep 100000"], stdout=subprocess.PIPE, text=True)
    within.stdout.readline()
    ran = subprocess.Popen([pump, *options, "zemplovir", "beyond"], stdout=subprocess.PIPE, text=True)
    ran.stdout.readline()
    at = str(within.pid)
    sh("ip", "link", "set", "beyond", "netns", at)
    for words in (f"addr add {LINUX}/24 dev zemplovir", "link set zemplovir up", "link set lo up"):
        sh("ip", *words.split())
    inside = ["nsenter", "-t", at, "-n"]
    for words in (f"addr add {OURS}/24 dev beyond", "link set beyond up", "link set lo up"):
        sh(*inside, "ip", *words.split())
    forget(*inside)
    server = subprocess.Popen([*inside, sys.executable, "-c", ECHO], stdout=subprocess.PIPE, stderr=subprocess.DEVNULL, text=True)
    server.stdout.readline()
    return server, ran, within


def end(started):
    for it in started:
        it.terminate()
        it.wait()


def row(pump, program, seeds, size, trip, name, options):
    """A row, and the quotient of its medians."""
    host, linux = [], []
    for seed in range(seeds):
        chance = ("-c", str(random.Random(seed).getrandbits(64)))
        host.append(tried([start(pump, program, *options, *chance, "-s", str(seed))], size))
        linux.append(tried(linux_beyond(pump, *options, *chance), size))
    medians, longest = (quotient(of, host, linux) for of in (statistics.median, max))
    return f"| {trip} ms | {name} | {said(host)} | {said(linux)} | {shown(medians)} | {shown(longest)} |", medians


def row_elsewhere(pump, program, seeds, size, trip, name, options):
    """The same in a namespace of its own."""
    words = ["unshare", "-n", sys.executable, __file__, pump, program, str(seeds), str(size), str(trip), f"={name}"]
    lines = subprocess.run(words, stdout=subprocess.PIPE, text=True).stdout.splitlines()
    line = next((it for it in lines if it.startswith(f"| {trip} ms | {name} |")), f"| {trip} ms | {name} | none | none | none | none |")
    medians = line.split("|")[5].strip()
    return line, None if medians == "none" else float(medians)


def rows_of(pump, program, seeds, size, trip, tried_links, at_once, elsewhere):
    """Prints the rows of a round trip, in their order: of each its name, the quotient of its medians, and the line."""
    one = row_elsewhere if elsewhere else row
    with ThreadPoolExecutor(at_once) as rows:
        came = rows.map(lambda link: one(pump, program, seeds, size, trip, *link), tried_links)
        for (name, _), (line, medians) in zip(tried_links, came):
            print(line, flush=True)
            yield f"{name} at {trip} ms", medians, line


def summary(rows):
    """In how many rows the host is as quick as Linux, or half as quick again, and in which it isn't."""
    known = [(name, it) for name, it in rows if it is not None]
    within = [sum(it <= most for _, it in known) for most in (1.0, 1.5)]
    print(f"\nof {len(rows)} rows the medians' quotient is at most 1.0 in {within[0]}, and at most 1.5 in {within[1]}")
    above = sorted(((it, name) for name, it in known if it > 1.5), reverse=True)
    if above:
        print("above 1.5: " + ", ".join(f"{name} ({it:.2f})" for it, name in above))


def is_wanted(name, word):
    return name == word[1:] if word.startswith("=") else word in name


def main():
    pump, program = sys.argv[1], sys.argv[2]
    given = sys.argv[3:]
    seeds, size, trips, word, at_once = (given + ["5", "200000", "0", "", "1"][len(given):])[:5]
    forget()
    print(f"\na stream of {size} bytes for each of {seeds} seeds, there and back: how many came whole; median, longest")
    print(f"Linux's congestion control: {CONTROL}\n")
    print("| Round trip | Link, each way | The host | Linux's own stack | medians | longest |\n|---|---|---|---|---|---|")
    rows = []
    for trip in map(int, trips.split(",")):
        tried_links = [link for link in links(trip) if is_wanted(link[0], word)]
        rows += rows_of(pump, program, int(seeds), int(size), trip, tried_links, int(at_once), at_once != "1")
    summary([(name, medians) for name, medians, _ in rows])


if __name__ == "__main__":
    main()
