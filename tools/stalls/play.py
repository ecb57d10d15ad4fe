"""A course of two hosts in the program `lan`, line by line, and what comes behind it on a good link."""
import ipaddress
import subprocess
from collections import namedtuple

# Of a frame that a host sent: its line, its number, its moment in microseconds, its bytes.
Frame = namedtuple("Frame", "line number moment bytes")
Segment = namedtuple("Segment", "source to sequence acknowledgement flags window text")
FIN, SYN, RST, PSH, ACK = 1, 2, 4, 8, 16
OTHER = {"A": "B", "B": "A"}
HOSTS = "AB"


class Ended(Exception):
    """The program took a line for none, or refused it."""


def packet_of(frame, medium):
    """The IP packet of a frame, if it has one."""
    if medium == "ip":
        return frame
    return frame[14:] if frame[12:14] in (b"\x08\0", b"\x86\xdd") else None


def segment_of(frame, medium):
    """The TCP segment of a frame (RFC 9293, 3.1), if it has one."""
    packet = packet_of(frame, medium)
    if packet is None:
        return None
    if packet[0] >> 4 == 4:
        length, protocol = (packet[0] & 15) * 4, packet[9]
        source, to = packet[12:16], packet[16:20]
        payload = packet[length : int.from_bytes(packet[2:4], "big")]
    else:
        protocol, source, to = packet[6], packet[8:24], packet[24:40]
        payload = packet[40 : 40 + int.from_bytes(packet[4:6], "big")]
    if protocol != 6:
        return None
    number = lambda at, size: int.from_bytes(payload[at : at + size], "big")
    end = lambda address, at: (str(ipaddress.ip_address(bytes(address))), number(at, 2))
    return Segment(end(source, 0), end(to, 2), number(4, 4), number(8, 4), payload[13], number(14, 2), payload[(payload[12] >> 4) * 4 :])


class Lan:
    """The program, which answers each line before it reads the next."""

    def __init__(self, program, header):
        self.run = subprocess.Popen([program], stdin=subprocess.PIPE, stdout=subprocess.PIPE, text=True, bufsize=1)
        self.moment = 0
        for line in header[:-1]:
            print(line, file=self.run.stdin)
        self.ask(header[-1])

    def ask(self, line):
        """The answer to a line, and the frames that were sent then, as (host, number, bytes)."""
        words = line.split(" ")
        if words[0] in ("poll", "pollat") and words[1] == "A":
            self.moment = max(self.moment, int(words[2]))
        # To ask once more at a moment changes nothing, and the answer says that there are no more frames of this line.
        print(f"{line}\npollat A {self.moment}", file=self.run.stdin, flush=True)
        answer, sent = self.read(line), []
        while (said := self.read(line)).startswith("sent "):
            _, host, number, frame = said.split(" ")
            sent.append((host, int(number), bytes.fromhex(frame.replace("-", ""))))
        return answer, sent

    def read(self, line):
        said = self.run.stdout.readline().rstrip("\n")
        if not said or said.startswith("line "):
            raise Ended(f"`{line[:40]}`: {said or 'the program ended'}")
        return said

    def close(self):
        self.run.stdin.close()
        self.run.stdout.close()
        self.run.wait()


class Course:
    """What a script did so far: `sent` by host, `answers` by line, `written` and `read` by (host, socket), and the `lines` that were played."""

    def __init__(self, program, script, cut=None, bad=None):
        """Plays a script up to line `cut`. Up to line `bad`, where one is named, the link is good, and numbers count from there."""
        start = script.index("start")
        self.medium = script[0].split(" ")[1]
        self.kinds = {host: [line.split(" ")[2] for line in script[:start] if line.startswith(f"socket {host} ")] for host in HOSTS}
        self.lan = Lan(program, script[: start + 1])
        self.lines = script[: start + 1]
        self.sent = {host: [] for host in HOSTS}
        self.handed = {host: set() for host in HOSTS}
        self.owed = {host: [] for host in HOSTS}
        self.named = {host: set() for host in HOSTS}
        self.came = {host: [] for host in HOSTS}
        self.shift = None if bad else dict.fromkeys(HOSTS, 0)
        self.last = {host: 0 for host in HOSTS}
        self.written, self.read, self.datagrams = {}, {}, {}
        self.listens, self.connects, self.bound = {}, {}, []
        self.answers = []
        self.line = start
        try:
            for line in script[start + 1 : cut]:
                self.line += 1
                if self.line == bad:
                    self.begin_bad()
                self.act(line)
        except Ended:
            self.close()
            raise

    def close(self):
        self.lan.close()

    def moment(self):
        return max(self.last.values())

    def ask(self, line):
        self.lines.append(line)
        answer, sent = self.lan.ask(line)
        for host, number, frame in sent:
            assert number == len(self.sent[host])
            self.sent[host].append(Frame(self.line, number, self.last[host], frame))
        return answer

    def act(self, line):
        words = line.split(" ")
        if words[0] == "deliver":
            return self.deliver(words[1], int(words[2]), words[3])
        host, place = words[1], (words[1], int(words[2]) if words[2:] and words[2].isdigit() else None)
        if words[0] in ("poll", "pollat"):
            self.last[host] = max(self.last[host], int(words[2]))
        answer = self.ask(line)
        self.answers.append((self.line, line, answer))
        if answer.startswith("error "):
            return answer
        if words[0] == "send":
            taken = bytes.fromhex(words[3].replace("-", ""))[: int(answer.split(" ")[1])]
            self.written[place] = self.written.get(place, b"") + taken
        elif words[0] == "recv":
            self.read[place] = self.read.get(place, b"") + bytes.fromhex(answer.split(" ")[1].replace("-", ""))
        elif words[0] == "recvfrom":
            self.datagrams.setdefault(place, []).append(answer.split(" ", 1)[1])
        elif words[0] == "listen":
            self.listens.setdefault((host, int(words[3])), place)
        elif words[0] == "connect":
            self.connects[place] = int(words[3].rsplit(":", 1)[1])
        elif words[0] == "bind":
            self.bound.append(place)
        return answer

    def hand(self, host, number, padding="-"):
        self.ask(f"deliver {host} {number} {padding}")
        self.handed[host].add(number)
        self.came[host].append((self.line, self.moment(), number))

    def outstanding(self, host):
        return [frame.number for frame in self.sent[host] if frame.number not in self.handed[host]]

    def begin_bad(self):
        """What is on its way comes, and with the next frame of a host begins what the script names next of it."""
        while any(self.outstanding(host) for host in HOSTS):
            for host in HOSTS:
                for number in self.outstanding(host):
                    self.hand(host, number)
            for host in HOSTS:
                self.act(f"poll {host} {self.moment()} 64")
        self.shift = {host: len(self.sent[host]) - 1 - max(self.named[host], default=-1) for host in HOSTS}
        self.named = {host: set(range(len(self.sent[host]))) for host in HOSTS}

    def deliver(self, host, number, padding):
        """A frame that wasn't sent yet is handed over at the next such line; one that was handed over comes again."""
        if self.shift is None:
            self.named[host].add(number)
            for number in self.outstanding(host):
                self.hand(host, number, padding)
            return
        count, number = len(self.sent[host]), number + self.shift[host]
        if number in self.named[host]:
            if count:
                self.hand(host, min(number, count - 1), padding)
            return
        self.named[host].add(number)
        self.owed[host].append(number)
        for number in [number for number in self.owed[host] if number < count]:
            self.owed[host].remove(number)
            self.hand(host, number, padding)

    def pairs(self):
        """Of each connection the places of both ends, as (host, socket)."""
        ends = ((place, self.listens.get((OTHER[place[0]], port))) for place, port in self.connects.items())
        return [(one, other) for one, other in ends if other]

    def unread(self):
        """Of each stream that isn't read whole how many bytes are missing; less than none where others were read."""
        missing = {}
        for pair in self.pairs():
            for writer, reader in (pair, pair[::-1]):
                written, read = self.written.get(writer, b""), self.read.get(reader, b"")
                if written != read:
                    missing[writer] = len(written) - len(read) if written.startswith(read) else -1
        return missing

    def take(self):
        for host in HOSTS:
            for place, kind in enumerate(self.kinds[host]):
                if kind == "tcp" and any((host, place) in pair for pair in self.pairs()):
                    self.act(f"recv {host} {place} {1 << 30}")
                elif kind == "udp" and (host, place) in self.bound:
                    while not self.act(f"recvfrom {host} {place} 65535").startswith("error "):
                        pass

    def wants(self, host, now):
        answer = self.act(f"pollat {host} {now}")
        return None if answer == "never" else max(now, int(answer.split(" ")[1]))

    def heal(self, delay, limit, is_over, is_lost=False):
        """A good link: each new frame comes once, after so many microseconds, and both hosts are polled when they want to be, up to
        so many microseconds from now or until it is over. Answers how long that took. What went before is lost where it `is_lost`; else
        what went behind all frames that the script names is on its way."""
        start = now = self.moment()
        on_way = []
        seen = {host: len(self.sent[host]) for host in HOSTS}
        if not is_lost:
            seen = {host: min(seen[host], 1 + max(self.named[host], default=-1)) for host in HOSTS}
        for _ in range(100_000):
            self.line += 1
            self.take()
            for host in HOSTS:
                for frame in self.sent[host][seen[host] :]:
                    if frame.number not in self.handed[host]:
                        on_way.append((max(now, frame.moment) + delay, host, frame.number))
                seen[host] = max(seen[host], len(self.sent[host]))
            if is_over(self):
                return now - start
            moments = [it for it in (*(self.wants(host, now) for host in HOSTS), *(it[0] for it in on_way)) if it is not None]
            if not moments or min(moments) - start > limit:
                break
            now = max(now, min(moments))
            for arrival in sorted(it for it in on_way if it[0] <= now):
                on_way.remove(arrival)
                self.hand(*arrival[1:])
            for host in HOSTS:
                self.act(f"poll {host} {now} 64")
        return None

    def segments(self, host):
        """The TCP segments that a host sent, as (frame, segment)."""
        pairs = ((frame, segment_of(frame.bytes, self.medium)) for frame in self.sent[host])
        return [pair for pair in pairs if pair[1]]
