#!/usr/bin/env python3
"""What a TCP says on a real link, held against the definition of a conforming peer (crates/tcp_peer/specs/Peer.antt):

    honest.py FILE.pcap ..           each TCP segment of these captures, both ways
    honest.py try FOLDER [COUNT]     as root: so many connections (40) of Linux with itself over a link that loses, repeats and holds back,
                                     resets and half-open connections among them, kept as FOLDER/linux.pcap; that capture, with the streams
                                     that its programs wrote; and then the same with one byte of it changed, which must be refused

A capture is read as one made at one end of the link. Its format is pcap (`tcpdump -w`; `tshark -F pcap -w`), of Ethernet frames or of packets.
Of each connection an end's stream is what its program wrote, where that is known, else the bytes that the capture has first at each position.
A segment that isn't honest is refused if the end that gets it takes something from it (crates/proof_stack/specs/PeerHost/TakenRun.antt); it is
told, and nothing more, if that end drops, challenges or resets it. Segments with a wrong checksum are left out, since a host drops them, and so
are fragments. The status is 0 if something was read and nothing refused, in `try` also only if each change was.
"""
import ipaddress
import random
import struct
import sys
from dataclasses import dataclass, field

FIN, SYN, RST, ACK = 1, 2, 4, 16
CIRCLE = 2**32


# CAPTURES

@dataclass
class Segment:
    source: tuple  # address and port
    destination: tuple
    seq: int
    ack: int | None
    flags: int
    window: int
    scale: int | None  # of a SYN
    data: bytes
    number: int  # of its frame in the capture
    data_at: int  # of the frame, as `header_at`
    header_at: int

    def is_syn(self):
        return bool(self.flags & SYN)

    def is_fin(self):
        return bool(self.flags & FIN)

    def is_reset(self):
        return bool(self.flags & RST)

    def __str__(self):
        names = "".join(name for bit, name in ((SYN, "S"), (FIN, "F"), (RST, "R")) if self.flags & bit) or "."
        ack = "" if self.ack is None else f" ack {self.ack}"
        return f"frame {self.number}: {self.source[1]} > {self.destination[1]} [{names}] seq {self.seq}{ack}, {len(self.data)} bytes"


def frames_of(capture):
    """The link type and the frames of a capture in pcap's format."""
    orders = {b"\xd4\xc3\xb2\xa1": "<", b"\x4d\x3c\xb2\xa1": "<", b"\xa1\xb2\xc3\xd4": ">", b"\xa1\xb2\x3c\x4d": ">"}
    order = orders.get(capture[:4])
    if order is None:
        raise ValueError("not a capture in pcap's format (tshark -r FILE -F pcap -w OTHER makes one)")
    link, at, frames = struct.unpack(order + "I", capture[20:24])[0] & 0xFFFF, 24, []
    while at + 16 <= len(capture):
        size = struct.unpack(order + "I", capture[at + 8:at + 12])[0]
        frames.append(capture[at + 16:at + 16 + size])
        at += 16 + size
    return link, frames


def packet_at(link, frame):
    """Where the IP packet of a frame begins, or None."""
    if link == 1:
        return 14 if frame[12:14] in (b"\x08\0", b"\x86\xdd") else None
    if link in (12, 101):
        return 0
    raise ValueError(f"link type {link} isn't read")


def checksum(data):
    total = sum(struct.unpack(f">{(len(data) + 1) // 2}H", data + b"\0" * (len(data) % 2)))
    while total >> 16:
        total = (total & 0xFFFF) + (total >> 16)
    return total ^ 0xFFFF


def tcp_in(frame, at):
    """Where TCP begins and ends in the packet here, and its pseudo header; None where it is a fragment or something else."""
    version = frame[at] >> 4
    if version == 4:
        start, end = at + 4 * (frame[at] & 15), at + int.from_bytes(frame[at + 2:at + 4], "big")
        fragment = int.from_bytes(frame[at + 6:at + 8], "big") & 0x3FFF
        if frame[at + 9] != 6 or fragment or end > len(frame):
            return None
        return start, end, frame[at + 12:at + 20] + struct.pack(">HH", 6, end - start)
    if version == 6:
        start, end = at + 40, at + 40 + int.from_bytes(frame[at + 4:at + 6], "big")
        if frame[at + 6] != 6 or end > len(frame):
            return None
        return start, end, frame[at + 8:at + 40] + struct.pack(">II", end - start, 6)
    return None


def scale_of(options):
    at = 0
    while at < len(options) and options[at] != 0:
        if options[at] == 1:
            at += 1
            continue
        if at + 1 >= len(options) or options[at + 1] < 2:
            return None
        if options[at] == 3:
            return min(options[at + 2], 14)
        at += options[at + 1]
    return None


def segment_in(link, number, frame, wrong):
    """The TCP segment of a frame, if it has one; the frame is put among the wrong ones if its checksum doesn't hold."""
    packet = packet_at(link, frame)
    found = None if packet is None or len(frame) < packet + 20 else tcp_in(frame, packet)
    if found is None:
        return None
    start, end, pseudo = found
    if end - start < 20:
        return None
    if checksum(pseudo + frame[start:end]):
        wrong.append(number)
        return None
    source_port, destination_port, seq, ack, offset, flags, window = struct.unpack(">HHIIBBH", frame[start:start + 16])
    head = start + 4 * (offset >> 4)
    if not start + 20 <= head <= end:
        return None
    half = (len(pseudo) - (4 if len(pseudo) == 12 else 8)) // 2
    addresses = [str(ipaddress.ip_address(pseudo[i:i + half])) for i in (0, half)]
    scale = scale_of(frame[start + 20:head]) if flags & SYN else None
    return Segment((addresses[0], source_port), (addresses[1], destination_port), seq, ack if flags & ACK else None, flags, window, scale,
                   bytes(frame[head:end]), number, head, start)


def segments_of(capture, wrong):
    link, frames = frames_of(capture)
    found = (segment_in(link, number, frame, wrong) for number, frame in enumerate(frames, 1))
    return [it for it in found if it is not None]


# THE DEFINITION: `End`, `IsHonest` and what it names, word for word

@dataclass
class End:
    first: int
    stream: "Stream"
    ends: bool
    heard: int


class Stream:
    """The bytes of a stream; of one that only a capture tells, a byte that it has nowhere is of any value."""

    def __init__(self, known=None):
        self.known, self.seen, self.size = known, {}, 0 if known is None else len(known)

    def tell(self, index, data):
        if self.known is None:
            for i, byte in enumerate(data, index):
                self.seen.setdefault(i, byte)
            self.size = max(self.size, index + len(data))

    def begins(self, index, data):
        """Whether these bytes stand from this index on."""
        if index + len(data) > self.size:
            return not data
        if self.known is not None:
            return self.known[index:index + len(data)] == data
        return all(self.seen.get(i, byte) == byte for i, byte in enumerate(data, index))


def ahead(reference, number):
    return (number - reference) % CIRCLE


def counted(reference, number):
    return reference + ahead(reference, number)


def end_of(e):
    return e.first + 1 + e.stream.size + e.ends


def is_piece(me, other, x):
    if x.is_syn() or x.is_reset():
        return False
    at = counted(me.first + 1, x.seq)
    index = at - me.first - 1
    last = not x.is_fin() or (me.ends and index + len(x.data) == me.stream.size)
    return me.stream.begins(index, x.data) and last and (other.heard == me.first or me.stream.size == 0)


def is_bare(x):
    return not x.flags & (SYN | FIN | RST) and not x.data


def is_old(other, acked_to, x):
    if x.flags & (SYN | FIN | RST) or other.heard < CIRCLE:
        return False
    end = counted(other.heard, x.seq) + len(x.data)
    return end <= other.heard + 1 or (acked_to is not None and end <= acked_to)


def is_syn(me, x):
    return x.is_syn() and not x.is_reset() and (x.ack is not None or x.seq == me.first % CIRCLE)


def has_reached(me, other, number):
    at = counted(me.heard + 1, number)
    return at == me.heard + 1 or (me.heard == other.first and at <= end_of(other))


def is_honest(me, other, acked_to, x):
    """`acked_to`: as far as `other` acknowledged so far, counted from the SYN that it took."""
    if x.is_reset():
        return True
    of_itself = is_piece(me, other, x) or is_bare(x) or is_old(other, acked_to, x) or is_syn(me, x)
    return of_itself and (x.ack is None or has_reached(me, other, x.ack))


# CONNECTIONS

@dataclass
class Side:
    """One end as the capture shows it: the end that it is all in all, and what has been seen of it so far."""
    end: End
    sent: Stream = field(default_factory=Stream)  # what it has written so far, as far as it was sent
    closed: bool = False
    opened: bool = False  # it sent a SYN
    heard: int = 0  # the SYN that it took
    acked_to: int | None = None
    una: int = 0
    synchronized: bool = False
    next: int = 0
    held: dict = field(default_factory=dict)  # ranges past RCV.NXT
    edge: int = 0  # the right edge of the window that it announced
    scale: int = 0

    def now(self):
        return End(self.end.first, self.sent, self.closed, self.heard)

    def says(self, x, scaled):
        """It sends this. What it sends before its SYN is of an older connection."""
        self.opened = self.opened or x.is_syn()
        if x.is_reset() or not self.opened:
            return
        if x.is_syn():
            self.una = max(self.una, self.end.first)
        elif x.data or x.is_fin():
            self.sent.size = max(self.sent.size, ahead(self.end.first + 1, x.seq) + len(x.data))
            self.closed = self.closed or x.is_fin()
        if x.ack is not None and self.heard:
            reached = counted(self.heard, x.ack)
            self.acked_to = max(self.acked_to or 0, reached)
            window = x.window if x.is_syn() or not scaled else x.window << self.scale
            self.edge = max(self.edge, reached + window)

    def takes(self, x):
        """Whether it takes anything from this, by the rules of RFC 9293, 3.10.7, and RFC 5961."""
        if x.is_reset():
            return False
        if not self.opened and not self.heard:
            return x.is_syn() and x.ack is None
        if not self.heard:
            return x.is_syn() and (x.ack is None or x.ack == (self.end.first + 1) % CIRCLE)
        if x.is_syn() or x.ack is None:
            return False
        past = (x.ack - self.una) % CIRCLE
        if not self.synchronized:
            return x.ack == (self.end.first + 1) % CIRCLE and self.is_in_window(x)
        if past < CIRCLE // 2:
            return past <= end_of(self.now()) - self.una and (self.is_in_window(x) or self.is_before(x))
        return self.una - (CIRCLE - past) > self.end.first and self.is_in_window(x)

    def is_in_window(self, x):
        size = len(x.data) + x.is_fin()
        at = self.next + (x.seq - self.next + CIRCLE // 2) % CIRCLE - CIRCLE // 2
        room = self.edge - self.next
        if size == 0:
            return at == self.next if room <= 0 else self.next <= at < self.edge
        return room > 0 and at < self.edge and self.next < at + size

    def is_before(self, x):
        behind = (self.next - x.seq) % CIRCLE
        return 0 < behind < CIRCLE // 2 and len(x.data) + x.is_fin() <= behind <= self.edge - self.next + 2**24

    def take(self, x):
        """It took this: new positions that it has in order now."""
        before = self.next
        if x.is_syn():
            self.heard, self.next = CIRCLE + x.seq, CIRCLE + x.seq + 1
            self.synchronized = self.synchronized or x.ack is not None
            self.una = self.end.first + (x.ack is not None)
            return 0
        self.synchronized = True
        past = (x.ack - self.una) % CIRCLE
        self.una += past if past < CIRCLE // 2 else 0
        at = self.next + (x.seq - self.next + CIRCLE // 2) % CIRCLE - CIRCLE // 2
        end = at + len(x.data) + x.is_fin()
        self.held[at] = max(self.held.get(at, 0), end)
        for start in sorted(self.held):
            if start <= self.next:
                self.next = max(self.next, self.held.pop(start))
        return self.next - before


@dataclass
class Connection:
    """Between two openings of the same pair of endpoints, its segments in order."""
    client: tuple
    server: tuple
    first: int
    segments: list

    def sides(self, streams):
        """Both ends, all in all: ISS, stream, FIN, and the SYN that each counts from."""
        answers = [it for it in self.segments if it.source == self.server and it.is_syn()]
        acked = {it.ack for it in self.segments if it.source == self.client and it.ack is not None and not it.is_reset()}
        answer = next((it.seq for it in answers if (it.seq + 1) % CIRCLE in acked), answers[-1].seq if answers else 0)
        client = End(CIRCLE + self.first, self.stream_of(self.client, self.first, streams), self.finned(self.client), CIRCLE + answer)
        server = End(CIRCLE + answer, self.stream_of(self.server, answer, streams), self.finned(self.server), CIRCLE + self.first)
        return {self.client: Side(client), self.server: Side(server)}

    def stream_of(self, source, first, streams):
        other = self.server if source == self.client else self.client
        if (source, other) in streams:
            return Stream(streams[source, other])
        stream = Stream()
        for it in self.segments:
            index = ahead((first + 1) % CIRCLE, it.seq)
            if it.source == source and (it.data or it.is_fin()) and not it.flags & (SYN | RST) and index < 2**29:
                stream.tell(index, it.data)
        return stream

    def finned(self, source):
        return any(it.source == source and it.is_fin() and not it.is_reset() for it in self.segments)


def connections_of(segments):
    """A SYN without ACK with another number opens another connection between the same endpoints."""
    found, open_now = [], {}
    for it in segments:
        key = frozenset((it.source, it.destination))
        now = open_now.get(key)
        if it.is_syn() and it.ack is None and not it.is_reset() and (now is None or now.first != it.seq or now.client != it.source):
            now = open_now[key] = Connection(it.source, it.destination, it.seq, [])
            found.append(now)
        if now is not None:
            now.segments.append(it)
    return found


@dataclass
class Verdict:
    segments: int = 0
    connections: int = 0
    wrong: list = field(default_factory=list)  # frames with a wrong checksum
    thrown_away: list = field(default_factory=list)  # not honest, and not taken
    refused: list = field(default_factory=list)  # not honest, and taken
    fresh: list = field(default_factory=list)  # with bytes that were new to the end that took them


def replay(connection, streams, verdict):
    sides = connection.sides(streams)
    scaled = {it.source for it in connection.segments if it.is_syn() and it.scale is not None} == set(sides)
    for x in connection.segments:
        me, other = sides[x.source], sides[x.destination]
        verdict.segments += 1
        if x.is_syn() and x.scale is not None:
            me.scale = x.scale
        honest, taken = is_honest(me.end, other.now(), other.acked_to, x), other.takes(x)
        if honest:
            me.says(x, scaled)
        else:
            (verdict.refused if taken else verdict.thrown_away).append(x)
        if taken and other.take(x) and x.data:
            verdict.fresh.append(x)


def verdict_of(capture, streams):
    verdict = Verdict()
    for connection in connections_of(segments_of(capture, verdict.wrong)):
        verdict.connections += 1
        replay(connection, streams, verdict)
    return verdict


def report(name, verdict):
    print(f"{name}: {verdict.connections} connections, {verdict.segments} segments; not honest: {len(verdict.refused)} that were taken, "
          f"{len(verdict.thrown_away)} that were thrown away; {len(verdict.wrong)} left out, with a wrong checksum")
    for what, which in (("refused", verdict.refused), ("thrown away", verdict.thrown_away)):
        for it in which[:20]:
            print(f"  {what}: {it}")
    if not verdict.segments:
        print("  nothing was read: where a device sums up for its host, a capture has no checksums (ethtool -K DEVICE tx off)")
    return bool(verdict.segments) and not verdict.refused


# ONE BYTE CHANGED

def with_byte(capture, segment, at, byte):
    """The capture with this byte of a segment's frame exchanged, and the checksum made right."""
    link, frames = frames_of(capture)
    changed, start = bytearray(capture), 24
    for frame in frames[:segment.number - 1]:
        start += 16 + len(frame)
    start += 16
    frame = bytearray(frames[segment.number - 1])
    frame[at] = byte
    begin, end, pseudo = tcp_in(bytes(frame), packet_at(link, frame))
    frame[begin + 16:begin + 18] = b"\0\0"
    frame[begin + 16:begin + 18] = checksum(bytes(pseudo + frame[begin:end])).to_bytes(2, "big")
    changed[start:start + len(frame)] = frame
    return bytes(changed)


def changes(verdict, frames, count, chance):
    """Of segments with new bytes: a byte of the last of them, or the acknowledgement's high byte, whose number nobody reached."""
    for x in chance.sample(verdict.fresh, min(count, len(verdict.fresh))):
        at = x.data_at + len(x.data) - 1
        yield "a byte", x, at, frames[x.number - 1][at] ^ chance.randrange(1, 256)
        at = x.header_at + 8
        yield "an acknowledgement", x, at, frames[x.number - 1][at] ^ 0x40


def try_changes(capture, streams, verdict, count):
    """Whether each capture with one byte changed is noticed: another byte of the stream is refused; an acknowledgement of what wasn't sent is not
    honest, and no end takes it."""
    frames = frames_of(capture)[1]
    well = True
    told = {"a byte": [0, 0], "an acknowledgement": [0, 0]}
    before = len(verdict.thrown_away)
    for kind, x, at, byte in changes(verdict, frames, count, random.Random(1)):
        now = verdict_of(with_byte(capture, x, at, byte), streams)
        noticed = bool(now.refused) if kind == "a byte" else len(now.refused) + len(now.thrown_away) > before
        told[kind][0] += noticed
        told[kind][1] += 1
        if not noticed:
            well = False
            print(f"  NOT NOTICED, {kind} of {x}")
    for kind, (noticed, all_of) in told.items():
        print(f"{kind} changed: {noticed} of {all_of} captures noticed")
    return well and all(all_of for _, all_of in told.values())


def main(words):
    if words[:1] == ["try"] and len(words) in (2, 3):
        from honest_link import record
        streams = record(f"{words[1]}/linux.pcap", int(words[2]) if len(words) == 3 else 40)
        with open(f"{words[1]}/linux.pcap", "rb") as it:
            capture = it.read()
        verdict = verdict_of(capture, streams)
        well = report("Linux with itself", verdict)
        return 0 if try_changes(capture, streams, verdict, 25) and well else 1
    if not words or words[0].startswith("-") or words[0] == "try":
        print(__doc__)
        return 2
    well = True
    for name in words:
        try:
            with open(name, "rb") as it:
                well = report(name, verdict_of(it.read(), {})) and well
        except (OSError, ValueError) as it:
            print(f"{name}: {it}")
            well = False
    return 0 if well else 1


if __name__ == "__main__":
    sys.dont_write_bytecode = True
    sys.exit(main(sys.argv[1:]))
