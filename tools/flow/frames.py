"""What a frame says, in the words of Wireshark: ports, flags, relative sequence numbers, options."""
import ipaddress
import struct
from dataclasses import dataclass, field

FIN, SYN, RST, PSH, ACK = 1, 2, 4, 8, 16
FLAGS = ("FIN", "SYN", "RST", "PSH", "ACK", "URG", "ECE", "CWR")
ICMPV4 = {0: "echo reply", 3: "unreachable", 5: "redirect", 8: "echo request", 11: "time exceeded", 12: "parameter problem"}
UNREACHABLE = {0: "net", 1: "host", 2: "protocol", 3: "port", 4: "fragmentation needed"}
ICMPV6 = {1: "unreachable", 2: "packet too big", 3: "time exceeded", 4: "parameter problem", 128: "echo request", 129: "echo reply",
          130: "listener query", 131: "listener report", 133: "router solicitation", 134: "router advertisement",
          135: "neighbor solicitation", 136: "neighbor advertisement", 137: "redirect", 143: "listener report v2"}
EXTENSIONS = (0, 43, 60)


@dataclass
class Segment:
    """A TCP segment: both ends as (address, port), numbers as they are and relative to each side's SYN, the window as scaled."""

    source: tuple
    to: tuple
    seq: int
    ack: int
    flags: int
    window: int
    length: int
    seq_rel: int = 0
    ack_rel: int = 0
    options: list = field(default_factory=list)
    sacks: list = field(default_factory=list)

    @property
    def end(self):
        """The relative number after the last that it takes: SYN and FIN take one each."""
        return self.seq_rel + self.length + bool(self.flags & SYN) + bool(self.flags & FIN)


@dataclass
class Seen:
    """What a frame says: in words; of TCP the segment; of a resolution ("asks", "answers") and the address; of an error the packet in it."""

    text: str
    tcp: Segment = None
    ends: tuple = None
    resolves: tuple = None
    quoted: bytes = None
    fragment: tuple = None


def u16(data, at):
    return struct.unpack_from(">H", data, at)[0]


def u32(data, at):
    return struct.unpack_from(">I", data, at)[0]


def address(data, at, size):
    if len(data) < at + size:
        raise struct.error("too short")
    return str(ipaddress.ip_address(data[at : at + size]))


def packet_of(frame, medium):
    """The IP packet of a frame, or None."""
    if medium != "eth":
        return frame
    return frame[14:] if frame[12:14] in (b"\x08\0", b"\x86\xdd") else None


class Decoder:
    """Reads frames in the order in which they were sent, and so knows each side's SYN."""

    def __init__(self, medium):
        self.medium = medium
        self.first, self.scale = {}, {}

    def see(self, frame, host, learn=True):
        """What a frame of a host says. `learn` is False for bytes that no host sent."""
        try:
            return self.frame(frame, host, learn)
        except (struct.error, IndexError, ValueError):
            return Seen("no whole packet")

    def frame(self, frame, host, learn):
        if self.medium == "tcp":
            return self.segment(frame, host, "AB"[host == "A"], learn, "TCP")
        if self.medium == "eth":
            kind = u16(frame, 12)
            if kind == 0x806:
                return arp(frame[14:])
            if kind not in (0x800, 0x86DD):
                return Seen(f"Ethernet, EtherType {kind:04x}, {len(frame) - 14} bytes")
        packet = packet_of(frame, self.medium)
        return self.ipv4(packet, learn) if packet[0] >> 4 == 4 else self.ipv6(packet, learn)

    def ipv4(self, packet, learn):
        length, total, field_ = (packet[0] & 15) * 4, u16(packet, 2), u16(packet, 6)
        source, to = address(packet, 12, 4), address(packet, 16, 4)
        if length < 20 or total < length or total > len(packet):
            raise ValueError
        if field_ & 0x3FFF:
            at, more = (field_ & 0x1FFF) * 8, bool(field_ & 0x2000)
            words = f"fragment id={u16(packet, 4)} off={at} Len={total - length} " + ("more" if more else "last")
            return Seen(words, fragment=(u16(packet, 4), at, total - length, more))
        return self.payload(packet[9], source, to, packet[length:total], "", learn)

    def ipv6(self, packet, learn):
        if packet[0] >> 4 != 6:
            raise ValueError
        source, to = address(packet, 8, 16), address(packet, 24, 16)
        kind, payload = packet[6], packet[40 : 40 + u16(packet, 4)]
        while kind in EXTENSIONS:
            kind, payload = payload[0], payload[8 + payload[1] * 8 :]
        if kind == 44:
            field_ = u16(payload, 2)
            at, more = field_ & 0xFFF8, bool(field_ & 1)
            words = f"fragment id={u32(payload, 4)} off={at} Len={len(payload) - 8} " + ("more" if more else "last")
            return Seen(words, fragment=(u32(payload, 4), at, len(payload) - 8, more))
        return self.payload(kind, source, to, payload, "/IPv6", learn)

    def payload(self, kind, source, to, data, over, learn):
        if kind == 6:
            return self.segment(data, source, to, learn, f"TCP{over}")
        if kind == 17:
            ports = u16(data, 0), u16(data, 2)
            return Seen(f"UDP{over} {ports[0]} > {ports[1]} Len={len(data) - 8}", ends=((source, ports[0]), (to, ports[1])))
        if kind == 1:
            return icmpv4(data)
        if kind == 58:
            return icmpv6(data)
        return Seen(f"IP protocol {kind}, {len(data)} bytes, from {source} to {to}")

    def segment(self, data, source, to, learn, name):
        flags, header = data[13], (data[12] >> 4) * 4
        if header < 20 or header > len(data):
            raise ValueError
        ends = (source, u16(data, 0)), (to, u16(data, 2))
        it = Segment(*ends, u32(data, 4), u32(data, 8), flags, u16(data, 14), len(data) - header)
        options, shift = tcp_options(data[20:header])
        there, back = ends, ends[::-1]
        if flags & SYN and learn:
            self.first[there], self.scale[there] = it.seq, shift
        it.seq_rel, it.ack_rel = self.relative(there, it.seq), self.relative(back, it.ack)
        if not flags & SYN and None not in (self.scale.get(there), self.scale.get(back)):
            it.window <<= min(14, self.scale[there])
        for option in options:
            if option[0] == "SACK":
                it.sacks = [(self.relative(back, left), self.relative(back, right)) for left, right in option[1]]
                it.options += [f"SLE={left} SRE={right}" for left, right in it.sacks]
            else:
                it.options.append(option[1])
        return Seen(f"{name} {ends[0][1]} > {ends[1][1]} {words_of(it)}", it, ends)

    def relative(self, ends, number):
        return (number - self.first[ends]) % 2**32 if ends in self.first else number


def words_of(it):
    flags = ", ".join(name for bit, name in enumerate(FLAGS) if it.flags >> bit & 1)
    ack = f" Ack={it.ack_rel}" if it.flags & ACK else ""
    return f"[{flags}] Seq={it.seq_rel}{ack} Win={it.window} Len={it.length}" + "".join(f" {option}" for option in it.options)


def tcp_options(data):
    """The options, each a pair of its name and text or numbers, and the shift of the window scale option."""
    found, shift, at = [], None, 0
    while at < len(data) and data[at]:
        kind = data[at]
        if kind == 1:
            at += 1
            continue
        length = data[at + 1] if at + 1 < len(data) else 0
        value = data[at + 2 : at + length]
        if length < 2 or len(value) != length - 2:
            return [*found, ("?", "an option that is cut short")], shift
        if kind == 3 and length == 3:
            shift = value[0]
        found.append(tcp_option(kind, value))
        at += length
    return found, shift


def tcp_option(kind, value):
    size = len(value)
    if (kind, size) == (2, 2):
        return "MSS", f"MSS={u16(value, 0)}"
    if (kind, size) == (3, 1):
        return "WS", f"WS={1 << min(14, value[0])}"
    if (kind, size) == (4, 0):
        return "SACK_PERM", "SACK_PERM"
    if (kind, size) == (8, 8):
        return "TS", f"TSval={u32(value, 0)} TSecr={u32(value, 4)}"
    if kind == 5 and size % 8 == 0:
        return "SACK", [(u32(value, at), u32(value, at + 4)) for at in range(0, size, 8)]
    return "?", f"option {kind}, {size} bytes"


def arp(data):
    kind, asker, target = u16(data, 6), address(data, 14, 4), address(data, 24, 4)
    if kind == 1:
        return Seen(f"ARP who has {target}? tell {asker}", resolves=("asks", target))
    if kind == 2:
        return Seen(f"ARP {asker} is at {data[8:14].hex('-')}", resolves=("answers", asker))
    return Seen(f"ARP operation {kind}")


def icmpv4(data):
    kind, code = data[0], data[1]
    name = ICMPV4.get(kind, f"type {kind}")
    if kind == 3:
        return Seen(f"ICMP unreachable, {UNREACHABLE.get(code, f'code {code}')}", quoted=data[8:])
    if kind in (5, 11, 12):
        return Seen(f"ICMP {name}, code {code}", quoted=data[8:])
    if kind in (0, 8):
        return Seen(f"ICMP {name} id={u16(data, 4)} seq={u16(data, 6)} Len={len(data) - 8}")
    return Seen(f"ICMP {name}, {len(data)} bytes")


def icmpv6(data):
    kind, code = data[0], data[1]
    name = ICMPV6.get(kind, f"type {kind}")
    if kind < 128:
        return Seen(f"ICMPv6 {name}, code {code}", quoted=data[8:])
    if kind in (128, 129):
        return Seen(f"ICMPv6 {name} id={u16(data, 4)} seq={u16(data, 6)} Len={len(data) - 8}")
    if kind in (135, 136):
        target = address(data, 8, 16)
        return Seen(f"ICMPv6 {name} {target}", resolves=("asks" if kind == 135 else "answers", target))
    return Seen(f"ICMPv6 {name}, {len(data)} bytes")
