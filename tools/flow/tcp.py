"""What a host knows of its TCP connections, as far as the frames that it sent and took and the answers to its calls say it.

From frames: SND.UNA, SND.NXT, what the peer allows, the last acknowledgement sent, what arrived out of order. From answers: bytes accepted.
Congestion window, retransmission timeout and round-trip times are in no frame and no answer, and are not shown.
"""
import bisect
from dataclasses import dataclass, field

from frames import ACK, FIN, SYN

DELAYED_ACK, TIME_WAIT, NEIGHBOR = 10_000, 10_000_000, 1_000_000
# The longest segment where a SYN says none (RFC 9293, 3.7.1), and what the options of a segment take at most.
NO_MSS, OPTIONS = 536, 40


@dataclass
class Connection:
    """One side of a connection, in relative numbers. `edge` is the right edge that it announced, `fin` the end of the peer's stream.
    `is_eager` where Nagle's rule is off."""

    local: tuple
    remote: tuple
    una: int = 0
    nxt: int = 0
    allowed: int = None
    ack_sent: int = 0
    in_order: int = 0
    beyond: set = field(default_factory=set)
    heard: int = None
    owed_since: int = None
    unacknowledged: list = field(default_factory=list)
    sacked: set = field(default_factory=set)
    edge: int = 0
    fin: int = None
    own_mss: int = NO_MSS
    peer_mss: int = NO_MSS
    is_eager: bool = False

    def on_sent(self, frame):
        segment = frame.seen.tcp
        self.nxt = max(self.nxt, segment.end)
        if segment.end > segment.seq_rel:
            self.unacknowledged.append(frame)
        if segment.flags & SYN:
            self.own_mss = mss_of(segment)
        if segment.flags & ACK:
            self.ack_sent, self.edge = segment.ack_rel, max(self.edge, segment.ack_rel + segment.window)
            self.owed_since = self.heard if self.in_order > self.ack_sent else None

    def on_taken(self, handing, moment):
        segment = handing.seen.tcp
        self.heard = moment
        if segment.flags & SYN:
            self.peer_mss = mss_of(segment)
        if segment.flags & FIN:
            self.fin = segment.end
        if segment.flags & ACK and segment.ack_rel <= self.nxt:
            self.una = max(self.una, segment.ack_rel)
            self.allowed = segment.window
            self.sacked = {it for it in self.sacked.union(segment.sacks) if it[1] > self.una}
            self.unacknowledged = [frame for frame in self.unacknowledged if frame.seen.tcp.end > self.una]
        if segment.end > segment.seq_rel:
            self.beyond.add((segment.seq_rel, segment.end))
            for left, right in sorted(self.beyond):
                self.in_order = max(self.in_order, right) if left <= self.in_order else self.in_order
            self.beyond = {it for it in self.beyond if it[1] > self.in_order}
        if self.in_order > self.ack_sent and self.owed_since is None:
            self.owed_since = moment

    def accepted(self):
        """How many bytes of the peer's stream came in order, inside of what was announced."""
        count = min(self.in_order, self.edge)
        return max(count - 1 - (self.fin is not None and count >= self.fin), 0)

    def numbers(self, queued):
        """The numbers as a text. `queued` are all bytes that the user wrote."""
        words = f"snd {self.una}:{self.nxt}"
        if queued and queued + 1 > self.nxt:
            words += f" of {queued + 1}"
        if self.allowed is not None:
            words += f", peer's window {self.allowed}"
        if self.heard is not None:
            words += f" | rcv {self.in_order}" + (f", {len(self.beyond)} out of order" if self.beyond else "")
        return words


def mss_of(segment):
    """The MSS that a SYN announces."""
    return next((int(option[4:]) for option in segment.options if option.startswith("MSS=")), NO_MSS)


def listed(numbers):
    """Frames by their numbers: three or more that follow one another are a range."""
    ranges = []
    for number in numbers:
        if ranges and number == ranges[-1][1] + 1:
            ranges[-1][1] = number
        else:
            ranges.append([number, number])
    words = []
    for first, last in ranges:
        words += [f"#{first} to #{last}"] if last - first > 1 else [f"#{number}" for number in range(first, last + 1)]
    return ", ".join(words)


@dataclass
class When:
    """The end of a row, and the moment then."""

    row: int
    moment: int

    def fate(self, frame, sacked=()):
        """What had become of a frame, of which the SACK ranges that came may tell."""
        fate, segment = frame.fate_at(self.row, self.moment), frame.seen.tcp
        is_sacked = any(left <= segment.seq_rel and segment.end <= right for left, right in sacked)
        return "received and SACKed" if fate == "received" and is_sacked else fate

    def fates(self, frames, sacked=()):
        """What became of frames, those of one fate together: pairs of their names and the fate."""
        found = {}
        for frame in frames:
            found.setdefault(self.fate(frame, sacked), []).append(frame.number)
        return [(listed(numbers), fate) for fate, numbers in found.items()]

    def told(self, frames):
        """The same as a text."""
        return ", ".join(f"{names} ({fate})" for names, fate in self.fates(frames))


def name_of(left, right, frame):
    """What a segment has, in words."""
    flags, length = frame.seen.tcp.flags, frame.seen.tcp.length
    return "SYN" if flags & SYN else "FIN" if flags & FIN and not length else f"Seq {left}:{right}"


def is_further(range_, frame, fate):
    """Whether a segment behind a range is told of with it: both are text, went once, and the same became of them."""
    left, right, frames = range_
    went_once = len({it.seen.tcp.seq_rel for it in frames}) == len(frames)
    is_text = name_of(left, right, frames[0]) != "SYN" and name_of(right, right, frame) != "FIN"
    return is_text and went_once and fate(frames[0]) == fate(frame)


def ranges_of(frames, fate):
    """Segments by what they have: triples of the numbers and the frames. Neighbours that went once, and of which the same became, are one."""
    found = []
    for frame in sorted(frames, key=lambda it: (it.seen.tcp.seq_rel, it.seen.tcp.end, it.number)):
        left, right, last = frame.seen.tcp.seq_rel, frame.seen.tcp.end, found[-1] if found else None
        if last and last[:2] == [left, right]:
            last[2].append(frame)
        elif last and last[1] == left and is_further(last, frame, fate):
            last[1] = right
            last[2].append(frame)
        else:
            found.append([left, right, [frame]])
    return found


def untaken(connection, peer_frames, when, is_sought):
    """Segments of the peer that hadn't arrived, among its last 64, of which `is_sought` is true."""
    before = peer_frames[: bisect.bisect_right(peer_frames, when.row, key=lambda frame: frame.row)][-64:]
    return [frame for frame in before if frame.seen.tcp and frame.seen.ends == (connection.remote, connection.local)
            and frame.seen.tcp.flags & ACK and is_sought(frame.seen.tcp) and not any(it.taken <= when.row for it in frame.taken)]


def why_unacknowledged(connection, peer_frames, when):
    """What isn't acknowledged and what became of it, and of the acknowledgements of it."""
    told = [f"{name_of(left, right, frames[0])} ({', '.join(map(' '.join, when.fates(frames, connection.sacked)))})"
            for left, right, frames in ranges_of(connection.unacknowledged, lambda frame: when.fate(frame, connection.sacked))]
    acks = untaken(connection, peer_frames, when, lambda segment: segment.ack_rel > connection.una)
    words = "no ACK yet of " + "; ".join(told)
    return words + (f"; {acks[0].host} sent it in {when.told(acks)}" if acks else "")


def why_unsent(connection, state, unsent):
    """Which bytes wait with those that aren't acknowledged, and whether the window or Nagle's rule keeps them."""
    in_flight, allowed = connection.nxt - connection.una, connection.allowed or 0
    if unsent <= 0 or in_flight <= 0:
        return ""
    if in_flight + min(unsent, connection.peer_mss) > allowed:
        return f"; {unsent} more unsent: the peer's window is {allowed}"
    is_short = unsent <= connection.peer_mss - OPTIONS and state in ("ESTABLISHED", "CLOSE-WAIT") and not connection.is_eager
    return f"; {unsent} more unsent" + (": less than a segment, which waits for that ACK (Nagle's rule)" if is_short else "")


def why_closed(connection, unsent, peer_frames, peer, when):
    """Why nothing goes into a window of 0."""
    words = f"the peer's window is 0, {max(unsent, 0)} unsent"
    updates = untaken(connection, peer_frames, when, lambda segment: segment.ack_rel + segment.window > max(connection.una, connection.nxt))
    if updates:
        return f"{words}; {updates[0].host} announced space in {when.told(updates)}"
    there = peer and peer.connections.get((connection.remote, connection.local))
    return words + (f"; {peer.why_no_space(there)}" if there and peer.why_no_space(there) else "")


def timers(connection, state, queued, peer_frames, peer, when):
    """Why a connection may want to be polled: triples of a moment, where it is known, a name and more words."""
    found = []
    if state == "TIME-WAIT" and connection.heard is not None:
        found.append((connection.heard + TIME_WAIT, "TIME-WAIT ends", ""))
    if connection.owed_since is not None and connection.in_order > connection.ack_sent:
        found.append((connection.owed_since + DELAYED_ACK, "delayed ACK", f"Ack={connection.in_order} is owed"))
    unsent = queued + 1 - connection.nxt
    if connection.allowed == 0 and (unsent > 0 or connection.nxt > connection.una):
        found.append((None, "zero-window probe", why_closed(connection, unsent, peer_frames, peer, when)))
    elif connection.nxt > connection.una and state not in ("TIME-WAIT", "CLOSED"):
        words = why_unacknowledged(connection, peer_frames, when) + why_unsent(connection, state, unsent)
        found.append((None, "retransmission timer", words))
    return found
