"""What became of each frame: which lines handed it over, and which poll took it.

A host takes waiting frames in order, at most as many as the poll's budget, and none while its device has no room. Only where a device's room
runs out within a poll do script and answers not say how many it took: such a frame is `unsure` until a later poll has emptied the queue.
"""
from dataclasses import dataclass, field

from frames import SYN, Decoder, Seen, packet_of
from play import number, seconds

OTHER = {"A": "B", "B": "A"}


@dataclass
class Frame:
    """A frame that a host sent, or a fragment that the link made of one (`parent`)."""

    host: str
    number: int
    data: bytes
    row: int
    moment: int
    seen: Seen
    parent: object = None
    cut_at: int = None
    handings: list = field(default_factory=list)
    repeats: object = None
    on_link: bool = False

    @property
    def name(self):
        return f"#{self.number}"

    @property
    def is_lost(self):
        return not self.handings and self.cut_at is None and not self.on_link

    @property
    def taken(self):
        return [handing for handing in self.handings if handing.taken is not None]

    @property
    def fate(self):
        """What became of it, in words."""
        if self.is_lost:
            return "lost"
        if self.cut_at is not None and not self.handings:
            return "fragmented"
        if self.on_link:
            return "on the link"
        return "received" if self.taken else f"waits at {OTHER[self.host]}'s device"

    def fate_at(self, row, moment):
        """What had become of it when this row was over; of one under way then, when it is received."""
        first = min(self.taken, key=lambda handing: handing.taken, default=None)
        if first is None or first.taken <= row:
            return self.fate
        return "under way" + (f" until {seconds(first.moment)}" if first.moment > moment else "")


@dataclass
class Handing:
    """Bytes that the link hands to a host: a frame's (`deliver`, `damage`), or bytes from nowhere (`noise`, `frame`)."""

    kind: str
    to: str
    row: int
    data: bytes
    frame: Frame = None
    seen: Seen = None
    note: str = ""
    is_again: bool = False
    is_late: bool = False
    taken: int = None
    moment: int = None
    maybe: int = None

    @property
    def is_unsure(self):
        return self.maybe is not None


def bytes_of(word):
    text, _, count = word.partition("*")
    return bytes.fromhex(text.replace("-", "")) * (number(count) if count else 1)


class History:
    """The frames and handings of a run, by the rows of its steps. Of each row `moments` has its moment, `clocks` those of both hosts."""

    def __init__(self, run):
        self.run, self.steps = run, run.steps
        self.decoder = Decoder(run.medium)
        self.frames = {"A": [], "B": []}
        self.handings = []
        self.waiting = {"A": [], "B": []}
        self.room = {"A": None, "B": None}
        self.latest = {"A": -1, "B": -1}
        self.moments, self.clocks, now = [], [], {"A": 0, "B": 0}
        self.tops = {}
        for row, step in enumerate(run.steps):
            words = step.words
            if words[0] in ("poll", "pollat", "egress", "ingress", "maintain", "delay", "announce", "offer", "clock", "ask") and words[2:]:
                now[words[1]] = number(words[2]) or 0
            self.moments.append(now.get(words[1] if words[1:] else "", max(now.values())))
            self.clocks.append(dict(now))
            self.take_step(row, step, words)
        self.moments_of = now

    def take_step(self, row, step, words):
        room = self.room.get(words[1]) if words[1:] else None
        for host, count, data in step.sent:
            self.send(row, host, count, data, words)
        if words[0] == "room" and step.said == "ok":
            self.room[words[1]] = number(words[2])
        elif words[0] in ("deliver", "damage", "burst") and step.said in ("ok", "done"):
            self.hand_frame(row, words)
        elif words[0] in ("noise", "frame") and step.said == "ok":
            self.hand(Handing(words[0], words[1], row, bytes_of(words[2])))
        elif words[0] == "poll" and words[1] in OTHER:
            self.poll(row, words[1], number(words[3]), room)
        elif words[0] == "ingress":
            self.poll(row, words[1], 1, room)

    def send(self, row, host, count, data, words):
        parent = None
        if words[0] == "cut":
            parent = self.frames[words[1]][number(words[2])]
            parent.cut_at = row if parent.cut_at is None else parent.cut_at
        elif self.room[host] is not None:
            self.room[host] = max(0, self.room[host] - 1)
        frame = Frame(host, count, data, row, self.moments[row], self.decoder.see(data, host), parent)
        frame.on_link = self.run.kind == "one"
        self.mark_repeat(frame)
        self.quote(frame)
        self.frames[host].append(frame)

    def mark_repeat(self, frame):
        """Marks a segment whose numbers were sent before by this host."""
        segment = frame.seen.tcp
        if segment is None or segment.end == segment.seq_rel:
            return
        key = frame.host, frame.seen.ends
        top = self.tops.get(key, 0)
        self.tops[key] = segment.end if segment.flags & SYN else max(top, segment.end)
        if segment.seq_rel >= top:
            return
        for old in reversed(self.frames[frame.host]):
            before = old.seen.tcp
            if before and old.seen.ends == frame.seen.ends and before.seq_rel < segment.end and segment.seq_rel < before.end:
                frame.repeats = old
                return

    def quote(self, frame):
        """Says which frame an error is about, by its number where the other host sent it."""
        quoted = frame.seen.quoted
        if not quoted or len(quoted) < 28:
            return
        for old in reversed(self.frames[OTHER[frame.host]]):
            packet = packet_of(old.data, self.run.medium)
            if packet and packet[0] == quoted[0] and packet[12:28] == quoted[12:28] and packet[4:6] == quoted[4:6]:
                frame.seen.text += f", for {old.host} {old.name}"
                return

    def hand_frame(self, row, words):
        host, frame = words[1], self.frames[words[1]][number(words[2])]
        data, notes = frame.data, []
        if words[0] == "damage":
            at = number(words[3])
            notes.append(f"damaged, TCP bytes {at}-{at + 1}: {words[4].lower()}")
        padding = bytes_of(words[-1]) if self.run.kind != "pair" else b""
        if padding:
            notes.append(f"+ {len(padding)} bytes of padding")
        handing = Handing(words[0], OTHER[host], row, data + padding, frame, frame.seen, ", ".join(notes), is_again=bool(frame.handings))
        handing.is_late = not handing.is_again and frame.number < self.latest[host] and frame.parent is None
        self.latest[host] = max(self.latest[host], frame.number)
        frame.handings.append(handing)
        self.hand(handing)
        if self.run.kind == "pair":
            handing.taken, handing.moment = row, self.clocks[row][handing.to]
            self.waiting[handing.to].clear()

    def hand(self, handing):
        if handing.seen is None:
            handing.seen = self.decoder.see(handing.data, OTHER[handing.to], handing.kind == "frame")
        self.handings.append(handing)
        self.waiting[handing.to].append(handing)

    def poll(self, row, host, budget, room):
        """The frames that a poll takes; of those that it may have taken, that it may."""
        waiting = self.waiting[host]
        unsure = sum(handing.is_unsure for handing in waiting)
        sure, most = min(budget, len(waiting)), min(budget + unsure, len(waiting))
        if room == 0:
            return
        if room is not None and self.room[host] == 0:
            sure = 0
        for handing in waiting[:sure]:
            handing.taken, handing.moment = row, self.moments[row]
        for handing in waiting[sure:most]:
            handing.maybe = row if handing.maybe is None else handing.maybe
        del waiting[:sure]

    def all_frames(self):
        return [frame for host in "AB" for frame in self.frames[host]]

    def taken_by(self, row):
        return [handing for handing in self.handings if handing.taken == row]
