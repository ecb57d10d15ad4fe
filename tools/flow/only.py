"""Keeps of a run one connection, by a host and its local port."""
from dataclasses import dataclass, replace

from history import OTHER
from play import CALLS, number


@dataclass
class Only:
    host: str
    port: int

    def is_of(self, ends):
        """Whether ends, as (A's, B's), are of this connection."""
        return ends[self.host == "B"][1] == self.port

    def sees(self, host, seen):
        """Whether what a host sent is of this connection."""
        return bool(seen and seen.ends) and self.is_of(seen.ends if host == "A" else seen.ends[::-1])

    def frame(self, frame):
        return self.sees(frame.host, frame.seen) or frame.parent is not None and self.frame(frame.parent)

    def handing(self, handing):
        return self.frame(handing.frame) if handing.frame else self.sees(OTHER[handing.to], handing.seen)

    def rows(self, rows):
        """The rows that are left: those in which such a frame was sent or taken, and calls of its sockets."""
        ports = {self.host: {self.port}, OTHER[self.host]: set()}
        for frame in rows.history.all_frames():
            if frame.seen.ends and self.frame(frame):
                ports[OTHER[self.host]].add(frame.seen.ends[frame.host == self.host][1])
        handed = {handing.row for handing in rows.history.handings if self.handing(handing)}
        kept = []
        for row in rows.rows:
            sent = [frame for frame in row.sent if self.frame(frame)]
            taken = [handing for handing in row.taken if self.handing(handing)]
            middle = [pair for pair in row.middle if (self.handing if hasattr(pair[0], "to") else self.frame)(pair[0])]
            if sent or taken or row.at in handed or self.call(row.step.words, rows, ports):
                kept.append(replace(row, sent=sent, taken=taken, middle=middle))
        return kept

    def call(self, words, rows, ports):
        """Whether a line is a call of a socket of this connection."""
        if words[0] not in (*CALLS, "state") or len(words) < 3 or words[1] not in OTHER:
            return False
        if rows.history.run.kind == "pair":
            return True
        return rows.hosts[words[1]].local.get(number(words[2])) in ports[words[1]]
