"""What each host is doing: its sockets' states, its connections' numbers, and why it waits.

The states and the moments of waits are the simulator's own answers. The reason of a wait is concluded from frames: it is the reason whose
moment is the one answered, or else the one that the frames leave.
"""
import re

from play import bytes_text, number
from tcp import NEIGHBOR, Connection, When, timers

# A neighbor that doesn't answer so many requests is given up, and what is for it is dropped.
MOST_REQUESTS = 3


def address_of(endpoint):
    """The address of an endpoint in a script, as frames name it."""
    words = endpoint.rpartition(":")[0]
    return ".".join(str(int(part)) for part in words.split(".")) if re.fullmatch(r"\d+(\.\d+){3}", words, re.ASCII) else words.strip("[]")


def buffers_of(run):
    """The receive buffers of the TCP sockets, by host and socket."""
    found, count = {"A": {}, "B": {}}, {"A": 0, "B": 0}
    for words in (line.split(" ") for line in run.header):
        if run.kind == "pair" and words[0] == "sockets" and len(words) == 7:
            found["A"][0], found["B"][0] = number(words[2]), number(words[5])
        elif words[0] == "socket" and len(words) > 3 and words[1] in count:
            if words[2] == "tcp":
                found[words[1]][count[words[1]]] = number(words[3])
            count[words[1]] += 1
    return found


class Host:
    """A host as the run goes on. `buffers` has the receive buffers of its TCP sockets."""

    def __init__(self, name, buffers):
        self.name, self.buffers = name, buffers
        self.connections = {}
        self.states = {}
        self.local, self.remote, self.queued, self.read, self.finished = {}, {}, {}, {}, set()
        self.readers, self.aborted, self.eager = set(), set(), set()
        self.asked, self.requests, self.datagrams, self.router, self.silent, self.fragments = {}, {}, [], None, {}, {}
        self.wake, self.told = None, (None, None)
        self.waiting, self.longest = None, None
        self.shown = {}

    def connection(self, local, remote):
        return self.connections.setdefault((local, remote), Connection(local, remote))

    def on_sent(self, frame):
        seen = frame.seen
        if seen.tcp:
            if seen.tcp.flags & 2 and not seen.tcp.flags & 16 and frame.repeats is None:
                self.connections.pop(seen.ends, None)
            self.connection(*seen.ends).on_sent(frame)
        elif seen.ends and seen.ends[1][0] in self.datagrams:
            self.datagrams.remove(seen.ends[1][0])
        if seen.resolves and seen.resolves[0] == "asks":
            self.asked[seen.resolves[1]] = frame.moment
            self.requests[seen.resolves[1]] = self.requests.get(seen.resolves[1], 0) % MOST_REQUESTS + 1

    def on_taken(self, handing, moment):
        seen = handing.seen
        if handing.kind == "damage" or handing.is_unsure:
            return
        if seen.tcp and handing.kind != "noise":
            self.connection(*seen.ends[::-1]).on_taken(handing, moment)
        if seen.resolves and seen.resolves[0] == "answers":
            self.asked.pop(seen.resolves[1], None)
            self.requests.pop(seen.resolves[1], None)
        if seen.fragment:
            self.fragments.setdefault(seen.fragment[0], moment)

    def on_call(self, words, said):
        """Keeps ports, bytes accepted and bytes read of a call."""
        socket = number(words[2]) if len(words) > 2 else None
        if words[0] == "recv":
            self.readers.add(socket)
        if words[0] == "abort" and said in ("ok", "done"):
            self.aborted.add(socket)
        if words[0] == "set" and words[3:] in (["nagle", "off"], ["nagle_enabled", "off"]):
            self.eager.add(socket)
        if words[0] == "connect" and said in ("ok", "done"):
            self.local[socket], self.remote[socket] = number(words[4]), address_of(words[3])
        elif words[0] == "sendto" and said == "ok":
            self.datagrams.append(address_of(words[3]))
        elif words[0] == "route" and said == "ok":
            self.router = words[2]
        elif words[0] in ("listen", "bind") and said in ("ok", "done"):
            self.local[socket] = number(words[3].rpartition(":")[2])
        elif words[0] in ("send", "fill") and said.startswith(("ok ", "count ")):
            self.queued[socket] = self.queued.get(socket, 0) + int(said.split(" ")[1])
        elif words[0] == "recv" and said.startswith(("data ", "bytes ")):
            self.read[socket] = self.read.get(socket, 0) + len(said.split(" ")[1].replace("-", "")) // 2
        elif words[0] == "recv" and said == "error Finished":
            self.finished.add(socket)

    def socket_of(self, port):
        return next((socket for socket, local in self.local.items() if local == port), None)

    def queued_of(self, connection):
        return self.queued.get(self.socket_of(connection.local[1]), 0)

    def state_of(self, port):
        """The state of the one socket at a local port, or None."""
        found = [self.states.get(socket) for socket, local in self.local.items() if local == port]
        return found[0] if len(found) == 1 else None

    def unread(self, connection):
        """How many bytes wait in the socket to be read."""
        return max(connection.accepted() - self.read.get(self.socket_of(connection.local[1]), 0), 0)

    def space(self, connection):
        """Of its receive buffer the size, how much is free, and from how much on more is announced; or None."""
        size = self.buffers.get(self.socket_of(connection.local[1]))
        return None if size is None else (size, size - self.unread(connection), min((size + 1) // 2, connection.own_mss))

    def why_no_space(self, connection):
        """Why it announces no space: what is free of its buffer, and from where on that is announced."""
        size, free, least = self.space(connection) or (0, 0, 0)
        if free == size or free >= least > 0:
            return ""
        if free <= 0:
            return f"{self.name}'s socket is full, with {bytes_text(size - free)} to be read"
        return f"{free} of {size} bytes are free in {self.name}'s socket, which announces space from {least} on, or when all is read"

    def given_up(self, now):
        """The neighbors that didn't answer, and aren't asked any more."""
        return [address for address, count in self.requests.items() if count == MOST_REQUESTS and now >= self.asked[address] + NEIGHBOR]

    def newly_given_up(self, now):
        """Those that are told of for the first time since they were asked."""
        found = [address for address in self.given_up(now) if self.silent.get(address, (None,))[0] != self.asked[address]]
        self.silent.update((address, (self.asked[address], [*self.silent.get(address, (0, []))[1], now])) for address in found)
        self.datagrams = [address for address in self.datagrams if address not in found]
        return found

    def resolving(self, now):
        """Which neighbors the host may wait for: each asked one, or where nothing is for that one, one that it may ask next."""
        silent = self.given_up(now)
        waiting = [address for address in self.datagrams if address not in silent]
        for address, at in self.asked.items():
            is_next = waiting and address not in [*waiting, *self.remote.values(), self.router]
            yield (at + NEIGHBOR, f"resolves {waiting[0]}", f"requests go a second apart, and {address} was asked last") if is_next else (
                at + NEIGHBOR, f"resolves {address}", "no answer yet")

    def unsent(self, now):
        """Of a SYN that never was on the link, when it goes again: as with `timers`."""
        ports, silent = {local[1] for local, _ in self.connections}, self.given_up(now)
        for socket, remote in self.remote.items():
            hop = remote if remote in silent else self.router
            if self.states.get(socket) == "SYN-SENT" and self.local[socket] not in ports and hop in silent:
                yield None, "retransmission timer", f"the SYN was dropped, as {hop} did not answer {MOST_REQUESTS} requests"

    def ends_longest(self, wake, now):
        """Whether what it is told now ends a wait, the longest so far."""
        if not self.waiting or self.waiting[1] == wake:
            return False
        return now - self.waiting[0] > (self.longest[1] - self.longest[0] if self.longest else 0)

    def on_wake(self, wake, now):
        """Keeps the wait for a moment: where it began, the moment, and where it was last told of."""
        if self.waiting and self.waiting[1] != wake:
            self.waiting = None
        if wake is not None and wake > now:
            self.waiting = (self.waiting[0] if self.waiting else now), wake, now

    def to_send(self):
        """What it has to send at once, as far as calls and frames say."""
        found = []
        for connection in self.connections.values():
            unsent, in_flight = self.queued_of(connection) + 1 - connection.nxt, connection.nxt - connection.una
            may_go = in_flight == 0 or unsent >= connection.peer_mss
            found += [bytes_text(unsent)] if unsent > 0 and may_go and (connection.allowed or 0) > in_flight else []
            found += [f"Ack={connection.in_order}"] if connection.in_order > connection.ack_sent else []
            _, free, least = self.space(connection) or (0, 0, 1)
            found += [f"a window update to {free}"] if connection.edge and connection.in_order + free >= connection.edge + least else []
        return ", ".join(found + [f"a datagram to {address}" for address in self.datagrams])

    def reason(self, wake, now, peer_frames, peer, row):
        """Why the host wants to be polled then, as a name and more words. `peer` is the other host, and None where there is none."""
        found = [*self.resolving(now), *self.unsent(now)]
        for connection in self.connections.values():
            socket = self.socket_of(connection.local[1])
            connection.is_eager = socket in self.eager
            found += timers(connection, self.states.get(socket), self.queued_of(connection), peer_frames, peer, When(row, now))
        exact = [it for it in found if it[0] == wake]
        if exact:
            return exact[0][1:]
        if wake <= now:
            return "it has something to send", self.to_send()
        open_ = [it for it in found if it[0] is None]
        return open_[0][1:] if open_ else ("a timer", "that no frame tells of")
