"""A row for each event: what stands beside each host's lane, and which frames leave there."""
from dataclasses import dataclass, field

from history import OTHER
from hosts import MOST_REQUESTS, Host, buffers_of
from play import CALLS, POLLS, bytes_text, number, seconds
from svg import cut
from tcp import listed

# A line beside a lane has so many characters at most.
BESIDE = 56
# What a poll's answer says; of a case of two sockets, an offer's. A poll that took or sent something may have changed a socket: of it that isn't said.
ANSWERS = {"changed": "a socket may have changed", "none": "no socket changed", "packet": "a segment", "silent": "nothing to send"}


@dataclass
class Row:
    """An event. `beside` has texts by host, each a class, the words, and more words or None; `middle` what the link does."""

    at: int
    step: object
    moment: int
    now: int
    beside: dict = field(default_factory=lambda: {"A": [], "B": []})
    middle: list = field(default_factory=list)
    sent: list = field(default_factory=list)
    taken: list = field(default_factory=list)
    opens_wait: dict = field(default_factory=dict)


def wrapped(words, lines=3):
    """A reason in at most so many lines of a lane."""
    found = []
    for word in words.split(" "):
        if found and len(found[-1]) + 1 + len(word) <= 54:
            found[-1] += f" {word}"
        else:
            found.append(word)
    return found[:lines - 1] + [cut(" ".join(found[lines - 1:]), 56)] if len(found) >= lines else found


def times(words):
    """Texts, each once, and how often where that is more than once."""
    found = {}
    for word in words:
        found[word] = found.get(word, 0) + 1
    return [word if count == 1 else f"{word} ({count} times)" for word, count in found.items()]


def takes(taken):
    """What a poll took: frames are named, damaged ones and noise behind them."""
    whole = listed(handing.frame.number for handing in taken if handing.frame and handing.kind != "damage")
    others = times(handing.kind if handing.frame is None else f"{handing.frame.name} damaged"
                   for handing in taken if handing.frame is None or handing.kind == "damage")
    return ", ".join([whole] * bool(whole) + others)


def poll_text(row, took):
    """A poll: what it took and sent, and what its answer says."""
    name, said = row.step.words[0], row.step.said
    name += f" at {seconds(row.moment)}" if row.moment != row.now else ""
    unsure = " or an earlier poll did" if any(handing.is_unsure for handing in row.taken) else ""
    done = [f"takes {took}{unsure}"] if took else []
    done += [f"sends {listed(frame.number for frame in row.sent)}"] if row.sent else []
    return f"{name} {', '.join(done)}".rstrip() + ("" if done and said == "changed" else f": {ANSWERS.get(said, said)}")


def data_text(word):
    """Bytes read: as text where they are printable, else in hex; 16 at most, and how many there are."""
    data = bytes.fromhex(word.replace("-", ""))
    head = data[:16]
    if head and all(32 <= byte < 127 for byte in head):
        shown = f'"{head.decode()}"'
    else:
        shown = head.hex()
    return f"{bytes_text(len(data))} {shown}" + ("…" if len(data) > 16 else "") if data else "0 bytes"


def call_text(words, said):
    """A call and its answer, in short."""
    rest = words[3:]
    if words[0] == "send" and rest:
        rest = [data_text(rest[0])]
    elif words[0] in ("sendto", "sendicmp") and len(rest) > 1:
        rest = [rest[0], data_text(rest[1])]
    elif words[0] in ("sendraw", "sendany") and rest:
        rest = [data_text(rest[0])]
    elif words[0] == "connect" and len(rest) > 1:
        rest = [rest[0], "from", rest[1]]
    if said.startswith(("data ", "bytes ")):
        said = data_text(said.split(" ")[1])
    elif said.startswith("from ") and said.count(" ") == 2:
        said = f"from {said.split(' ')[1]} {data_text(said.split(' ')[2])}"
    return " ".join([words[0], *rest]) + ("" if said in ("ok", "done") else f" → {said}")


class Rows:
    """The rows of a history, in order, and the hosts at the end."""

    def __init__(self, history):
        self.history = history
        buffers = buffers_of(history.run)
        self.hosts = {name: Host(name, buffers[name]) for name in "AB"}
        self.many = {name: len({key[1] for step in history.steps for key in step.states if key[0] == name}) > 1 for name in "AB"}
        self.by_row, self.taken_at, self.handed_at = {}, {}, {}
        for frame in history.all_frames():
            self.by_row.setdefault(frame.row, []).append(frame)
        for handing in history.handings:
            self.taken_at.setdefault(handing.taken, []).append(handing)
            self.handed_at.setdefault(handing.row, []).append(handing)
        self.now = 0
        self.rows = [self.row(at, step) for at, step in enumerate(history.steps)]

    def row(self, at, step):
        words, moment = step.words, self.history.moments[at]
        self.now = max(self.now, moment)
        row = Row(at, step, moment, self.now, sent=self.by_row.get(at, []), taken=self.taken_at.get(at, []))
        name = words[1] if len(words) > 1 and words[1] in OTHER else None
        host = self.hosts.get(name)
        for owner, wake in step.wakes.items():
            self.end_wait(owner, wake, self.history.clocks[at][owner], at)
        for handing in row.taken:
            self.hosts[handing.to].on_taken(handing, self.history.clocks[at][handing.to])
        if words[0] != "cut":
            for frame in row.sent:
                self.hosts[frame.host].on_sent(frame)
        if host is not None:
            host.on_call([*words[:2], "0", *words[2:]] if self.history.run.kind == "pair" else words, step.said)
            self.describe(row, name, words)
        self.link(row, words)
        for (owner, socket), state in step.states.items():
            self.state(row, owner, socket, state)
        self.numbers(row)
        for owner, wake in step.wakes.items():
            self.wake(row, owner, wake)
        return row

    def describe(self, row, name, words):
        """The words of a poll or a call beside its host's lane."""
        said, beside = row.step.said, row.beside[name]
        refused = said.startswith(("error", "refused"))
        if words[0] in POLLS or words[0] in ("offer", "ask", "settle", "rounds"):
            text = poll_text(row, takes(row.taken))
            beside.append(("poll", text, f"{row.step.line} → {said}" + ("" if len(text) <= BESIDE else f": {text}")))
            beside += [("refused", f"{MOST_REQUESTS} requests, no answer: gives up on {address}", f"gives up on {address}, and drops what waited for it")
                       for address in self.hosts[name].newly_given_up(row.moment)]
            room = self.history.room[name]
            if room == 0 and words[0] == "poll":
                beside.append(("refused", "its device has no room", None))
        elif words[0] in CALLS or refused and words[0] not in ("deliver", "damage", "cut", "noise", "state", "pollat"):
            text = call_text([*words[:2], "0", *words[2:]] if self.history.run.kind == "pair" else words, said)
            socket = f"socket {words[2]}: " if self.many[name] and words[2:] and number(words[2]) is not None else ""
            beside.append(("refused" if refused else "call", socket + text, row.step.line))
        elif words[0] == "state":
            beside.append(("call", f"state → {said.removeprefix('state ')}", row.step.line))
        elif words[0] in ("room", "clock", "refuse", "any_ip", "ask", "get"):
            beside.append(("dim", f"{' '.join([words[0], *words[2:]])} → {said}", row.step.line))

    def link(self, row, words):
        """What the link does at a line: nothing is said of a plain delivery in order."""
        for handing in self.handed_at.get(row.at, []):
            name = handing.frame.name if handing.frame else f"{handing.kind}, {bytes_text(len(handing.data))}: {handing.seen.text}"
            notes = [word for word, told in (("again", handing.is_again), ("late", handing.is_late)) if told]
            notes += [handing.note] if handing.note else []
            if handing.frame is None or notes:
                row.middle.append((handing, f"{name} {', '.join(notes)}".rstrip()))
        if words[0] == "cut" and row.sent:
            row.middle.append((row.sent[0].parent, f"{row.sent[0].parent.name} fragmented"))

    def state(self, row, owner, socket, state):
        host = self.hosts[owner]
        before = host.states.get(socket)
        host.states[socket] = state
        if before != state and not (before is None and state == "CLOSED"):
            label = f"socket {socket}: " if self.many[owner] else ""
            row.beside[owner].append(("state", label + (f"{before} → {state}" if before else state), None))

    def numbers(self, row):
        """Each connection's numbers, where they changed."""
        for name in {frame.host for frame in row.sent} | {handing.to for handing in row.taken}:
            host = self.hosts[name]
            for ends, connection in host.connections.items():
                words = connection.numbers(host.queued_of(connection))
                if host.shown.get(ends) != words:
                    host.shown[ends] = words
                    label = f"{ends[0][1]}: " if len(host.connections) > 1 else ""
                    row.beside[name].append(("dim", label + words, None))

    def at_end(self, name):
        """Why a host waits when the script has ended, in words."""
        host = self.hosts[name]
        if host.wake is None or not self.rows:
            return "waits for a frame or a call"
        now = self.history.moments_of[name]
        reason, more = self.reason(name, host.wake, now, len(self.rows))
        when = "now" if host.wake <= now else f"at {seconds(host.wake)}"
        return f"wants a poll {when}: {reason}" + (f": {more}" if more else "")

    def reason(self, owner, wake, now, row):
        """Why a host wants to be polled then."""
        other = OTHER[owner]
        return self.hosts[owner].reason(wake, now, self.history.frames[other], self.hosts[other] if self.history.run.kind != "one" else None, row)

    def end_wait(self, owner, wake, moment, row):
        """Keeps the longest wait of a host, where it ends, and why it was, by what was known just before."""
        host = self.hosts[owner]
        if host.ends_longest(wake, moment):
            began, until, told = host.waiting
            name, more = self.reason(owner, until, told, row - 1)
            host.longest = began, moment, f"{name}: {more}" if more else name

    def wake(self, row, owner, wake):
        """When the host wants to be polled, where that changed or the script asked, and why."""
        host, asked, now = self.hosts[owner], row.step.words[0] == "pollat", self.history.clocks[row.at][owner]
        host.wake = wake
        name, more = (None, None) if wake is None else self.reason(owner, wake, now, row.at)
        host.on_wake(wake, now)
        changed, host.told = host.told != (wake, name), (wake, name)
        still = "" if changed else "still "
        if wake is None:
            if changed or asked:
                row.beside[owner].append(("dim", f"{still}waits for a frame or a call", None))
            row.opens_wait[owner] = None
        elif wake <= now and not asked:
            row.opens_wait[owner] = None
        elif changed or asked:
            when = "now" if wake <= now else f"at {seconds(wake)}"
            row.beside[owner].append(("timer", f"{still}wants a poll {when}: {name}", f"{name}: {more}" if more else name))
            if more and changed and wake > now:
                row.beside[owner] += [("why", words, more) for words in wrapped(more)]
            row.opens_wait[owner] = wake
