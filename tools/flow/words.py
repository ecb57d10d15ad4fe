"""The same rows as lines of text, and the counts."""
from frames import FIN, RST
from history import OTHER
from hosts import MOST_REQUESTS
from play import seconds
from rows import times
from tcp import listed

SIDE, MIDDLE = 46, 74
# What a refusal of the simulation means.
REFUSALS = {
    "NoSocket": "the host has no such socket",
    "WrongKind": "the socket's kind has no such call",
    "NoFrame": "the host has not sent that frame",
    "NotTcp": "the frame is no whole TCP segment",
    "Place": "the place is odd, or outside of the segment",
    "SameSum": "the checksum could not tell the new bytes from the old ones",
    "NamesTcpOrUdp": "noise can't say that it carries TCP or UDP",
    "OpenedTwice": "the socket was opened before",
    "PortTaken": "another socket of the host has this port",
    "Moment": "time doesn't go back",
    "NotIpv4": "the frame is no IPv4 packet",
    "CutPlace": "the place is no multiple of 8 inside of the packet",
}
# So many frames are told of each with its text, more by their numbers alone.
FEW = 8
# A wait of so many microseconds is told of.
WORTH_TELLING = 200_000


def fate(frame):
    """What is said at the head of a frame's arrow."""
    words = [f"retransmission of {frame.repeats.name}"] if frame.repeats else []
    words += {"lost": ["LOST"], "fragmented": ["fragmented"]}.get(frame.fate, ["waits"] if frame.fate.startswith("waits") else [])
    return f" ({', '.join(words)})" if words else ""


def arrow(frame):
    text = f"{frame.name} {frame.seen.text}{fate(frame)}"
    dash = "x" if frame.is_lost else ">"
    if frame.host == "A":
        return f"{text} --{dash}".ljust(MIDDLE)
    return f"{'<' if dash == '>' else dash}-- {text}".rjust(MIDDLE)


def lines(rows):
    """The lines: the moment, what host A does, the link, what host B does."""
    now = None
    for row in rows:
        middle = [words.center(MIDDLE) for _, words in row.middle] + [arrow(frame) for frame in row.sent]
        left = [words for _, words, _ in row.beside["A"]]
        right = [words for _, words, _ in row.beside["B"]]
        if not (middle or left or right):
            continue
        for k in range(max(len(left), len(middle), len(right))):
            time = seconds(row.now) if row.now != now else ""
            now = row.now
            cells = [column[k] if k < len(column) else "" for column in (left, middle, right)]
            yield f"{time:>14}  {cells[0]:>{SIDE}} | {cells[1]:{MIDDLE}} | {cells[2]}".rstrip()


def totals(history, only=None):
    """How many frames were sent, and what became of them."""
    frames = [frame for frame in history.all_frames() if only is None or only.frame(frame)]
    handings = [it for it in history.handings if only is None or only.handing(it)]
    return {
        "sent": len([frame for frame in frames if frame.parent is None]),
        "fragments": len([frame for frame in frames if frame.parent]),
        "taken": sum(it.taken is not None for it in handings if it.frame),
        "lost": sum(frame.is_lost for frame in frames),
        "waiting": sum(it.taken is None for it in handings),
        "delivered again": sum(it.is_again for it in handings),
        "late": sum(it.is_late for it in handings),
        "damaged": sum(it.kind == "damage" for it in handings),
        "retransmissions": sum(frame.repeats is not None for frame in frames),
        "noise": sum(it.kind == "noise" for it in handings),
    }


def counts(history, only=None):
    found = totals(history, only)
    first = [f"{found['sent']} frames sent", f"{found['taken']} taken", f"{found['lost']} lost"]
    return ", ".join(first + [f"{found[name]} {name}" for name in list(found)[1:] if name not in ("taken", "lost") and found[name]])


def ends_of(history, only):
    """The connections that are told of."""
    from graph import connections

    return [ends for ends in connections(history) if only is None or only.is_of(ends)]


def streams(history, rows, only=None):
    """Of each direction of a connection, how much of what was written was read, and what waits to be."""
    for ends in ends_of(history, only):
        for writer, reader, k in (("A", "B", 0), ("B", "A", 1)):
            from_, to = (rows.hosts[name] for name in (writer, reader))
            sender, receiver = from_.socket_of(ends[k][1]), to.socket_of(ends[1 - k][1])
            if history.run.kind == "one" and reader == "A":
                continue
            written, read = from_.queued.get(sender, 0), to.read.get(receiver, 0)
            there = to.connections.get((ends[1 - k], ends[k]))
            unread = min(to.unread(there), max(written - read, 0)) if there else 0
            ended = ", end read" if receiver in to.finished else ""
            is_closed = to.state_of(ends[1 - k][1]) == "CLOSED"
            waits = f", {unread} more arrived" if unread and is_closed else f", {unread} wait in {reader}'s socket" if unread else ""
            nobody = ": nobody called recv" if unread and receiver not in to.readers else ""
            known = f"{read} of {written} bytes read{ended}{waits}{nobody}" if history.run.kind != "one" else f"{written} bytes written"
            yield f"{writer} {ends[k][1]} to {reader if history.run.kind != 'one' else 'the link'} {ends[1 - k][1]}: {known}"


def reset_text(history, rows, frame):
    """Who reset a connection, when and why, as far as calls and frames say."""
    socket = rows.hosts[frame.host].socket_of(frame.seen.ends[0][1])
    answered = listed(it.frame.number for it in history.taken_by(frame.row) if it.frame and it.frame.seen.ends == frame.seen.ends[::-1])
    why = ", after its abort" if socket in rows.hosts[frame.host].aborted else f", in answer to {OTHER[frame.host]} {answered}" if answered else ""
    return f"{frame.host} reset it in {frame.name} at {seconds(frame.moment)}{why} ({frame.fate})"


def endings(history, rows, only=None):
    """How each connection stands at the end: both sides' states, who reset it, and in which frame each side's stream ended."""
    for ends in ends_of(history, only):
        sent = [frame for k, host in enumerate("AB") for frame in history.frames[host]
                if frame.parent is None and frame.seen.tcp and frame.seen.ends == (ends[k], ends[1 - k])]
        states = [f"{host} {state}" for k, host in enumerate("AB") if (state := rows.hosts[host].state_of(ends[k][1]))]
        resets = [reset_text(history, rows, frame) for frame in sent if frame.seen.tcp.flags & RST]
        resets += [f"the link reset it at {seconds(history.moments[it.row])}" for it in history.handings
                   if it.kind == "frame" and it.seen.tcp and it.seen.tcp.flags & RST and it.seen.ends == ends[::-1]]
        fins = [f"{host} sent its FIN in {first.name} ({first.fate})" for host in "AB"
                if (first := next((frame for frame in sent if frame.host == host and frame.seen.tcp.flags & FIN), None))]
        said = "; ".join([", ".join(states)] * bool(states) + resets + fins)
        if said:
            yield f"A {ends[0][1]} to {'B' if history.run.kind != 'one' else 'the link'} {ends[1][1]}: {said}"


def by_host(frames):
    """Frames by their numbers alone, whole."""
    return "; ".join(f"{host} {listed(numbers)}" for host in "AB" if (numbers := [frame.number for frame in frames if frame.host == host]))


def told(frames, text):
    """Frames with a text where they are few, else by their numbers."""
    return "; ".join(map(text, frames)) if len(frames) <= FEW else by_host(frames)


def on_link(history, only):
    """What the link lost, repeated, damaged and made up: pairs of a name and words."""
    frames = [frame for frame in history.all_frames() if only is None or only.frame(frame)]
    handings = [it for it in history.handings if only is None or only.handing(it)]
    again = times(f"{it.frame.host} {it.frame.name} {'late' if it.is_late else 'again'}" for it in handings if it.is_again or it.is_late)
    damaged = times(f"{it.frame.host} {it.frame.name} {it.note.removeprefix('damaged, ')}" for it in handings if it.kind == "damage")
    noise = times(f"to {it.to}: {it.seen.text}" for it in handings if it.kind == "noise")
    yield "Lost", told([frame for frame in frames if frame.is_lost], lambda frame: f"{frame.host} {frame.name} {frame.seen.text}")
    yield "Retransmissions", told([frame for frame in frames if frame.repeats],
                                  lambda frame: f"{frame.host} {frame.name} of {frame.repeats.name}, {frame.fate}")
    yield from (("Delivered again or late", "; ".join(again)), ("Damaged", "; ".join(damaged)), ("Noise", "; ".join(noise)))


def remarks(history, rows, only=None):
    """What a reader looks for first: pairs of a name and words."""
    yield from ((title, words) for title, words in on_link(history, only) if words)
    for name, host in rows.hosts.items():
        if host.silent:
            silent = ", ".join(f"{address} at {' and '.join(map(seconds, at))}" for address, (_, at) in host.silent.items())
            many = len(host.silent) > 1
            yield ("Neighbors that never answered" if many else "A neighbor that never answered",
                   f"{name} gave up on {silent}, after {MOST_REQUESTS} requests{' each' * many}, all a second apart, and dropped what waited for {'them' if many else 'it'}")
    for name, host in rows.hosts.items():
        began, ended, why = host.longest or (0, 0, "")
        told = f"{seconds(began)} to {seconds(ended)}: {why}" if ended - began >= WORTH_TELLING else f"none of {seconds(WORTH_TELLING)} or more"
        yield f"Longest wait of {name}", told
    yield from (("At the end", words) for words in endings(history, rows, only))
    for host in "A" if history.run.kind == "one" else "AB":
        yield f"At the end {host}", rows.at_end(host)
    yield from (("Stream", words) for words in streams(history, rows, only))


def ending(run):
    """How a script ended that ended early, and what its refusal means."""
    why = REFUSALS.get(run.ended.rpartition(": refused ")[2])
    return f"The script ended early: {run.ended}" + (f" ({why})" if why else "")


def errors(history):
    """Lines that were refused, with the name."""
    found = [(step.number, step.line, step.said) for step in history.steps if step.said.startswith(("error", "refused"))]
    return found[:200]
