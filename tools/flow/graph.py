"""Sequence numbers over time, as tcptrace draws them: two pictures a connection, one for each direction."""
from dataclasses import dataclass

from frames import ACK, RST, SYN
from history import OTHER
from svg import element, escaped, line, text

WIDE, TALL, LEFT, FOOT, HEAD = 680, 230, 76, 26, 26
STEP, HALF = 12, 2**31
# A character of a label, how high it is, and the squares in which places are counted.
CHAR, HIGH, SQUARE = 7, 11, 4
# At most so many round numbers stand at an axis.
MOMENTS, NUMBERS = 8, 5


@dataclass
class Axes:
    """Where segments and numbers are. Across: each segment sent or taken a step further, and time in proportion in what is left. `moments` are
    pairs of a place and a moment, both rising."""

    across: dict
    moments: list
    base: int
    top: int

    def x(self, thing):
        return self.across[id(thing)]

    def y(self, sequence):
        at = (sequence - self.base) % 2**32
        at = 0 if at >= HALF else min(at, self.top)
        return TALL - FOOT - at * (TALL - FOOT - HEAD) // self.top


def connections(history):
    """The connections, as (A's end, B's end), in the order in which they appear."""
    found = {}
    for frame in sorted(history.all_frames(), key=lambda it: (it.row, it.host)):
        if frame.seen.tcp:
            found.setdefault(frame.seen.ends if frame.host == "A" else frame.seen.ends[::-1])
    return list(found)


def axes(history, sent, came):
    """The axes for segments sent by one side, and acknowledgements that came to it."""
    things = sorted([(it.taken, 0, k, it) for k, it in enumerate(came)] + [(it.row, 1, k, it) for k, it in enumerate(sent)], key=lambda it: it[:3])
    step = min(STEP, (WIDE - LEFT - 40) * 3 // 5 // len(things))
    moments = [history.moments[row] for row, _, _, _ in things]
    span = max(moments) - min(moments)
    left, across, places, x, now = WIDE - LEFT - 40 - step * len(things), {}, [], LEFT + 6, None
    for (_, _, _, thing), moment in zip(things, moments):
        moment = max(moment, now or 0)
        x += step + (left * (moment - now) // span if now is not None and span else 0)
        across[id(thing)], now = x, moment
        places.append((x, moment))
    first = sent[0].seen.tcp
    base = 0 if first.flags & SYN or first.seq_rel < 2**20 else first.seq_rel
    high = max([(it.seen.tcp.end - base) % 2**32 for it in sent if (it.seen.tcp.end - base) % 2**32 < HALF] + [1])
    edge = max([it.seen.tcp.ack_rel + it.seen.tcp.window - base for it in came if 0 <= it.seen.tcp.ack_rel - base < HALF] + [high])
    return Axes(across, places, base, min(edge, high * 3 // 2 + 1))


def graph(history, ends, host):
    """The picture of what one side sent."""
    there = ends if host == "A" else ends[::-1]
    sent = [frame for frame in history.frames[host] if frame.seen.tcp and frame.seen.ends == there and frame.parent is None]
    came = [it for it in history.handings if it.to == host and it.taken is not None and it.kind not in ("damage", "noise") and it.seen.tcp
            and it.seen.ends == there[::-1] and it.seen.tcp.flags & ACK]
    came.sort(key=lambda it: it.taken)
    if not sent:
        return ""
    at = axes(history, sent, came)
    title = f"{host} {there[0][1]} to {OTHER[host]} {there[1][1]}: sequence numbers over time"
    parts = [element("rect", x=0, y=0, width=WIDE, height=TALL, class_="paper"), text(8, 15, title, "call"), *scale(at)]
    labels = Labels()
    lines = list(steps(at, came, labels))
    for frame in sent:
        labels.keep_free([(at.x(frame), at.y(frame.seen.tcp.end)), (at.x(frame), at.y(frame.seen.tcp.seq_rel))])
    parts += [mark for frame in sorted(sent, key=importance) for mark in bars(at, frame, labels)] + lines
    return element("svg", "".join(parts), width=WIDE, height=TALL, viewBox=f"0 0 {WIDE} {TALL}", xmlns="http://www.w3.org/2000/svg",
                   style="display:inline-block")


def round_step(span, most):
    """The least of 1, 2 and 5 times a power of ten of which a span has at most so many."""
    ten = 1
    while span // (5 * ten) > most:
        ten *= 10
    return next(step for step in (ten, 2 * ten, 5 * ten) if span // step <= most)


def between(first, last, most):
    """The round numbers between two, at most so many."""
    step = round_step(last - first, most)
    return range(-(-first // step) * step, last + 1, step)


def moment_text(micros):
    """A round moment, without zeros behind it."""
    whole, part = divmod(micros, 1_000_000)
    return f"{whole}.{part:06}".rstrip("0").rstrip(".") + " s"


def place_of(moments, moment):
    """Where a moment is across: between those that have a place, in proportion."""
    k = next(k for k, (_, at) in enumerate(moments) if at >= moment)
    (x, at), (x0, before) = moments[k], moments[max(k - 1, 0)]
    return x if at == moment else x0 + (x - x0) * (moment - before) // (at - before)


def scale(at):
    """The axes, with round numbers at both."""
    yield line(LEFT, HEAD, LEFT, TALL - FOOT, "lane")
    yield line(LEFT, TALL - FOOT, WIDE - 10, TALL - FOOT, "lane")
    for number in between(at.base, at.base + at.top, NUMBERS):
        y = at.y(number)
        yield line(LEFT - 4, y, LEFT, y, "lane")
        yield text(LEFT - 8, y + 4, f"Seq {number}", "axis", "end")
    free = LEFT - 30
    for moment in between(at.moments[0][1], at.moments[-1][1], MOMENTS):
        x, words = place_of(at.moments, moment), moment_text(moment)
        half = len(words) * CHAR // 2
        if free <= x - half and x + half <= WIDE:
            yield line(x, HEAD, x, TALL - FOOT, "grid")
            yield text(x, TALL - 10, words, "axis", "middle")
            free = x + half + CHAR


class Labels:
    """Places of texts that don't meet one another, a bar or a line. What is taken are squares of so many pixels."""

    def __init__(self):
        self.taken = set()

    def squares(self, left, top, right, bottom):
        return [(x, y) for x in range(left // SQUARE, right // SQUARE + 1) for y in range(top // SQUARE, bottom // SQUARE + 1)]

    def keep_free(self, points):
        """Takes the squares of lines across and down."""
        for (x1, y1), (x2, y2) in zip(points, points[1:]):
            self.taken.update(self.squares(min(x1, x2), min(y1, y2), max(x1, x2), max(y1, y2)))

    def place(self, x, y, words):
        """A text beside a bar at x: right or left of it, as high or up to two lines off; nothing where there is no place."""
        width = len(words) * CHAR
        for left, base in ((left, y + HIGH * off) for off in (0, -1, 1, -2, 2) for left in (x + 4, x - 4 - width)):
            found = self.squares(left, base - HIGH + 2, left + width, base + 1)
            if LEFT < left and left + width <= WIDE and HEAD <= base <= TALL - FOOT and self.taken.isdisjoint(found):
                self.taken.update(found)
                return text(left, base, words, "axis")
        return ""


def importance(frame):
    """What is labelled first: resets and what was lost, then retransmissions."""
    return 0 if frame.seen.tcp.flags & RST or frame.is_lost else 1 if frame.repeats else 2


def bars(at, frame, labels):
    """A segment's numbers: red and dashed where it was lost, amber where it was a retransmission; a cross for a reset."""
    segment, x = frame.seen.tcp, at.x(frame)
    class_ = "bar" + (" again" if frame.repeats else "") + (" lost" if frame.is_lost else "")
    title = f"{frame.name} {frame.seen.text}: {frame.fate}" + (f", retransmission of {frame.repeats.name}" if frame.repeats else "")
    low, high, lost = at.y(segment.seq_rel), at.y(segment.end), " lost" if frame.is_lost else ""
    if segment.flags & RST:
        shape = f"M{x - 4} {low - 4}L{x + 4} {low + 4}M{x - 4} {low + 4}L{x + 4} {low - 4}"
        yield element("path", element("title", escaped(title)), d=shape, class_="reset")
        yield labels.place(x + 2, low + 4, f"{frame.name} RST{lost}")
    elif segment.end != segment.seq_rel:
        yield line(x, low, x, min(high, low - 4), class_, title)
        yield labels.place(x, min(high, low - 4) + 8, frame.name + lost)


def steps(at, came, labels):
    """The acknowledgements that came, what they allow, and what they say was received out of order."""
    acked, allowed, best, edge = [], [], None, None
    for handing in came:
        segment, x = handing.seen.tcp, at.x(handing)
        if (segment.ack_rel - at.base) % 2**32 >= HALF:
            continue
        for points, old in ((acked, best), (allowed, edge)):
            points += [(x, at.y(old))] if old is not None else []
        best = max(best or 0, segment.ack_rel)
        edge = max(edge or 0, segment.ack_rel + segment.window)
        acked.append((x, at.y(best)))
        allowed.append((x, at.y(edge)))
        for left, right in segment.sacks:
            labels.keep_free([(x + 3, at.y(right)), (x + 3, at.y(left))])
            yield line(x + 3, at.y(left), x + 3, at.y(right), "sack", f"SACK {left}:{right}")
    for points, last, class_ in ((acked, best, "acked"), (allowed, edge, "allowed")):
        if best is not None:
            points.append((WIDE - 10, at.y(last)))
            labels.keep_free(points)
            yield element("polyline", points=" ".join(f"{x},{y}" for x, y in points), class_=class_)


def graphs(history, only=None):
    """All of them, by connection."""
    return [graph(history, ends, host) for ends in connections(history) if only is None or only.is_of(ends) for host in "AB"]
