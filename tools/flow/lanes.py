"""The picture of two lanes: events downwards, frames as arrows from the poll that sent them to the poll that took them."""
import math

from play import seconds
from rows import BESIDE, wrapped
from svg import cut, element, escaped, line, text

LANE = {"A": 400, "B": 1000}
MIDDLE, WIDTH, TALL = 700, 1400, 16
PART = 4_000


class Picture:
    """What is drawn, each thing with the heights between which it lies: lines first, then texts."""

    def __init__(self):
        self.things = {"under": [], "over": []}

    def add(self, top, bottom, xml, layer="under"):
        if xml:
            self.things[layer].append((top, bottom, xml))

    def words(self, x, y, words, class_, anchor="start", title=None):
        self.add(y - TALL, y + 4, text(x, y, words, class_, anchor, title), "over")

    def between(self, top, bottom):
        """What is seen between two heights."""
        return "".join(xml for layer in ("under", "over") for y0, y1, xml in self.things[layer] if y1 >= top and y0 <= bottom)


class Lanes:
    """The layout of the rows that are drawn."""

    def __init__(self, rows, history, all_rows):
        self.rows, self.history, self.picture = rows, history, Picture()
        self.ends = {name: wrapped(f"end: {all_rows.at_end(name)}", 6) for name in "AB" if history.run.kind != "one" or name == "A"}
        self.top, self.line_of, self.marks = {}, {}, []
        self.order, many = {}, {}
        for handing in history.handings:
            self.order[id(handing)] = many[handing.taken] = many.get(handing.taken, -1) + 1
        self.bottom = self.place()
        self.draw()

    def place(self):
        """Gives each row its height, and each frame that leaves there its line."""
        y, now = 50, None
        for row in self.rows:
            if row.now != now:
                now = row.now
                self.marks.append((y, now))
                y += TALL + 2
            self.top[row.at] = y
            before = len(row.middle) if row.step.words[0] == "cut" else bool(row.taken and row.sent)
            for k, frame in enumerate(row.sent):
                self.line_of[id(frame)] = y + TALL * (before + k)
            lines = max(len(row.beside["A"]), len(row.beside["B"]), before + len(row.sent), len(row.middle))
            y += TALL * lines + 6
        self.foot = y + 6
        return self.foot + TALL * max(map(len, self.ends.values())) + 10

    def draw(self):
        self.picture.words(MIDDLE, 24, "each host numbers its frames from 0", "dim", "middle")
        for x, name in ((LANE["A"], "A"), (LANE["B"], "B")):
            shown = "link" if name == "B" and self.history.run.kind == "one" else name
            self.picture.words(x, 24, shown, "host", "middle")
            self.picture.add(34, self.bottom, line(x, 34, x, self.bottom, "lane"))
        for y, now in self.marks:
            self.picture.add(y, y + TALL, line(8, y + 15, WIDTH - 8, y + 15, "rule"))
            self.picture.words(8, y + 12, seconds(now), "time")
        for row in self.rows:
            self.beside(row)
            self.middle(row)
        self.by_at = {row.at: row for row in self.rows}
        seen = set(self.by_at)
        for frame in self.history.all_frames():
            if frame.row in seen and id(frame) in self.line_of:
                self.frame(frame)
        for handing in self.history.handings:
            if handing.row in seen and (handing.frame is None or handing.is_again):
                self.from_middle(handing)
        self.waits()
        for name, said in self.ends.items():
            side = -1 if name == "A" else 1
            for k, words in enumerate(said):
                self.picture.words(LANE[name] + side * 12, self.foot + TALL * k + 12, words, "end", "end" if side < 0 else "start")

    def beside(self, row):
        for name, side in (("A", -1), ("B", 1)):
            for k, (class_, words, title) in enumerate(row.beside[name]):
                y = self.top[row.at] + TALL * k
                if k == 0:
                    dot = element("circle", cx=LANE[name], cy=y + 8, r=3, class_=f"dot {class_}")
                    self.picture.add(y, y + TALL, dot, "over")
                shown = cut(words, BESIDE)
                told = title if title and title != words or shown == words else words
                self.picture.words(LANE[name] + side * 12, y + 12, shown, class_, "end" if side < 0 else "start", told)

    def middle(self, row):
        for k, (thing, words) in enumerate(row.middle):
            y = self.top[row.at] + TALL * k + 12
            to = getattr(thing, "to", None)
            class_ = "note " + ("damaged" if getattr(thing, "kind", "") == "damage" else "noise" if to and thing.frame is None else "again")
            if to and (thing.is_again or thing.frame is None) and thing.kind != "frame":
                side = -1 if to == "B" else 1
                self.picture.words(MIDDLE + side * 8, y, cut(words, 42), class_, "end" if side < 0 else "start", words)
            elif to and thing.kind == "frame":
                self.picture.words(LANE["B"] - 10, y, cut(words, 85), "label sent", "end", words)
            else:
                self.picture.words(MIDDLE, y, cut(words, 80), class_, "middle", words)

    def start(self, frame):
        """Where a frame's arrows begin."""
        y = self.line_of[id(frame)] + 14
        return (MIDDLE if frame.parent else LANE[frame.host]), y

    def end(self, handing):
        """Where an arrow ends: at the poll that took it; else at the device, where it waits."""
        at = handing.taken if handing.taken is not None else handing.maybe
        inwards = 1 if handing.to == "A" else -1
        if at is not None and at in self.top:
            return LANE[handing.to] + inwards * 4, self.top[at] + 5 + 2 * min(self.order[id(handing)], 4)
        if at is not None:
            return LANE[handing.to] + inwards * 4, self.bottom
        return LANE[handing.to] + inwards * 26, self.top[handing.row] + 10

    def arrow(self, begin, end, class_, title, head="head"):
        (x1, y1), (x2, y2) = begin, end
        self.picture.add(min(y1, y2), max(y1, y2), line(x1, y1, x2, y2, f"arrow {class_}", title))
        turn = round(math.degrees(math.atan2(y2 - y1, x2 - x1)), 1)
        shape = "M-6 -6L6 6M-6 6L6 -6" if head == "cross" else "M0 0L-9 -4L-9 4z"
        self.picture.add(y2 - 8, y2 + 8, element("path", d=shape, transform=f"translate({x2} {y2}) rotate({turn})", class_=f"{head} {class_}"))

    def label(self, frame, notes):
        """The words at a frame's line, nearer to its sender."""
        x, y = self.start(frame)
        side = 1 if frame.host == "A" else -1
        side = -side if frame.parent else side
        told = "".join(f" {words}" for _, words in notes)
        shown = cut(f"{frame.name} {frame.seen.text}", (40 if frame.parent else 86) - len(told))
        parts = escaped(shown) + "".join(element("tspan", escaped(words), dx=8, class_=class_) for class_, words in notes)
        title = element("title", escaped(f"{frame.host} {frame.name} {frame.seen.text}, {len(frame.data)} bytes: {frame.data[:256].hex()}"))
        words = element("text", parts + title, x=x + side * 10, y=y - 3, class_="label", text_anchor="start" if side > 0 else "end")
        self.picture.add(y - TALL, y, words, "over")

    def frame(self, frame):
        """A frame's words, its first handing or its loss."""
        begin, notes = self.start(frame), []
        if frame.repeats is not None:
            notes.append(("again", f"retransmission of {frame.repeats.name}"))
        title = f"{frame.host} {frame.name}: {frame.fate}"
        far = LANE["B" if frame.host == "A" else "A"]
        if frame.is_lost:
            notes.append(("lost", "LOST"))
            self.arrow(begin, (begin[0] + round((far - begin[0]) * 0.72), begin[1] + 10), "lost", title, "cross")
        elif frame.on_link:
            self.arrow(begin, (far, begin[1] + 6), "sent", title)
        elif frame.cut_at is not None and frame.cut_at in self.top:
            self.arrow(begin, (MIDDLE, max(self.top[frame.cut_at] + 12, begin[1] + 2)), "cut", f"{title}, into fragments")
        for handing in frame.handings[:1]:
            class_ = "damaged" if handing.kind == "damage" else "late" if handing.is_late else "sent"
            if handing.taken is None:
                notes.append(("dim", "may be taken" if handing.is_unsure else "waits"))
                class_ += " waits"
            self.arrow(begin, self.end(handing), class_, title)
        self.label(frame, notes)

    def from_middle(self, handing):
        """A frame that the link hands over again, noise, or what comes from the link of one host."""
        k = next((k for k, (thing, _) in enumerate(self.by_at[handing.row].middle) if thing is handing), None)
        if k is None:
            return
        y = self.top[handing.row] + TALL * k + 8
        class_ = "noise" if handing.kind == "noise" else "damaged" if handing.kind == "damage" else "again" if handing.frame else "sent"
        class_ += "" if handing.taken is not None else " waits"
        begin = (LANE["B"], y + 6) if handing.kind == "frame" else (MIDDLE, y)
        self.arrow(begin, self.end(handing), class_, f"{handing.seen.text}: {handing.data[:256].hex()}")

    def waits(self):
        """A thin line beside the lane from where a host wants to be polled to the poll, or to the end where nobody polls it."""
        open_ = {}
        for row in self.rows:
            for name, wake in row.opens_wait.items():
                if name in open_:
                    self.wait(name, *open_.pop(name), self.top[row.at] + 8, "wait")
                if wake is not None and wake > self.history.clocks[row.at][name]:
                    open_[name] = self.top[row.at] + 8, wake
        for name, (y, wake) in open_.items():
            self.wait(name, y, wake, self.foot, "wait unanswered")

    def wait(self, name, y, wake, until, class_):
        x = LANE[name] + (-6 if name == "A" else 6)
        if until > y:
            self.picture.add(y, until, line(x, y, x, until, class_, f"{name} waits for {seconds(wake)}"))

    def parts(self):
        """Pictures of at most so many rows, one below the other."""
        tops = [self.top[row.at] for row in self.rows]
        edges = [0, *tops[PART::PART], self.bottom]
        return [svg(top, bottom, self.picture.between(top, bottom)) for top, bottom in zip(edges, edges[1:])]


def svg(top, bottom, content):
    return element("svg", element("rect", x=0, y=top, width=WIDTH, height=bottom - top, class_="paper") + content, width=WIDTH,
                   height=bottom - top, viewBox=f"0 {top} {WIDTH} {bottom - top}", xmlns="http://www.w3.org/2000/svg")
