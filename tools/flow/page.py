"""The page: one file that loads no other and needs no script."""
import re

from graph import graphs
from history import History
from lanes import WIDTH, Lanes
from rows import Rows
from style import PAGE, SHEET
from svg import cut, element, escaped, line, text
from words import counts, ending, errors, remarks

# No remark has more characters.
LONGEST = 20_000
LEGEND = [("arrow sent", "a frame, from the poll that sent it to the one that took it"), ("arrow lost", "LOST: no line delivered it"),
          ("arrow again", "delivered again, or late (out of order)"), ("arrow damaged", "damaged on the link, so that its checksum is wrong"),
          ("arrow cut", "to where it was fragmented"), ("arrow noise", "noise: bytes that no host sent"),
          ("arrow sent waits", "pale: delivered, but not taken by a poll yet"), ("wait", "from where a host wants a poll to the poll"),
          ("wait unanswered", "nobody polled it before the script's end"), ("bar", "numbers: a segment"),
          ("bar again", "numbers: a retransmission"), ("bar lost", "numbers: lost"), ("reset", "numbers: a reset (RST)"),
          ("acked", "numbers: acknowledged"), ("allowed", "numbers: allowed by the window"), ("sack", "numbers: received out of order (SACK)")]
# The legend has three columns of so many lines.
LINES = 6
CROSS = {"arrow lost": ("M-6 -6L6 6M-6 6L6 -6", 46, "cross"), "reset": ("M-4 -4L4 4M-4 4L4 -4", 23, "reset")}


def legend():
    high = 4 + 20 * LINES
    parts = [element("rect", x=0, y=0, width=WIDTH, height=high, class_="paper")]
    for k, (class_, words) in enumerate(LEGEND):
        x, y = 10 + k // LINES * 480, 14 + k % LINES * 20
        parts += ([line(x, y - 4, x + 46, y - 4, class_)] if class_ != "reset" else []) + [text(x + 58, y, words, "dim")]
        if class_ in CROSS:
            shape, at, drawn = CROSS[class_]
            parts.append(element("path", d=shape, transform=f"translate({x + at} {y - 4})", class_=drawn))
    return element("svg", "".join(parts), width=WIDTH, height=high, viewBox=f"0 0 {WIDTH} {high}", xmlns="http://www.w3.org/2000/svg")


def table(history, only):
    """All frames with text and bytes."""
    rows = []
    for frame in history.all_frames():
        if only is None or only.frame(frame):
            cells = [f"{frame.host} {frame.name}", frame.seen.text, frame.fate]
            data = element("td", element("code", escaped(frame.data.hex()) or "-", class_="bytes"))
            rows.append(element("tr", "".join(element("td", escaped(cell)) for cell in cells) + data))
    head = element("tr", "".join(element("th", name) for name in ("frame", "says", "became", "bytes")))
    return element("details", element("summary", f"All frames ({len(rows)})") + element("table", element("tbody", head + "".join(rows))))


def ended(run):
    """How the script ended, where that was early."""
    return element("p", escaped(ending(run)), class_="bad") if run.ended else ""


def section(run, only):
    """What is drawn of a script."""
    if not run.steps:
        return element("p", escaped("Nothing ran.")) + ended(run)
    history = History(run)
    rows = Rows(history)
    drawn = only.rows(rows) if only else rows.rows
    lanes = Lanes(drawn, history, rows)
    said = [element("li", element("b", escaped(f"{name}: ")) + escaped(cut(words, LONGEST))) for name, words in remarks(history, rows, only)]
    said += [element("li", element("b", "Refused: ") + escaped(f"line {number}, `{cut(line_, 100)}`: {answer}"), class_="bad")
             for number, line_, answer in errors(history)]
    header = escaped("; ".join(run.header))
    return "".join([element("p", element("code", header)), element("p", element("b", escaped(counts(history, only)))), ended(run),
                    element("ul", "".join(said)), element("div", "".join(graphs(history, only)) or "&#8203;"),
                    element("div", "".join(lanes.parts())), table(history, only)])


def page(runs, title, only=None):
    """The page of some scripts."""
    parts = [element("h1", escaped(title)), element("p", "Time runs downwards. TCP numbers count from each side's SYN. Point at an arrow, a text or "
                                                         "a bar for more. Frames are numbered by host from 0."), legend()]
    for run in runs:
        if run.name is not None:
            parts.append(element("h2", escaped(run.name) or "&#8203;"))
        parts.append(section(run, only))
    head = element("meta", charset="utf-8") + element("title", escaped(title)) + element("style", SHEET + PAGE)
    body = element("head", head) + element("body", "".join(parts))
    return "<!DOCTYPE html>\n" + element("html", body, xmlns="http://www.w3.org/1999/xhtml", lang="en") + "\n"


def picture(run, only=None):
    """The lanes alone, as a file of their own."""
    if not run.steps:
        words = text(8, 20, f"Nothing ran. {run.ended or ''}", "refused")
        return element("svg", words, width=WIDTH, height=40, xmlns="http://www.w3.org/2000/svg") + "\n"
    history = History(run)
    rows = Rows(history)
    drawn = Lanes(only.rows(rows) if only else rows.rows, history, rows).parts()[0]
    return re.sub(r"^(<svg[^>]*>)", lambda found: found[1] + element("style", SHEET), drawn, count=1) + "\n"
