"""What must come of a course, by its name: in words, and as a test of what the hosts sent and read."""
import subprocess
from collections import namedtuple

from play import ACK, FIN, OTHER, RST, SYN, Course, Ended

# `check` plays the course, and answers what is wrong, if anything is, and what was seen.
Expected = namedtuple("Expected", "words check")
SECOND = 1_000_000
# Two timeouts of at most a minute each (RFC 6298, 2.5): one on either side.
LONGEST = 120 * SECOND
DELAY = 5_000
MSS = 1460


def played(check, sends=None):
    """A check of a course that is played to its end. Up to so many of its last lines `send` the link is good."""

    def whole(lan, script):
        try:
            course = begun(lan, script, sends)
        except Ended as fault:
            return str(fault), "not played to its end"
        try:
            return check(course)
        except Ended as fault:
            return str(fault), "the good link ended"
        finally:
            course.close()

    whole.sends = sends
    return whole


def begun(lan, script, sends):
    """The course, in which the link is good up to so many of its last lines `send`."""
    bad = [k for k, line in enumerate(script) if line.startswith("send ")][-sends] if sends else None
    return Course(lan, script, bad=bad)


def texts(course, host):
    """Each segment of a host that carries text: its frame, the place of its first byte (from 0 at the first that went), how many."""
    found = [(frame, it) for frame, it in course.segments(host) if it.text and not it.flags & SYN]
    return [(frame, (it.sequence - found[0][1].sequence) % (1 << 32), len(it.text)) for frame, it in found]


def is_read(course):
    return bool(course.pairs()) and not course.unread()


def in_seconds(took):
    return f"{took / SECOND:.3f} s"


def standstill(lan, script):
    """All is read on a good link, wherever the course is cut off before it."""
    start = script.index("start")
    cuts, longest = 0, (0, 0)
    for cut in range(start + 1, len(script) + 1):
        # Behind a question the hosts are as they were in front of it.
        if cut < len(script) and script[cut - 1].startswith(("pollat", "state")):
            continue
        try:
            course = Course(lan, script, cut)
            took = course.heal(DELAY, LONGEST, is_read, is_lost=True) if course.pairs() else 0
            left = course.unread()
            course.close()
        except Ended as fault:
            return f"{fault}, cut behind line {cut}", "ended"
        if took is None:
            return f"cut behind line {cut}, after {in_seconds(LONGEST)} of a good link not read: {left}", f"{cuts} cuts before it"
        cuts += 1
        longest = max(longest, (took, cut))
    return None, f"read {in_seconds(took)} behind its end; cut off behind each of {cuts} lines, at most {in_seconds(longest[0])} behind line {longest[1]}"


def settled(lan, script):
    """The same of a case of two sockets (docs/guide/simulator.md), each cut in a pair of its own, which `settle` closes."""
    events = [line for line in script if line.startswith(("sockets ", "> "))]
    cuts = [(cut, LONGEST) for cut in range(1, len(events) + 1)]
    spans = [(len(events), seconds * SECOND) for seconds in range(LONGEST // SECOND + 1)]
    cases = [f"== {cut}\n" + "\n".join([*events[:cut], f"> settle {span}"]) + "\n" for cut, span in cuts + spans]
    ran = subprocess.run([lan], input="".join(cases), stdout=subprocess.PIPE, text=True)
    ends = [case.rsplit("\n= ", 1)[-1].split("\n")[0] for case in ran.stdout.split("\n== ")]
    if ran.returncode or len(ends) != len(cases):
        return f"the program ended with status {ran.returncode}", "ended"
    for (cut, _), end in zip(cuts, ends):
        if end != "all read":
            return f"cut behind event {cut - 1}, after {in_seconds(LONGEST)} of a good link: {end}", f"{cut - 1} cuts before it"
    took = next(span for (_, span), end in zip(spans, ends[len(cuts) :]) if end == "all read")
    return None, f"read within {in_seconds(took)} behind its end; cut off behind each of {len(cuts)} lines, within {in_seconds(LONGEST)}"


def read_soon(course, limit=LONGEST, delay=DELAY):
    """What is wrong where all isn't read soon, and how long it took."""
    took = course.heal(delay, limit, is_read)
    if took is None:
        return f"not read after {in_seconds(limit)} of a good link: {course.unread()}", None
    return None, took


def sampled(course):
    """At a long round trip: what goes twice once a round trip was taken of text that went once."""
    fault, took = read_soon(course, delay=650_000)
    went = texts(course, "A")
    # An acknowledgement of A's text that came to A, by line.
    first = next(it.sequence for _, it in course.segments("A") if it.text and not it.flags & SYN)
    ends = [(line, (dict((f.number, s) for f, s in course.segments("B"))[k].acknowledgement - first) % (1 << 32)) for line, _, k in course.came["B"]]
    sample = next((line for line, end in ends if 0 < end < 1 << 31 and all(at >= end or is_once(went, at) for _, at, _ in went)), None)
    if sample is None:
        return "no round trip was taken", "nothing"
    again, top = 0, 0
    for frame, at, count in went:
        again += frame.line > sample and at < top
        top = max(top, at + count)
    return fault or (f"{again} segments went again" if again else None), f"{len(went)} segments with text, {again} of them again"


def is_once(went, at):
    return sum(start <= at < start + count for _, start, count in went) == 1


def old_duplicates(course):
    """Behind the timeout, while nothing new is acknowledged."""
    went, top, timeout = texts(course, "A"), 0, None
    last = course.line
    for frame, at, count in went:
        if timeout is None and at < top and frame.moment >= 1_600_000:
            timeout = frame
        top = max(top, at + count)
    if timeout is None:
        return "the timer didn't run out", "nothing went again"
    behind = sum(count for frame, _, count in went if frame.line >= timeout.line)
    came = sum(line > timeout.line for line, _, _ in course.came["B"])
    fault, took = read_soon(course)
    fault = fault or (f"{behind} bytes went behind the timeout" if behind > MSS else None) or (None if came == 4 else f"{came} duplicates came")
    return fault, f"{behind} bytes went behind the timeout, {came} duplicates came; all read in {in_seconds(took or 0)}"


def challenged(course):
    """The SYN that comes again is answered by a bare acknowledgement, and the connection stands."""
    again = course.came["A"][-1][0]
    answers = [it for frame, it in course.segments("B") if frame.line > again]
    state = course.answers[-1][2]
    if len(answers) != 1 or answers[0].flags & (SYN | RST | FIN) or not answers[0].flags & ACK or answers[0].text:
        return f"answered by {[it.flags for it in answers]}", state
    (_, own), (_, ours) = next(it for it in course.segments("B")), course.segments("A")[0]
    right = answers[0].sequence == (own.sequence + 1) % (1 << 32) and answers[0].acknowledgement == (ours.sequence + 1) % (1 << 32)
    if not right or state != "state ESTABLISHED":
        return f"another number, or {state}", "one answer"
    return None, f"one bare acknowledgement, {state}"


def reset_counts(course):
    """What A sent last comes: the reset of its abort ends B there and then."""
    for number in course.outstanding("A"):
        course.hand("A", number)
    course.act(f"poll B {course.moment()} 64")
    state = course.act("state B 0")
    resets = [it for _, it in course.segments("A") if it.flags & RST]
    return None if state == "state CLOSED" and len(resets) == 1 else f"{len(resets)} resets, {state}", state


def taken(course):
    """Text that came behind an older acknowledgement needn't come again."""
    written, read = (len(it.get(place, b"")) for it, place in ((course.written, ("A", 0)), (course.read, ("B", 0))))
    went, top, again = texts(course, "A"), 0, 0
    late = [number for _, _, number in course.came["A"][-2:]]
    for _, at, count in went:
        again += at < top
        top = max(top, at + count)
    fault, took = read_soon(course)
    if written != read or late[0] < late[1]:
        return f"{read} of {written} bytes read at the end of the course", f"last came {late}"
    return fault or (f"{again} segments went again" if again else None), f"{read} of {written} bytes read at the end of the course, none went again"


def silly_windows(course):
    """While a byte is read at a time, what is small goes as a probe alone, a timeout behind the last, twice as long each time."""
    reads = [line for line, said, _ in course.answers if said == "recv B 0 1"]
    half = 500
    small = [frame for frame, _, count in texts(course, "A") if count < half and reads[0] <= frame.line <= course.line]
    gaps = [later.moment - earlier.moment for earlier, later in zip(small, small[1:])]
    seen = f"{len(reads)} reads of a byte, {len(small)} small segments at {[frame.moment / SECOND for frame in small]} s"
    if any(gap < SECOND for gap in gaps) or any(later < 1.9 * earlier for earlier, later in zip(gaps, gaps[1:])):
        return "small segments that are no probes", seen
    windows = [it.window for frame, it in course.segments("B") if reads[0] <= frame.line <= course.line]
    # B's window has no scale: 1,000 bytes fit into the field.
    if any(0 < it < half for it in windows):
        return f"windows of {sorted(set(windows))} bytes were named", seen
    fault, took = read_soon(course)
    return fault, f"{seen}; all read in {in_seconds(took or 0)}"


def filled(course):
    """Where a full segment's text waits though as much was in flight before: no segment is lost in this course, so the congestion window
    never shrinks, and the other end's buffer holds more than ever goes."""
    went, acked = texts(course, "A"), {frame.number: it.acknowledgement for frame, it in course.segments("B")}
    first = next(it.sequence for _, it in course.segments("A") if it.text and not it.flags & SYN)
    came = [(line, (acked[number] - first) % (1 << 32)) for line, _, number in course.came["B"]]
    sends = [(line, int(answer.split(" ")[1])) for line, said, answer in course.answers if said.startswith("send A 0") and answer.startswith("ok")]
    most, waits = 0, []
    for line, said, _ in course.answers:
        if not said.startswith("poll A "):
            continue
        sent = sum(frame.line == line for frame, _, _ in went)
        written = sum(count for at, count in sends if at < line)
        top = max((at + count for frame, at, count in went if frame.line <= line), default=0)
        una = max((end for at, end in came if at < line and end < 1 << 31), default=0)
        if written - top >= MSS and top - una + MSS <= most and sent < int(said.split(" ")[3]):
            waits.append(line)
        most = max(most, top - una)
    fault, took = read_soon(course)
    if waits:
        return f"a full segment's text waits at {len(waits)} polls, first at line {waits[0]}", f"at most {most} bytes in flight"
    return fault, f"no full segment's text waits at a poll; at most {most} bytes in flight; all read in {in_seconds(took or 0)}"


def request_for(course, address):
    """The first ARP request for an address that A sent (RFC 826), and how many others went before it."""
    requests = [frame for frame in course.sent["A"] if frame.bytes[12:14] == b"\x08\6" and frame.bytes[20:22] == b"\0\1"]
    return next(((frame, k) for k, frame in enumerate(requests) if frame.bytes[38:42] == address), (None, len(requests)))


def asked_for(lan, script):
    """The living neighbour is asked for within five seconds, and where it answers then, the datagram for it comes."""
    try:
        course = Course(lan, script)
        course.close()
        asked, before = request_for(course, bytes([192, 168, 1, 2]))
        if asked is None:
            return "never asked for", f"{before} other requests"
        course = Course(lan, script, asked.line + 1)
        took = course.heal(DELAY, 10 * SECOND, lambda course: bool(course.datagrams))
        course.close()
    except Ended as fault:
        return str(fault), "ended"
    seen = f"asked for at {in_seconds(asked.moment)}, behind {before} other requests; its datagram comes {in_seconds(took or 0)} later"
    return ("late" if asked.moment > 5 * SECOND else None if took is not None else "the datagram doesn't come"), seen


STANDSTILL = Expected(
    "Two sides that both send again what the other has: a bare acknowledgement stands past all that was sent (RFC 9293, 3.4), and that of "
    "an old segment counts (3.10.7.4), so all is read.",
    standstill,
)
NEIGHBOUR = (
    "A neighbour that doesn't answer keeps no other one from being asked for; requests go once a second for each address at most "
    "(RFC 1122, 2.3.2.1), so the living one is asked for within seconds, and what waits for it goes."
)
EXPECTED = {
    "two_sides": STANDSTILL,
    "bulk": STANDSTILL,
    "probes": STANDSTILL,
    "probes_cross": STANDSTILL,
    "text_both_ways": STANDSTILL,
    "nagle_holds_the_rest": STANDSTILL._replace(check=settled),
    "karn": Expected(
        "A round trip is taken of segments alone that went once, and a timeout that was doubled stays so until one is taken (RFC 6298, 3 and "
        "5): at a round trip of 1.3 s nothing goes twice once one was taken.",
        played(sampled),
    ),
    "dups": Expected(
        "A timeout ends fast recovery and leaves a window of one segment (RFC 5681, 3.1 and 3.2): duplicates behind it let none go.",
        played(old_duplicates, 1),
    ),
    "syn": Expected("A SYN inside a connection is answered by an acknowledgement, and nothing else comes of it (RFC 5961, 4.2).", played(challenged)),
    "rst": Expected("The reset of an abort goes at a number that the other end takes (RFC 9293, 3.10.5), and ends it.", played(reset_counts, 1)),
    "oldack": Expected("An acknowledgement of what is acknowledged is ignored, and the text around it is taken (RFC 9293, 3.10.7.4).", played(taken, 3)),
    "sws": Expected(
        "A window of less than half of the buffer isn't named (RFC 9293, 3.8.6.2.2), so forty reads of a byte bring no forty segments; what is "
        "small goes as a probe (3.8.6.1).",
        played(silly_windows),
    ),
    "nagle": Expected(
        "Nagle's rule holds back what is less than a segment while something is in flight (RFC 9293, 3.7.4), by all that is queued: a full "
        "segment's text doesn't wait.",
        played(filled),
    ),
    "starve": Expected(NEIGHBOUR, asked_for),
    "starve_tcp": Expected(NEIGHBOUR, asked_for),
    "starve_remote": Expected(NEIGHBOUR + " A reply asks for a neighbour only while nothing waits for one.", asked_for),
}
