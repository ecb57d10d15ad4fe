"""Why a line of a script of `lan` is bad: what the wrapper ./lan says on standard error.

The program reads a line by `sim_link::Line::read` and answers `bad event` alone. This reads the same language once more, word by word, and
names the first word that it can't be. tools/check/reasons holds the two against each other, over all cases and over damaged ones.
"""
import re

# What stands behind the first word of each line, and behind the kind of a socket.
FORMS = {
    "world": "MEDIUM MTU",
    "socket": "H KIND",
    "start": "",
    "listen": "H S PORT",
    "connect": "H S ENDPOINT PORT",
    "send": "H S HEX",
    "recv": "H S N",
    "close": "H S",
    "abort": "H S",
    "state": "H S",
    "bind": "H S PORT",
    "ident": "H S ID",
    "sendto": "H S ENDPOINT HEX",
    "sendicmp": "H S ADDR HEX",
    "sendraw": "H S HEX",
    "recvfrom": "H S N",
    "addrs": "H CIDR ..",
    "hw": "H MAC",
    "route": "H ADDR",
    "poll": "H MICROS BUDGET",
    "pollat": "H MICROS",
    "room": "H N",
    "deliver": "H K HEX",
    "damage": "H K PLACE WORD HEX",
    "noise": "H HEX",
    "cut": "H K AT",
}
KINDS = {
    "udp": "RP RB TP TB",
    "icmp": "RP RB TP TB",
    "raw": "VERSION PROTO RP RB TP TB",
    "tcp": "RB TB",
}
MOST_CIDRS = 4


def is_number(word, least_above):
    """Whether a word is a number below this one."""
    return re.fullmatch(r"[0-9]+", word) is not None and int(word) < least_above


def is_ipv4(word):
    parts = word.split(".")
    return len(parts) == 4 and all(re.fullmatch(r"[0-9]{1,3}", part) and int(part) < 256 for part in parts)


def groups_of(text):
    """How many groups of 16 bits a part of an IPv6 address has, its end perhaps an IPv4 address; None where it is no such part."""
    if not text:
        return 0
    parts = text.split(":")
    last = 1
    if is_ipv4(parts[-1]):
        parts, last = parts[:-1], 2
    elif not re.fullmatch(r"[0-9A-Fa-f]{1,4}", parts[-1]):
        return None
    else:
        parts = parts[:-1]
    return len(parts) + last if all(re.fullmatch(r"[0-9A-Fa-f]{1,4}", part) for part in parts) else None


def is_ipv6(word):
    front, gap, back = word.partition("::")
    if not gap:
        return groups_of(word) == 8
    if "::" in back or "." in front:
        return False
    counts = groups_of(front), groups_of(back)
    return None not in counts and sum(counts) <= 7


def is_address(word):
    return is_ipv4(word) or is_ipv6(word)


def is_cidr(word):
    address, slash, length = word.partition("/")
    return bool(slash) and (is_ipv4(address) and is_number(length, 33) or is_ipv6(address) and is_number(length, 129))


def is_endpoint(word):
    address, colon, port = word.rpartition(":")
    if address.startswith("[") and address.endswith("]"):
        return bool(colon) and is_ipv6(address[1:-1]) and is_number(port, 1 << 16)
    return bool(colon) and is_ipv4(address) and is_number(port, 1 << 16)


def is_mac(word):
    return any(re.fullmatch(rf"[0-9A-Fa-f]{{1,2}}({separator}[0-9A-Fa-f]{{1,2}}){{5}}", word) for separator in "-:")


def is_size(word):
    return is_number(word, 1 << 64)


def is_short(word):
    return is_number(word, 1 << 16)


# The class of each word of a form: what it is called where it is missing, and whether a word is one.
CLASSES = {
    **dict.fromkeys(("MTU", "S", "N", "K", "PLACE", "AT", "RP", "RB", "TP", "TB"), ("number", is_size)),
    "MEDIUM": ("medium", lambda word: word in ("eth", "ip")),
    "H": ("host", lambda word: word in ("A", "B")),
    "KIND": ("kind of socket", lambda word: word in KINDS),
    "VERSION": ("version of IP", lambda word: word in ("4", "6", "any")),
    "PROTO": ("protocol", lambda word: word == "any" or is_number(word, 1 << 8)),
    "PORT": ("port", is_short),
    "ID": ("identifier", is_short),
    "BUDGET": ("budget", is_short),
    "MICROS": ("time in microseconds", lambda word: is_number(word, 1 << 63)),
    "ENDPOINT": ("endpoint", is_endpoint),
    "ADDR": ("address", is_address),
    "CIDR": ("address with a prefix length", is_cidr),
    "MAC": ("hardware address", is_mac),
    "WORD": ("four hex digits", lambda word: re.fullmatch(r"[0-9A-Fa-f]{4}", word) is not None),
    "HEX": ("pairs of hex digits", lambda word: word == "-" or re.fullmatch(r"([0-9A-Fa-f]{2})+", word) is not None),
}


# What is said where a word is empty.
BLANK = "two blanks side by side, or one at the line's end"


def shown(word):
    """A word as it is printed: its first characters, those that can't be printed as `?`."""
    text = re.sub(r"[^ -~]", "?", word[:40]) or '""'
    return text + (".." if len(word) > 40 else "")


def reading(words):
    """Why the words of a line are none, if so, and the form of the line."""
    verb, rest = words[0], list(words[1:])
    if not verb:
        return "it is empty, or begins with a blank (--comments leaves out empty lines)", None
    if verb not in FORMS:
        return f"no such line: {shown(verb)}" + (" (--comments leaves out comments)" if verb.startswith("#") else ""), None
    form = FORMS[verb].split()
    if verb == "socket" and len(rest) > 1 and rest[1] in KINDS:
        form[1:] = [rest[1], *KINDS[rest[1]].split()]
    if form[-1:] == [".."]:
        form[1:] = ["CIDR"] * min(len(rest) - 1, MOST_CIDRS)
    text = f"{verb} {FORMS[verb]}".strip() if verb != "socket" else " ".join([verb, *form])
    for place, name in enumerate(form):
        said, is_one = CLASSES.get(name, (None, lambda word: True))
        if place >= len(rest):
            return f"no {said}: the line ends", text
        if not is_one(rest[place]):
            return f"no {said}: {shown(rest[place]) if rest[place] else BLANK}", text
    if len(rest) > len(form):
        if not rest[len(form)]:
            return BLANK, text
        return f"a word too many: {shown(rest[len(form)])}", text
    return None, text


class Script:
    """The lines of a script so far: which may come next."""

    def __init__(self):
        self.stage = "begun"

    def reason(self, line):
        """Why the next line is bad, a text; None where it isn't."""
        if not line.isascii():
            place, byte = next((place, byte) for place, byte in enumerate(line) if byte > 127)
            return f"byte {byte} at place {place + 1} is none of ASCII"
        words = line.decode("ascii").split(" ")
        why, form = reading(words)
        if why is None:
            return self.misplaced(words[0])
        if words[-1].endswith("\r"):
            why += ": a carriage return ends the line"
        return why if form is None else f"{why} (the line is `{form}`)"

    def misplaced(self, verb):
        """Why a line that begins so can't be the next one, if it can't be; else it was."""
        if self.stage == "begun":
            if verb != "world":
                return f"`world` comes first: {verb}"
            self.stage = "header"
        elif self.stage == "header":
            if verb == "start":
                self.stage = "running"
            elif verb != "socket":
                return "`world` comes once" if verb == "world" else f"`start` comes first: {verb}"
        elif verb in ("world", "socket", "start"):
            return f"it stands before the hosts run: {verb}"
        return None


def lines_of(script):
    """The lines of a script, each without its line feed; an empty rest behind the last one is none."""
    lines = script.split(b"\n")
    return lines[:-1] if lines[-1] == b"" else lines


def first_bad(script):
    """The number of the first bad line of a script and why it is, or None; and whether it says `start`."""
    state = Script()
    for number, line in enumerate(lines_of(script), 1):
        why = state.reason(line)
        if why is not None:
            return (number, why), state.stage == "running"
    return None, state.stage == "running"


def is_case_file(text):
    """Whether the program takes an input for a file of cases."""
    return text[:1] in (b"=", b"#", b"\n")


def cases_of(text):
    """The scripts of a file of cases: name, the script without comments and empty lines, and where each of its lines is in the file. Cases that
    are no scripts are left out: the program says itself what is wrong with their lines."""
    found = []
    for number, line in enumerate(text.split(b"\n"), 1):
        if line.startswith(b"== "):
            found.append((line[3:], [], []))
        elif line and not line.startswith(b"#") and found:
            found[-1][1].append(line)
            found[-1][2].append(number)
    others = (b"sockets", b">", b"dhcp", b"dns", b"client", b"resolver")
    return [(name, b"".join(line + b"\n" for line in lines), places) for name, lines, places in found
            if not (lines and lines[0].startswith(others))]
