"""What tools know of scripts and of what the programs `lan`, `app_cases` and `app_host` write."""
import re
import zlib

TALLY = re.compile(r"(?m)^read \d+ bytes, sum \d+\n?\Z")


def tally(data):
    """The line that ends the answers to a file of cases of these bytes: how many there are, and their CRC-32."""
    return f"read {len(data)} bytes, sum {zlib.crc32(data)}"


def text_of(path):
    """The text of a file. A byte that is none of a text's stands for itself."""
    with open(path, encoding="utf-8", errors="surrogateescape", newline="") as file:
        return file.read()


def parts(text):
    """The parts of a text by name, each the lines behind a line `== NAME`, without the line that ends the answers to them all. A text
    without a line `== NAME` is one part without a name."""
    found = {}
    lines = found[None] = []
    for line in text.split("\n"):
        if line.startswith("== "):
            lines = found[line[3:]] = []
        else:
            lines.append(line)
    if len(found) > 1:
        del found[None]
        if TALLY.match("\n".join(lines[-2:])):
            del lines[-2:-1]
    return found


def script_lines(lines):
    """The lines of a script without comments and empty ones."""
    return [line for line in lines if line and not line.startswith("#")]


def kind_of(lines):
    """What a case of `app_cases` is of, by how its first line begins: `sockets` (two TCP sockets), `clients` or else `script`."""
    first = (script_lines(lines) or [""])[0]
    if first.startswith(("sockets", ">")):
        return "sockets"
    return "clients" if first.startswith(("dhcp", "dns", "client", "resolver")) else "script"


def answered(script, output):
    """Each line of a script from `start` on, with its answer and the frames that were sent then, as (host, number, bytes)."""
    lines = script_lines(script)
    if "start" not in lines:
        return
    answers = iter(line for line in output if line)
    answer = next(answers, None)
    for line in lines[lines.index("start") :]:
        if answer is None or answer.startswith(("line ", "status ")):
            return
        said, sent = answer, []
        answer = next(answers, None)
        while answer is not None and answer.startswith("sent "):
            _, host, number, frame = answer.split(" ")
            sent.append((host, int(number), bytes.fromhex(frame.replace("-", ""))))
            answer = next(answers, None)
        yield line, said, sent


def medium(script):
    """The word behind `world`, if the script begins so."""
    words = (script_lines(script) or [""])[0].split(" ")
    return words[1] if words[0] == "world" and len(words) > 1 else None
