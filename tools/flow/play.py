"""Plays a script by the simulator.

Behind each poll and each call the simulator is asked what the host's TCP sockets are and when the host wants to be polled, by lines `state`
and `pollat` that a script could have itself: they change nothing (tools/flow/check holds that).
"""
import os
import pathlib
import re
import subprocess
import sys
from dataclasses import dataclass, field

from answers import answered, kind_of, medium, parts, script_lines

TOP = pathlib.Path(__file__).resolve().parents[2]
# Words with which a line of app_host begins, and none of lan.
OF_ONE_HOST = set("""seed mac begins isn_key checksums set get errors sendany peek any_ip announce reassembly slots exchange_route add_route
    drop_route no_route_v4 no_route_v6 no_routes ask egress ingress maintain delay frame refuse refused""".split())
POLLS = ("poll", "egress", "ingress", "maintain")
TIMED = (*POLLS, "pollat", "delay", "announce")
CALLS = ("listen", "connect", "send", "recv", "close", "abort", "bind", "ident", "sendto", "sendicmp", "sendraw", "sendany", "recvfrom",
         "addrs", "hw", "route", "set", "errors")


@dataclass
class Step:
    """A line of a script: its number, the answer, the frames sent then as (host, number, bytes), and what was asked behind it: the states of
    TCP sockets by (host, socket), the next poll by host (None for never), and in a case of two sockets the queues by host."""

    number: int
    line: str
    said: str
    sent: list = field(default_factory=list)
    states: dict = field(default_factory=dict)
    wakes: dict = field(default_factory=dict)
    queues: dict = field(default_factory=dict)

    @property
    def words(self):
        return self.line.split(" ")


@dataclass
class Run:
    """A script that was played. `kind` is `lan`, `one` (app_host), `pair` (two TCP sockets) or `clients`; `ended` the line that ended it."""

    name: str
    kind: str
    medium: str
    header: list
    steps: list
    ended: str = None
    status: int = 0


def number(word):
    """The value of a word of digits, or None."""
    return int(word) if re.fullmatch("0*[0-9]{1,19}", word, re.ASCII) else None


def seconds(micros):
    return f"{micros // 1_000_000}.{micros % 1_000_000:06} s"


def bytes_text(count):
    return f"{count} byte" + ("s" if count != 1 else "")


class Programs:
    """Where the simulator is: as given, or else the proved program, or a quick build."""

    def __init__(self, given):
        self.given = given

    def path(self, crate):
        if crate not in self.given:
            self.given[crate] = self.find(crate)
        return self.given[crate]

    def find(self, crate):
        quick = TOP / "tools" / "kit" / "quick-build"
        if subprocess.run([TOP / "tools" / "is-built", crate], stdout=subprocess.DEVNULL).returncode == 0:
            return TOP / "crates" / crate / "out" / crate
        if quick.exists():
            made = subprocess.run([quick, crate], stdout=subprocess.PIPE, text=True)
            if made.returncode:
                sys.exit(f"flow: {crate} was not built")
            return made.stdout.strip()
        if crate == "app_cases":
            return TOP / "lan"
        sys.exit(f"flow: {crate} isn't there: say --program {crate}=FILE")

    def play(self, crate, lines):
        """The lines that a program answers, and its status."""
        given = "".join(f"{line}\n" for line in lines).encode(errors="surrogateescape")
        ran = subprocess.run([os.fspath(self.path(crate))], input=given, stdout=subprocess.PIPE)
        return ran.stdout.decode(errors="surrogateescape").split("\n"), ran.returncode


def questions(words, sockets, last):
    """The lines that ask what came of a line of the script."""
    host = words[1] if len(words) > 1 else ""
    if host not in last or words[0] not in (*POLLS, *CALLS):
        return []
    states = [f"state {host} {socket}" for socket in sockets[host]] if len(sockets[host]) <= 16 else []
    return [*states, f"pollat {host} {last[host]}"]


def with_questions(lines):
    """The script with the questions, as pairs of a line and its place in the script; None of a question."""
    count, sockets, last = {"A": 0, "B": 0}, {"A": [], "B": []}, {"A": 0, "B": 0}
    asked, running = [], False
    for place, line in enumerate(lines, 1):
        asked.append((line, place))
        words = line.split(" ")
        if words[0] == "socket" and len(words) > 2 and words[1] in count and not running:
            sockets[words[1]] += [count[words[1]]] if words[2] == "tcp" else []
            count[words[1]] += 1
        if words[0] in TIMED and len(words) > 2 and words[1] in last and number(words[2]) is not None:
            last[words[1]] = number(words[2])
        if running:
            asked += [(question, None) for question in questions(words, sockets, last)]
        running = running or line == "start"
    return asked


def note(step, line, said):
    """Keeps the answer to a question with the line that it was asked behind."""
    words = line.split(" ")
    if words[0] == "state" and said.startswith("state "):
        step.states[words[1], int(words[2])] = said[6:]
    if words[0] == "pollat" and re.fullmatch(r"never|at \d+", said):
        step.wakes[words[1]] = None if said == "never" else int(said[3:])


def play_script(programs, name, lines, crate):
    """Plays a script of `lan` or `app_host`."""
    asked = with_questions(lines)
    output, status = programs.play(crate, [line for line, _ in asked])
    kind = "lan" if crate == "app_cases" else "one"
    at = lines.index("start") if "start" in lines else len(lines)
    run = Run(name, kind, medium(lines), script_lines(lines[:at]), [], status=status)
    texts = [line for line, _ in asked]
    behind = [pair for pair in asked[texts.index("start") if "start" in texts else len(texts) :] if script_lines([pair[0]])]
    for (line, said, sent), (_, place) in zip(answered(texts, output), behind):
        if place is not None:
            run.steps.append(Step(place, line, said, sent))
        if run.steps:
            note(run.steps[-1], line, said)
    ended = re.match(r"line (\d+): (.*)", ([line for line in output if line] or [""])[-1], re.DOTALL)
    if ended and int(ended[1]) <= len(asked):
        line, place = asked[int(ended[1]) - 1]
        run.ended = f"line {place}, `{line[:80]}`: {ended[2]}"
    elif "start" not in lines and not ended:
        run.ended = "the script never says `start`"
    return run


def play_all(programs, text):
    """Plays a text: a script, or scripts parted by lines `== NAME`."""
    from pair import play_pair

    lines = text.split("\n")
    if lines and not lines[-1]:
        lines.pop()
    if any(line.split(" ")[0] in OF_ONE_HOST for line in lines):
        return [play_script(programs, name, part, "app_host") for name, part in parts(text.removesuffix("\n")).items()]
    if not lines or lines[0] and lines[0][0] not in "#=":
        return [play_script(programs, None, lines, "app_cases")]
    runs = []
    for name, part in parts(text.removesuffix("\n")).items():
        kind, part = kind_of(part), script_lines(part)
        if kind == "sockets":
            runs.append(play_pair(programs, name, part))
        elif kind == "clients":
            runs.append(Run(name, "clients", None, part, [], "a case of clients has no link"))
        else:
            runs.append(play_script(programs, name, part, "app_cases"))
    return runs
