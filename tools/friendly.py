"""Scripts that a person writes: each line is played by the program `lan` as one or several lines of its own language (docs/guide/simulator.md),
or by `app_host`, which is host A alone: then what it sends goes nowhere, and `frame` brings what comes.

`run` and `expect` need what came before, so the program is asked line by line. Behind each line stands a `pollat` at a moment that was asked for
already: it changes nothing, and says that no more frames of the line follow. What is written is what the program writes without them.
"""
import heapq
import re
import subprocess
from dataclasses import dataclass, field

from frames import Decoder

OTHER = {"A": "B", "B": "A"}
UNITS = {"us": 1, "ms": 1_000, "s": 1_000_000}
FLAGS = {"F": 1, "S": 2, "R": 4, "P": 8, ".": 16}
NAMES = {"TCP": "TCP", "UDP": "UDP", "ICMP": "ICMP", "ARP": "ARP", "FRAGMENT": "fragment"}
BUDGET, MOST_POLLS, HELD_BACK = 64, 100_000, 10_000
A_TIME = "a time is expected, as 5s, 50ms or 20us"


class Bad(Exception):
    """Why a line isn't one, or what came in place of what was expected."""


class Ended(Exception):
    """The program ended at a line of its own: its number, and what it says."""


def time_of(word):
    found = re.fullmatch(r"([0-9]{1,12})(us|ms|s)", word, re.ASCII)
    if not found:
        raise Bad(f"{A_TIME}, not {word}")
    return int(found[1]) * UNITS[found[2]]


def share_of(word):
    """A percentage, in hundredths of a percent."""
    found = re.fullmatch(r"([0-9]{1,3})(?:\.([0-9]{1,2}))?%", word, re.ASCII)
    share = int(found[1]) * 100 + int((found[2] or "").ljust(2, "0")) if found else None
    if share is None or share > 10_000:
        raise Bad(f"a share is expected, as 5% or 0.25%, not {word}")
    return share


def number_of(word, what="a number"):
    if not re.fullmatch("[0-9]{1,19}", word, re.ASCII):
        raise Bad(f"{what} is expected, not {word}")
    return int(word)


def words_of(line):
    """The words of a line without its comment; a text in quotes is its bytes in hex."""
    found = re.findall(r'"[^"]*"|#.*|[^\s"#]+|["#]', line)
    words = [it for it in found if not it.startswith("#")]
    if '"' in words:
        raise Bad("a text in quotes is expected to end in its line")
    return [it[1:-1].encode().hex() or "-" if it.startswith('"') else it for it in words]


class Chance:
    """Random numbers by a seed, by SplitMix64: the same on every machine."""

    def __init__(self, seed):
        self.state = seed % 2**64

    def below(self, bound):
        self.state = (self.state + 0x9E3779B97F4A7C15) % 2**64
        it = self.state
        it = (it ^ it >> 30) * 0xBF58476D1CE4E5B9 % 2**64
        it = (it ^ it >> 27) * 0x94D049BB133111EB % 2**64
        return (it ^ it >> 31) % bound


@dataclass
class Link:
    """What the link does with a frame: shares in hundredths of a percent, the delay in microseconds."""

    loss: int = 0
    reorder: int = 0
    delay: int = 0
    chance: Chance = field(default_factory=lambda: Chance(1))

    def arrival(self, now):
        """When a frame that is sent now arrives, or None where it is lost. Each frame takes two random numbers, whatever becomes of it."""
        lost, late = (self.chance.below(10_000) < share for share in (self.loss, self.reorder))
        return None if lost else now + self.delay + (max(self.delay, HELD_BACK) if late else 0)


class Program:
    """The program, which is asked line by line; `lines` are those of the expanded script, and `out` what they are answered."""

    def __init__(self, path):
        self.run = subprocess.Popen([path], stdin=subprocess.PIPE, stdout=subprocess.PIPE, text=True, bufsize=1, errors="surrogateescape")
        self.lines, self.places, self.out = [], [], []
        self.runs, self.last = False, {"A": 0, "B": 0}

    def ask(self, line):
        """The answer to a line, and the frames that were sent then, as (host, number, bytes)."""
        self.lines.append(line)
        self.places.append(len(self.lines))
        words = line.split(" ")
        if not self.runs and line != "start":
            self.write(line)
            return None, []
        if words[0] in ("poll", "pollat") and len(words) > 2 and words[1] in self.last and words[2].isdecimal():
            self.last[words[1]] = max(self.last[words[1]], int(words[2]))
        self.write(f"{line}\npollat A {self.last['A']}")
        self.places.append(None)
        answer, sent = self.read(), []
        self.runs = True
        self.out.append(answer)
        while (said := self.read()).startswith("sent "):
            self.out.append(said)
            _, host, number, frame = said.split(" ")
            sent.append((host, int(number), bytes.fromhex(frame.replace("-", ""))))
        return answer, sent

    def write(self, lines):
        try:
            print(lines, file=self.run.stdin, flush=True)
        except BrokenPipeError:
            self.read()

    def read(self):
        said = self.run.stdout.readline().removesuffix("\n")
        ended = re.fullmatch(r"line (\d+): (.*)", said)
        if ended:
            number = self.places[int(ended[1]) - 1]
            self.out.append(f"line {number}: {ended[2]}")
            raise Ended(number, ended[2])
        if not said:
            raise Ended(len(self.lines), "the program ended")
        return said

    def close(self):
        try:
            self.run.stdin.close()
        except BrokenPipeError:
            pass
        self.run.stdout.close()
        self.run.wait()


class Script:
    """A script as far as it was played, by two hosts or by one."""

    def __init__(self, program, hosts="AB"):
        self.program, self.hosts, self.link, self.now = program, hosts, Link(), 0
        self.on_link, self.order = [], 0
        self.named, self.expected, self.answer = set(), {"A": [], "B": []}, None
        self.decoder = None

    def take(self, line):
        """Plays a line."""
        words = words_of(line)
        if not words:
            return
        if words[0] == "world" and len(words) > 1:
            self.decoder = Decoder(words[1])
        own = {"run": self.run_for, "link": self.set_link, "expect": self.expect, "lose": self.lose}.get(words[0])
        if words[0] in ("link", "lose") and len(self.hosts) == 1:
            raise Bad(f"`{words[0]}` is expected where there are two hosts: here `frame A HEX` brings a frame")
        if own and words[0] != "link" and not self.program.runs:
            raise Bad(f"`{words[0]}` is expected behind `start`")
        if own:
            own(words[1:])
        else:
            self.play(self.with_moment(words))

    def with_moment(self, words):
        """A line of `lan`: behind `poll` and `pollat` a moment may have a unit, and what is left out is the clock's and a budget of 64."""
        if len(self.hosts) == 1:
            words = [str(time_of(it)) if k and re.fullmatch("[0-9]+(us|ms|s)", it, re.ASCII) else it for k, it in enumerate(words)]
        if words[0] in ("poll", "pollat") and len(words) > 1:
            if len(words) > 2 and not words[2].isdecimal():
                words[2] = str(time_of(words[2]))
            words += [str(self.now), str(BUDGET)][len(words) - 2 : {"poll": 2, "pollat": 1}[words[0]]]
            self.now = max(self.now, int(words[2]))
        elif words[0] in ("deliver", "damage", "noise") and len(words) == {"deliver": 3, "damage": 5, "noise": 2}[words[0]]:
            words.append("-")
        return words

    def play(self, words):
        """Plays a line of `lan`; frames that are sent then go onto the link."""
        if words[0] in ("deliver", "damage", "cut") and len(words) > 2 and words[2].isdecimal():
            self.named.add((words[1], int(words[2])))
        if words[0] in ("frame", "noise") and len(words) > 2 and self.decoder and re.fullmatch("([0-9A-Fa-f]{2})+", words[2]):
            self.decoder.see(bytes.fromhex(words[2]), OTHER.get(words[1], "B"), words[0] == "frame")
        self.answer, sent = self.program.ask(" ".join(words))
        for host, number, data in sent:
            self.expected[host].append((number, self.decoder.see(data, host)))
            arrival = self.link.arrival(self.now)
            if arrival is not None and len(self.hosts) == 2:
                self.order += 1
                heapq.heappush(self.on_link, (arrival, self.order, host, number))
        return self.answer

    def set_link(self, words):
        words = list(words)
        if not words:
            raise Bad("`link` is expected with loss, delay, reorder, seed or good behind it")
        while words:
            name = words.pop(0)
            if name == "good":
                self.link = Link(chance=self.link.chance)
                continue
            if name not in ("loss", "delay", "reorder", "seed"):
                raise Bad(f"loss, delay, reorder, seed or good is expected behind `link`, not {name}")
            if not words:
                raise Bad(f"a value is expected behind {name}")
            word = words.pop(0)
            if name == "seed":
                self.link.chance = Chance(number_of(word, "a seed"))
            else:
                setattr(self.link, name, time_of(word) if name == "delay" else share_of(word))

    def lose(self, words):
        if len(words) != 2 or words[0] not in OTHER:
            raise Bad("a host and the number of its frame are expected behind `lose`")
        self.named.add((words[0], number_of(words[1], "the number of a frame")))

    def run_for(self, words):
        """Polls each host when it wants to be and hands over what is on the link, until so much time has passed."""
        if len(words) != 1:
            raise Bad(f"{A_TIME}, behind `run`")
        end, left = self.now + time_of(words[0]), MOST_POLLS
        due, changed = set(self.hosts), set()
        while True:
            while due:
                for host in sorted(due):
                    left -= 1
                    if left < 0:
                        raise Bad(f"more than {MOST_POLLS} polls: the hosts don't come to rest")
                    (changed.add if self.play(["poll", host, str(self.now), str(BUDGET)]) == "changed" else changed.discard)(host)
                due = self.hand_over()
            wakes = {host: self.wake(host) for host in self.hosts}
            due = {host for host in changed if wakes[host] is not None and wakes[host] <= self.now}
            if due:
                continue
            # A host that still wants to be polled did nothing when it was, and waits for something else.
            later = [it for it in (*wakes.values(), *(entry[0] for entry in self.on_link[:1])) if it is not None and it > self.now]
            if not later or min(later) > end:
                break
            self.now = min(later)
            due = {host for host in self.hosts if wakes[host] is not None and wakes[host] <= self.now} | self.hand_over()
        self.now = end

    def hand_over(self):
        """Hands over what has arrived by now. Answers the hosts that have to be polled for it."""
        polled = set()
        while self.on_link and self.on_link[0][0] <= self.now:
            _, _, host, number = heapq.heappop(self.on_link)
            if (host, number) not in self.named:
                self.play(["deliver", host, str(number), "-"])
                polled.add(OTHER[host])
        return polled

    def wake(self, host):
        said = self.play(["pollat", host, str(self.now)])
        return int(said[3:]) if said.startswith("at ") else None

    def expect(self, words):
        """What a host sent next, or the last answer."""
        if words[:1] == ["answer"]:
            if " ".join(words[1:]) != self.answer:
                raise Bad(f"expected the answer {' '.join(words[1:])}; it was {self.answer}")
            return
        if len(words) < 2 or words[0] not in self.hosts or words[1] not in (*NAMES, "nothing"):
            raise Bad(f"`expect` is expected with a host and {', '.join(NAMES)} or nothing behind it, or with answer")
        host, kind = words[:2]
        left = self.expected[host]
        if kind == "nothing":
            if left:
                raise Bad(f"expected nothing more of {host}; it sent {self.told(left)}")
            return
        check = wanted(words[2:], kind)
        while left:
            number, seen = left.pop(0)
            if seen.text.startswith(NAMES[kind]):
                if not check(seen):
                    raise Bad(f"expected of {host}: {' '.join(words[1:])}; it sent #{number} {seen.text}")
                return
        raise Bad(f"expected of {host}: {' '.join(words[1:])}; it sent nothing more of the kind")

    def told(self, left):
        return "; ".join(f"#{number} {seen.text}" for number, seen in left[:4]) + (f"; and {len(left) - 4} more" if len(left) > 4 else "")


def wanted(words, kind):
    """Whether a frame is what these words ask for: flags, and numbers that count from each side's SYN."""
    words, flags, numbers = list(words), None, {}
    if kind == "TCP" and words and set(words[0]) <= set(FLAGS):
        flags = sum(FLAGS[it] for it in set(words.pop(0)))
    known = ("seq", "ack", "win", "len") if kind == "TCP" else ("len",) if kind in ("UDP", "ICMP") else ()
    while words:
        name = words.pop(0)
        if name not in known or not words:
            more = "flags as S. or P., and then " if kind == "TCP" else ""
            raise Bad(f"{more}{', '.join(known) or 'nothing'} with a number is expected behind {kind}, not {name}")
        numbers[name] = number_of(words.pop(0))

    def check(seen):
        if kind != "TCP":
            return all(re.search(rf" Len={value}\b", seen.text) for value in numbers.values())
        it = seen.tcp
        has = {"seq": it.seq_rel, "ack": it.ack_rel if it.flags & 16 else None, "win": it.window, "len": it.length}
        return (flags is None or it.flags == flags) and all(has[name] == value for name, value in numbers.items())

    return check


def play(path, text, expand, write, say, why, hosts="AB"):
    """Plays a text by the program of two hosts, or of host A alone. `write` gets what the program writes, or the expanded script; `say` the line at which it ended, and why. The status."""
    program = Program(path)
    script, status, shown = Script(program, hosts), 0, 0
    try:
        for place, line in enumerate(text.split("\n"), 1):
            try:
                script.take(line)
            except Bad as bad:
                say(f"line {place}: {bad}")
                status = 1
            except Ended as ended:
                number, said = ended.args
                say(f"line {place}, as `{program.lines[number - 1]}`: {why(program.lines, number) or said}")
                status = 1
            made = program.lines if expand else program.out
            write("".join(f"{it}\n" for it in made[shown:]))
            shown = len(made)
            if status:
                break
    finally:
        program.close()
    return status
