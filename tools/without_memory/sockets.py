"""Cases of app_cases of two TCP sockets. What was written before the refusal has to be as in the whole run, and then one of these comes:
status 2; a line that names `memory` or `buffers`, which ends the case; or a line that is `refused Memory`, after which both sides are as
before it. That line is then played again, by standing twice: the second time it is answered as in the whole run, and so is all after it. Of
a `burst` the segments before the refused one stay handed over, so it is played again from there on; `ask` counts what it sends the second
time. A `settle` isn't played again, since it loses what was sent before; nor are `rounds`, which go on from where they were refused.
"""
import itertools
import re

from answers import TALLY, kind_of, parts, script_lines, text_of
from refusal import TOP, count_of, library, run, words_of


def blocks(written):
    """What is written of each line: the line, its answer, what was sent, and the sides."""
    found = []
    for line in TALLY.sub("", written).splitlines():
        if line.startswith(("== ", "sockets ", "> ", "line ")):
            found.append([line])
        else:
            found[-1].append(line)
    return found


def sent(block):
    return [line for line in block if line.startswith("sent ")]


def sides(block):
    return [line for line in block if line.startswith(("A ", "B "))]


class Tried:
    """A case of a program, beside a library that refuses an allocation."""

    def __init__(self, program, library, lines):
        self.program, self.library, self.lines = program, library, lines
        self.count, self.whole = self.counted(lines)

    def run(self, lines, **how):
        return run(self.program, self.library, "\n".join([*lines, ""]).encode(), **how)

    def counted(self, lines):
        """How many allocations there are, and what is written."""
        ran = self.run(lines, COUNT="1")
        return count_of(ran), blocks(ran.stdout.decode())

    def without(self, lines, place):
        ran = self.run(lines, REFUSE=str(place))
        return ran.returncode, blocks(ran.stdout.decode())

    def what_comes(self, place):
        """What comes of the refusal of an allocation; None where it isn't as it has to be."""
        status, said = self.without(self.lines, place)
        if (status, said) == (0, self.whole):
            return "nothing"
        if status == 2 and list(itertools.chain(*self.whole))[: sum(map(len, said))] == list(itertools.chain(*said)):
            return "status 2"
        at = next(k for k, (one, other) in enumerate(itertools.zip_longest(said, self.whole)) if one != other)
        if status == 1 and at == len(said) - 1 and re.match(r"line \d+: bad event: no (memory|buffers): ", said[at][0]):
            return "no memory for a line"
        if status == 0 and said[at][0] == self.whole[at][0] and said[at][1].startswith("= refused Memory"):
            return self.again(place, said[: at + 1])
        return None

    def again(self, place, said):
        """The same of a line that is refused, the last of these."""
        at, refused = len(said) - 1, said[-1]
        verb, *words = refused[0].removeprefix("> ").split(" ")
        if verb in ("settle", "rounds"):
            return "refused on a good link"
        if verb == "burst":
            words[1] = refused[1].split(" ")[-1]
        elif sent(refused) or (sides(refused) and sides(self.whole[at - 1]) and sides(refused) != sides(self.whole[at - 1])):
            return None
        line, second = refused[0], " ".join([">", verb, *words])
        place_of = [k for k, one in enumerate(self.lines) if one.startswith("> ")][at - 2] + 1
        before, behind = self.lines[:place_of], self.lines[place_of:]
        # A line that is passed over, of the same length: what comes before the first line is played needs as many allocations.
        count, _ = self.counted([*before, second.replace(">", "="), *behind])
        status, said = self.without([*before, second, *behind], place + count - self.count)
        if status or said[: at + 1] != [*self.whole[:at], refused] or said[at + 2 :] != self.whole[at + 1 :]:
            return None
        ended, wanted = said[at + 1], self.whole[at]
        answers = verb == "ask" and ended[1].startswith("= sent ") or ended[1] == wanted[1]
        same = sent(refused) + sent(ended) == sent(wanted) and sides(ended) == sides(wanted)
        return "refused, and played again" if ended[0] == second and line == wanted[0] and answers and same else None


def refuse_each(tried, name):
    """How many allocations were refused, and not answered as they have to be."""
    told, bad = {}, 0
    for place in range(1, tried.count + 1):
        what = tried.what_comes(place)
        if what is None:
            print(f"{name}: allocation {place} refused")
            bad += 1
        else:
            told[what] = told.get(what, 0) + 1
    print(f"{name}: {tried.count} allocations, refused in turn:", ", ".join(f"{told[what]} {what}" for what in sorted(told)))
    return bad


def main(words):
    said, bad = words_of("sockets", words, "at"), 0
    cases = parts(text_of(TOP / "crates" / "app_cases" / "stdin"))
    with library() as made:
        for name, lines in cases.items():
            if name.startswith(tuple(said.names)) and kind_of(lines) == "sockets":
                bad += refuse_each(Tried(said.at, made, [f"== {name}", *script_lines(lines)]), name)
    return int(bad > 0)
