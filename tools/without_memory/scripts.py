"""Scripts of app_cases. Each has to end where an allocation is refused, by `refused Memory` or by status 2, and what was written before has
to be as in the whole run.
"""
import re

from answers import TALLY, kind_of, parts, text_of
from refusal import TOP, count_of, library, places, run, words_of


def answers(ran):
    """What a run wrote, without the line that says what it read."""
    return TALLY.sub("", ran.stdout.decode())


def is_so(whole, ran):
    """Whether a run is the whole one, or ended early for want of memory."""
    if ran.stdout == whole and ran.returncode == 0:
        return True
    written = answers(ran)
    if ran.returncode == 2:
        written = re.sub(r"status 2\n\Z", "", written)
    else:
        written, found = re.subn(r"(?m)^line \d+: refused Memory\nstatus 1\n\Z", "", written)
        if not found:
            return False
    return ran.returncode in (0, 2) and whole.decode().startswith(written)


def refuse_each(program, made, name, text, most):
    """How many allocations were refused that weren't answered so."""
    counted = run(program, made, text, COUNT="1")
    count, bad = count_of(counted), 0
    for place in places(count, most):
        if not is_so(counted.stdout, run(program, made, text, REFUSE=str(place))):
            print(f"{name}: allocation {place} refused")
            bad += 1
    print(f"{name}: {count} allocations, {len(places(count, most))} refused in turn")
    return bad


def main(words):
    said, bad = words_of("scripts", words, "most", "at"), 0
    cases = parts(text_of(TOP / "crates" / "app_cases" / "stdin"))
    with library() as made:
        for name, lines in cases.items():
            if name.startswith(tuple(said.names)) and kind_of(lines) == "script":
                text = "\n".join([f"== {name}", *lines, ""]).encode()
                bad += refuse_each(said.at, made, name, text, said.most)
    return int(bad > 0)
