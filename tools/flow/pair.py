"""Plays a case of two TCP sockets, which have nothing between them but the events of the case.

Of `ask` and `burst` the program writes only what came of them; so they are played once more as the `offer` and `deliver` lines that they
stand for, which are answered one by one. What is sent within `rounds` and `settle` isn't written, and isn't drawn.
"""
import re

from play import Run, Step, number

SIDE = re.compile(r"([AB]) (\S+) recv_queue (\d+) send_queue (\d+) at (\S+)")


def blocks(output):
    """The answers to the events, as pairs of the event's line and the lines behind it."""
    found = []
    for line in output:
        if line.startswith("> "):
            found.append((line, []))
        elif found and line:
            found[-1][1].append(line)
    return found


def singly(line, answers):
    """The events that an event stands for."""
    words = line.split(" ")
    if words[1] == "ask" and (sent := re.match(r"= sent (\d+)", (answers or [""])[0])):
        return [f"> offer {words[2]} {words[3]} sent"] * (int(sent[1]) + 1)
    if words[1] == "burst" and None not in (bounds := [number(word) for word in words[3:5]]):
        return [f"> deliver {words[2]} {k}" for k in range(bounds[0], min(bounds[1] + 1, bounds[0] + 10_000))]
    return [line]


def step_of(place, line, answers, moments):
    """The step of an event."""
    words = line.split(" ")[1:]
    if words[0] in ("offer", "ask", "clock") and len(words) > 2 and number(words[2]) is not None:
        moments[words[1]] = number(words[2])
    said = next((answer[2:] for answer in answers if answer.startswith("= ")), "")
    step = Step(place, " ".join(words), said)
    for answer in answers:
        if answer.startswith("sent "):
            _, host, count, data = answer.split(" ")
            step.sent.append((host, int(count), bytes.fromhex(data)))
        if side := SIDE.fullmatch(answer):
            step.states[side[1], 0] = side[2]
            step.queues[side[1]] = int(side[3]), int(side[4])
            step.wakes[side[1]] = {"ingress": None, "now": moments[side[1]]}.get(side[5], number(side[5]))
    return step


def play_pair(programs, name, lines):
    """Plays a case of two sockets."""
    case = [line for line in lines if not line.startswith(("=", "sent", "A", "B"))]
    first, _ = programs.play("app_cases", ["== case", *case])
    expanded = case[:1]
    places = []
    events = blocks(first)
    for place, line in enumerate(case[1:], 1):
        answers = events[place - 1][1] if place <= len(events) else []
        made = singly(line, answers)
        expanded += made
        places += [place] * len(made)
    output, status = programs.play("app_cases", ["== case", *expanded])
    run = Run(name, "pair", "tcp", case[:1], [], status=status)
    moments = {"A": 0, "B": 0}
    for place, (line, answers) in zip(places, blocks(output)):
        step = step_of(place, line, answers, moments)
        if step.said != "silent" or not run.steps or run.steps[-1].number != place:
            run.steps.append(step)
    ended = [line for line in output if re.match(r"line \d+: ", line)]
    run.ended = re.sub(r"^line \d+", f"event {len(run.steps) + 1}", ended[0]) if ended else None
    return run
