#!/usr/bin/env python3
"""Draws what happened on the link between two hosts of the simulator, from a script as `./lan` reads it.

    ./flow < SCRIPT > PAGE.html              a page: counts, sequence numbers over time, two lanes with frames as arrows, all bytes
    ./flow text < SCRIPT                     the same rows as lines
    ./flow svg < SCRIPT > FILE.svg           the lanes alone, of the first script
    ./flow [text|svg] only A:49500 < SCRIPT  one connection, by a host and its local port; polls without frames of it are left out

    [--title WORDS] [--program CRATE=FILE]   a page's title; the program to play by, without which the proved one, or a quick build, is taken

SCRIPT is one of `lan`, one of `app_host` (one lane, and the link), or several behind lines `== NAME`, two TCP sockets too. The status is 0,
or 1 where a script ended early; what ran before is drawn.

Read from the script and its answers: which frames were sent and their bytes, deliveries, damage, fragments, noise, calls, and which poll took
a frame (a poll takes waiting frames in order, as many as its budget). Asked of the simulator behind each event: the states of TCP sockets and
when the host wants to be polled. Read from frames: numbers, windows, options, what was a retransmission. Concluded from frames, calls and the
sizes of buffers: why a host wants to be polled, what waits in a socket, who ended a connection. Not known, and not shown: congestion windows, retransmission timeouts, round-trip times; what happens within the lines
`rounds` and `settle`; and how many frames a poll took in which the device's room ran out (those are marked).
"""
import os
import re
import sys

sys.dont_write_bytecode = True
HERE = os.path.dirname(os.path.realpath(__file__))
sys.path[:0] = [HERE, os.path.dirname(HERE)]
from history import History
from only import Only
from page import page, picture
from play import Programs, play_all
from rows import Rows
from svg import shown
from words import counts, ending, errors, lines, remarks


def plain(words):
    """A text for a terminal: what can't be printed is shown by its number."""
    return "".join(char if char in "<>&\"'" else shown(char) for char in words)


def as_text(runs, only):
    for run in runs:
        if run.name is not None:
            yield f"== {run.name}"
        if run.steps:
            history = History(run)
            rows = Rows(history)
            yield from lines(only.rows(rows) if only else rows.rows)
            yield counts(history, only)
            yield from (f"{name}: {words}" for name, words in remarks(history, rows, only))
            yield from (f"Refused: line {number}, `{line}`: {said}" for number, line, said in errors(history))
        if run.ended:
            yield ending(run)


def arguments(words):
    """The mode, the connection, the title and the programs; or why there are none."""
    mode, only, title, programs = "page", None, "What happened on the link", {}
    words = list(words)
    while words:
        word = words.pop(0)
        if word in ("text", "svg"):
            mode = word
        elif word == "only" and words and (found := re.fullmatch(r"([AB]):(\d{1,5})", words[0])):
            only = Only(found[1], int(words.pop(0)[2:]))
        elif word == "--title" and words:
            title = words.pop(0)
        elif word == "--program" and words and "=" in words[0]:
            crate, _, file = words.pop(0).partition("=")
            programs[crate] = file
        else:
            sys.exit(__doc__)
    return mode, only, title, programs


def main():
    mode, only, title, programs = arguments(sys.argv[1:])
    runs = play_all(Programs(programs), sys.stdin.buffer.read().decode(errors="surrogateescape"))
    if mode == "text":
        made = "".join(f"{plain(line)}\n" for line in as_text(runs, only))
    else:
        made = page(runs, title, only) if mode == "page" else picture(runs[0], only)
    sys.stdout.buffer.write(made.encode())
    return int(any(run.ended for run in runs))


if __name__ == "__main__":
    sys.exit(main())
