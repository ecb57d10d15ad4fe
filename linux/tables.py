#!/usr/bin/env python3
"""Runs the rows that set the program of crates/app_tun beside Linux's own stack anew, as root, and writes them into
linux/results/badlink.csv:

    tables.py PUMP HOST [TRIP ..]
    tables.py summary                     without root: in how many rows of the file the host is as quick as Linux

Of these round trips in milliseconds (0 10 50 200), with five seeds, each row in a network namespace of its own (badlink.py):
one after the other, but at 200 ms, where they wait most of the time, all at once. Nothing else should run on the machine. PUMP is
linux/pump.c, built. A row takes the place of the one with its round trip and link, or is added after the last of its round trip. The
variable CONTROL names Linux's congestion control, as for badlink.py.
"""
import csv, os, sys

import badlink

RESULTS = os.path.join(os.path.dirname(os.path.abspath(__file__)), "results", "badlink.csv")
SEEDS, ROWS = 5, {200: 18}


def is_left_out(trip, name):
    """At a long round trip a burst of 40 is longer than all that is in flight: timeouts alone use it up."""
    return trip > 0 and name == "bursts of 40 lost"


def streams(cell):
    """`5 of 5; 0.01 s, 0.02 s`: how many streams came whole, of how many, then the median and the longest in seconds."""
    whole, _, times = cell.partition("; ")
    came, _, of = whole.partition(" of ")
    median, _, longest = times.replace(" s", "").partition(", ")
    return [came, of, median, longest]


def fields(line):
    """The fields of a row that badlink.py prints."""
    trip, name, host, linux, medians, longest = (cell.strip() for cell in line.strip().strip("|").split("|"))
    return [trip.removesuffix(" ms"), name, *streams(host), *streams(linux), medians, longest]


def placed(rows, row):
    """The rows with this one; the first is the head."""
    for i, it in enumerate(rows):
        if it[:2] == row[:2]:
            return [*rows[:i], row, *rows[i + 1:]]
    behind = max((i for i, it in enumerate(rows) if i > 0 and int(it[0]) <= int(row[0])), default=0)
    return [*rows[:behind + 1], row, *rows[behind + 1:]]


def put(line):
    with open(RESULTS, encoding="utf-8", newline="") as it:
        rows = list(csv.reader(it))
    with open(RESULTS, "w", encoding="utf-8", newline="") as it:
        csv.writer(it, lineterminator="\n").writerows(placed(rows, fields(line)))


def summary():
    """Of each round trip: how many rows, in how many the host's median is at most Linux's, and at most half as long again."""
    with open(RESULTS, encoding="utf-8", newline="") as it:
        rows = list(csv.reader(it))[1:]
    for trip in dict.fromkeys(row[0] for row in rows):
        ratios = [float(row[10]) for row in rows if row[0] == trip and row[10] != "none"]
        whole = sum(int(row[2]) for row in rows if row[0] == trip), sum(int(row[3]) for row in rows if row[0] == trip)
        print(f"{trip} ms: {len(ratios)} rows, at most 1.0 in {sum(r <= 1.0 for r in ratios)}, at most 1.5 in "
              f"{sum(r <= 1.5 for r in ratios)}; streams whole: {whole[0]} of {whole[1]}")


def main():
    if sys.argv[1:] == ["summary"]:
        return summary()
    pump, program, *trips = sys.argv[1:]
    rows = []
    for trip in map(int, trips or (0, 10, 50, 200)):
        links = [link for link in badlink.links(trip) if not is_left_out(trip, link[0])]
        for name, medians, line in badlink.rows_of(pump, program, SEEDS, 200_000, trip, links, ROWS.get(trip, 1), True):
            rows.append((name, medians))
            put(line)
    badlink.summary(rows)


if __name__ == "__main__":
    main()
