"""Python's construct over an export of intervals: intervals.py FILE TIMES. Parses the file's bytes so many times and takes every number of each
interval; prints how many are whole, 1 or 0 for whether one is cut at the end, and the sums over those that are whole of the first counters, of the
second, and of the uses."""

import sys

from construct import Computed, GreedyBytes, GreedyRange, Int16ub, Struct, this

INTERVAL = Struct(
    "first" / Int16ub,
    "second" / Int16ub,
    "used" / Computed((this.second - this.first) % 65536),
)

# A range ends before the interval that is cut, whose bytes are the rest. Compiled, an interval takes a third of the time.
EXPORT = Struct("intervals" / GreedyRange(INTERVAL.compile()), "rest" / GreedyBytes)


def read_export(stored):
    export = EXPORT.parse(stored)
    whole = export.intervals
    cut = 1 if export.rest else 0
    return len(whole), cut, sum(i.first for i in whole), sum(i.second for i in whole), sum(i.used for i in whole)


def main():
    name, times = sys.argv[1:]
    with open(name, "rb") as file:
        stored = file.read()
    said = ()
    for _ in range(int(times)):
        said = read_export(stored)
    print(*said)


main()
