#!/usr/bin/env python3
"""Builds a long random journal for a year book, and what each event must be answered with.

    python3 tools/journals.py         writes crates/journals/stdin and crates/journals/stdout

Each event is a piece of 32 bytes: a record of a fuel, a unit, a burn or a
strike as docs/FORMATS.md has it, or the letter R (restart the walk) or N (the
next unit) and 31 zero bytes. The answers come from the plain book of
tools/reference.py and from a walk that is no more than an index: an accepted
entry or strike and a restart put it to the start, a refused one leaves it, and
a next takes one step.
"""

import sys

sys.dont_write_bytecode = True

import pathlib
import random

from record import burn, fuel, strike, unit
from reference import Refused, YearBook

FOLDER = pathlib.Path(__file__).resolve().parent.parent / "crates" / "journals"

RESTART = b"R" + bytes(31)
NEXT = b"N" + bytes(31)

DAYS = [19000101, 19000228, 20000229, 20121231, 20200101, 20200101, 20200102, 20991231]


class Journal:
    """The events so far, the plain book, and the place of the walk."""

    def __init__(self, seed):
        self.random = random.Random(seed)
        self.events, self.lines = [], []
        self.book, self.at = YearBook(), 0

    def enter(self, record, change, *arguments):
        self.events.append(record)
        try:
            change(*arguments)
        except Refused as refused:
            self.lines.append("NO %02d LAYER %d PLACE %d" % (refused.rule, refused.layer, refused.place))
        else:
            self.lines.append("OK")
            self.at = 0

    def fuel(self, code, heat, carbon):
        self.enter(fuel(code, heat, carbon), self.book.add_fuel, code, heat, carbon)

    def unit(self, code, day, generation, power_class=0, efficiency=0, default=0):
        self.enter(unit(code, day, generation, power_class, efficiency, default),
                   self.book.add_unit, code, day, power_class, generation, efficiency, default)

    def burn(self, unit_code, fuel_code, quantity):
        self.enter(burn(unit_code, fuel_code, quantity), self.book.add_burn, unit_code, fuel_code, quantity)

    def strike(self, code):
        self.enter(strike(code), self.book.strike, code)

    def restart(self):
        self.events.append(RESTART)
        self.lines.append("OK")
        self.at = 0

    def next(self):
        self.events.append(NEXT)
        units = self.book.units()
        if self.at >= len(units):
            self.lines.append("END")
            return
        told = units[self.at]
        self.at += 1
        default = "-" if told.default_grams is None else told.default_grams
        self.lines.append("UNIT %d %d %d %d %d %s" % (
            told.code, told.day, told.power_class, told.generation, told.grams, default))

    def whole_walk(self):
        self.restart()
        for _ in range(len(self.book.entries) + 2):
            self.next()

    # One random event; `codes` are the unit codes in play, so that they collide.
    def some_event(self, codes, fuels):
        pick = self.random
        kind = pick.choices("FUBSRN", [4, 24, 30, 8, 2, 32])[0]
        if kind == "F":
            self.fuel(pick.choice(fuels), pick.choice([0, 1, 25_800, 43_000, 100_000, 100_001]),
                      pick.choice([0, 1, 56_100, 94_600, 320_000, 320_001]))
        elif kind == "U":
            self.unit(pick.choice(codes), pick.choice(DAYS + [20230229]),
                      pick.choice([0, 1, 3, 1_000, 100_000_000, 100_000_001]), pick.choice([0, 0, 1, 2, 3, 4]),
                      pick.choice([0, 0, 0, 116, 380, 1_000, 115]), pick.choice([0, 0, 116, 555, 1_000, 1_001]))
        elif kind == "B":
            self.burn(pick.choice(codes), pick.choice(fuels),
                      pick.choice([0, 1, 3, 400, 7_777, 10_000_000, 10_000_001]))
        elif kind == "S":
            self.strike(pick.choice(codes))
        elif kind == "R":
            self.restart()
        else:
            self.next()


def build():
    journal = Journal(20240630)
    # Few codes, so that units are struck and entered again, and tables of burns fill up.
    for _ in range(1_200):
        journal.some_event([0, 1, 2, 3, 4, 5, 6, 7, 65_535], [0, 1, 2, 3, 4, 5, 6])
    journal.whole_walk()
    # Many codes: entries amid walks through a longer list.
    for _ in range(1_200):
        journal.some_event(list(range(60)), list(range(9)))
    journal.whole_walk()
    # The table of fuels and the table of units to their last places.
    for code in range(1, 70):
        journal.fuel(code, 1 + code, 1 + code)
    for code in range(100, 1_110):
        journal.unit(code, DAYS[code % len(DAYS)], code, code % 4, 0, 0)
    journal.strike(555)
    journal.unit(2_000, 20200101, 5)
    journal.unit(555, 20200101, 5)
    journal.restart()
    for _ in range(40):
        journal.next()
    return journal


def main():
    journal = build()
    FOLDER.mkdir(parents=True, exist_ok=True)
    (FOLDER / "stdin").write_bytes(b"".join(journal.events))
    (FOLDER / "stdout").write_text("".join(line + "\n" for line in journal.lines))
    rules = sorted({line[:5] for line in journal.lines})
    print("%d events; answers of the kinds %s" % (len(journal.events), ", ".join(rules)))


if __name__ == "__main__":
    main()
