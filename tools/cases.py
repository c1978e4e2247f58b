#!/usr/bin/env python3
"""Builds the file of test streams and the lines each of them must print.

    python3 tools/cases.py            writes crates/cases/stdin and crates/cases/stdout
    python3 tools/cases.py --list     also prints the number and title of each case

crates/cases/stdin holds, for each case, the length of its stream as four
bytes (big-endian) and then the stream. crates/cases/stdout holds, for each
case, the line `CASE nnnn` and then every line that the stream prints, as
tools/reference.py computes it.

Most cases written out below also state their lines by hand; the program
stops if the reference disagrees. All streams keep to what `reckon` takes at
present: F, U, B and S records and questions by the average method (a question
by another method only with a bad day, an H or Y record only when it is filled
or follows a question). The program stops if one does not.
"""

import sys

sys.dont_write_bytecode = True

import pathlib
import random

import reference
from record import (ADJUSTED, AVERAGE, SIMPLE, WORKED_LINES, burn, fuel, loads,
                    packed, question, strike, unit, worked_example, year)

FOLDER = pathlib.Path(__file__).resolve().parent.parent / "crates" / "cases"

CASES = []                           # (title, stream, lines or None)


def case(title, *records, expect=None):
    lines = None if expect is None else "".join(line + "\n" for line in expect)
    CASES.append((title, b"".join(records), lines))


def no(rule, layer, place=0):
    """A refusal's line."""
    return "NO %02d LAYER %d PLACE %010d" % (rule, layer, place)


def cm(combined, operating, build, number, kept=0, registered=0, back=0):
    """An answer's line."""
    return "CM %08d OM %08d BM %08d SET %d %04d %04d %04d" % (
        combined, operating, build, number, kept, registered, back)


def ask(day=20240630, weight_om=50, weight_bm=50):
    """A question by the average method."""
    return question(AVERAGE, weight_om, weight_bm, day)


# The operating margin alone; over an empty book it is refused for no share.
OPERATING = ask(weight_om=100, weight_bm=0)
EMPTY = no(18, 6)
ZERO_ALONE = cm(0, 0, 0, 0)

# Two fuels that make emissions easy to read: one unit of fuel 1 is one gram,
# one unit of fuel 2 is one milligram. Both have a carbon factor of 1 g/GJ.
GRAM = fuel(1, 1_000, 1)
MILLIGRAM = fuel(2, 1, 1)


def plant(code, day, generation, grams=None, power_class=0, efficiency=0, default=0):
    """A unit and, if grams are given, a burn of so many grams of fuel 1."""
    records = unit(code, day, generation, power_class, efficiency, default)
    return records if grams is None else records + burn(code, 1, grams)


# --------------------------------------------------------------------------
# The intake: pieces, kinds, filler bytes, the two phases.

def intake_cases():
    case("worked example", worked_example(), expect=WORKED_LINES.splitlines())
    case("empty stream", expect=[])
    case("one byte", b"Q", expect=[no(1, 1, 0)])
    case("31 bytes of a question", OPERATING[:31], expect=[no(1, 1, 0)])
    case("31 zero bytes", bytes(31), expect=[no(1, 1, 0)])
    case("32 zero bytes", bytes(32), expect=[no(1, 1, 0)])
    case("33 bytes", unit(1, 20200101, 1) + b"Q", expect=[no(1, 1, 1)])
    case("33 bytes after a question", OPERATING + b"F", expect=[EMPTY, no(1, 1, 1)])
    case("a short last piece after three entries", GRAM, MILLIGRAM,
         unit(1, 20200101, 1), burn(1, 1, 1)[:20], expect=[no(1, 1, 3)])
    case("lower-case letters are of another kind",
         *[bytes([letter]) + bytes(31) for letter in b"fubshyqp"],
         expect=[no(1, 1, place) for place in range(8)])
    case("a packed record is of another kind, before and after a question",
         packed(1, 20200101, 0, 5, 7), packed(1, 20200101, 0, 5, 7, 9), OPERATING,
         packed(1, 20200101, 0, 5, 7), packed(1, 0, 4, 5, 7),
         expect=[no(1, 1, 0), no(1, 1, 1), EMPTY, no(1, 1, 3), no(1, 1, 4)])

    kinds = [bytes([first]) + bytes(31) for first in range(256) if first != ord("H")]
    expect = []
    for place, record in enumerate(kinds):
        kind = chr(record[0])
        if kind in "FUBS":
            expect.append(no(3, 2) if kind < "Q" else no(2, 1, place))
        elif kind == "Q":
            expect.append(no(4, 8))
        elif kind == "Y":
            expect.append(no(2, 1, place))
        else:
            expect.append(no(1, 1, place))
    case("every first byte, the rest zero", *kinds, expect=expect)

    # Each filler byte of each kind set, one at a time.
    whole = {
        "F": (fuel(3, 1, 1), [1, *range(12, 32)]),
        "U": (unit(3, 20200101, 1), [*range(16, 32)]),
        "B": (burn(3, 3, 1), [1, 6, 7, *range(12, 32)]),
        "S": (strike(3), [1, *range(4, 32)]),
        "H": (loads(3, [1] * 6), [1, 4, 5, 6, 7]),
        "Y": (year(3, 1, 1), [2, 3, *range(12, 32)]),
        "Q": (ask(), [*range(8, 32)]),
    }
    filled = []
    for record, fillers in whole.values():
        for at in fillers:
            one = bytearray(record)
            one[at] = 1 if at % 2 else 128
            filled.append(bytes(one))
    case("filler bytes set, one at a time; the gathering goes on", *filled,
         unit(4, 20200101, 1), OPERATING,
         expect=[no(1, 1, place) for place in range(len(filled))] + [ZERO_ALONE])
    some = filled[::9]
    case("filler bytes set after a question", OPERATING, *some,
         expect=[EMPTY] + [no(1, 1, place + 1) for place in range(len(some))])

    filled_question = bytearray(ask())
    filled_question[31] = 1
    case("a filled question does not end the gathering",
         bytes(filled_question), unit(1, 20200101, 1), OPERATING, unit(2, 20200101, 1),
         expect=[no(1, 1, 0), ZERO_ALONE, no(2, 1, 3)])
    case("a filled question by another method is filled",
         bytes([ord("Q"), SIMPLE, 50, 50]) + bytes(27) + b"\1",
         bytes([ord("Q"), ADJUSTED, 50, 50]) + bytes(27) + b"\1",
         expect=[no(1, 1, 0), no(1, 1, 1)])
    for title, record, line in [
            ("bad day", question(AVERAGE, 50, 50, 20230229), no(4, 8)),
            ("bad method byte", question(0, 50, 50, 20240630), no(5, 1)),
            ("bad weights", question(AVERAGE, 50, 51, 20240630), no(6, 8)),
            ("no share", OPERATING, EMPTY)]:
        case("a question refused for %s ends the gathering" % title,
             record, unit(1, 20200101, 1), OPERATING,
             expect=[line, no(2, 1, 1), EMPTY])
    case("every kind of entry after a question", OPERATING,
         fuel(1, 1, 1), unit(1, 20200101, 1), burn(1, 1, 1), strike(1),
         loads(0, [1] * 6), year(0, 1, 1),
         expect=[EMPTY] + [no(2, 1, place) for place in range(1, 7)])
    case("entries that break further rules are refused as coming after a question",
         OPERATING, fuel(0, 0, 0), unit(0, 0, 0), burn(0, 0, 0), strike(0),
         loads(65_535, [2**32 - 1] * 6), year(255, 9, 1), OPERATING, fuel(1, 1, 1),
         expect=[EMPTY] + [no(2, 1, place) for place in range(1, 7)]
         + [EMPTY, no(2, 1, 8)])
    case("many questions", plant(1, 20200101, 10), *[OPERATING] * 5,
         expect=[ZERO_ALONE] * 5)


# --------------------------------------------------------------------------
# Fuels, units, burns, strikes: each limit on both sides.

def entry_cases():
    def fuel_case(title, code, heat, carbon, rule):
        # A burn shows whether the fuel was put in.
        probe = burn(1, code, 0)
        if rule is None:
            expect = [ZERO_ALONE]
        elif code == 0:
            expect = [no(rule, 2, 0), no(3, 2, 1), ZERO_ALONE]
        else:
            expect = [no(rule, 2, code), no(9, 2, code), ZERO_ALONE]
        case("fuel: " + title, fuel(code, heat, carbon), unit(1, 20200101, 10),
             probe, OPERATING, expect=expect)

    fuel_case("code 0", 0, 1, 1, 3)
    fuel_case("code 0 and everything else wrong", 0, 0, 2**32 - 1, 3)
    fuel_case("code 1", 1, 1, 1, None)
    fuel_case("code 65,535", 65_535, 1, 1, None)
    fuel_case("heat content 0", 9, 0, 1, 5)
    fuel_case("heat content 1", 9, 1, 1, None)
    fuel_case("heat content 100,000", 9, 100_000, 1, None)
    fuel_case("heat content 100,001", 9, 100_001, 1, 5)
    fuel_case("heat content 2^32 - 1", 9, 2**32 - 1, 1, 5)
    fuel_case("carbon factor 0", 9, 1, 0, None)
    fuel_case("carbon factor 320,000", 9, 1, 320_000, None)
    fuel_case("carbon factor 320,001", 9, 1, 320_001, 5)
    fuel_case("carbon factor 2^32 - 1", 9, 1, 2**32 - 1, 5)
    case("fuel: already stands, and keeps its first numbers",
         fuel(1, 1_000, 1), fuel(1, 1_000, 2), unit(1, 20200101, 1), burn(1, 1, 5), OPERATING,
         expect=[no(8, 2, 1), cm(5, 5, 0, 0)])
    case("fuel: out of range before already stands",
         fuel(7, 1, 1), fuel(7, 0, 1), fuel(7, 1, 320_001), fuel(7, 1, 1),
         expect=[no(5, 2, 7), no(5, 2, 7), no(8, 2, 7)])
    case("fuel: a unit may have a fuel's code", fuel(5, 1_000, 1), unit(5, 20200101, 1),
         burn(5, 5, 3), OPERATING, expect=[cm(3, 3, 0, 0)])
    case("fuel: 64 stand, the 65th is refused",
         *[fuel(code, 1_000, code) for code in range(1, 65)],
         fuel(65, 1, 1), fuel(64, 1, 1), fuel(65, 0, 1), fuel(0, 1, 1),
         unit(1, 20200101, 1), burn(1, 64, 2), burn(1, 65, 2), burn(1, 1, 3), OPERATING,
         expect=[no(10, 2, 65), no(8, 2, 64), no(5, 2, 65), no(3, 2, 0),
                 no(9, 2, 65), cm(131, 131, 0, 0)])

    def unit_case(title, rule, code=7, day=20200101, generation=10, **rest):
        expect = [ZERO_ALONE] if rule is None else [no(rule, 2, code), EMPTY]
        case("unit: " + title, unit(code, day, generation, **rest), OPERATING, expect=expect)

    unit_case("code 0", 3, code=0)
    unit_case("code 0 and everything else wrong", 3, code=0, day=0, generation=0,
              power_class=9, efficiency=1, default=1)
    unit_case("code 1", None, code=1)
    unit_case("code 65,535", None, code=65_535)
    for power_class in range(4):
        unit_case("class %d" % power_class, None, power_class=power_class)
    for power_class in (4, 5, 6, 7, 8, 128, 255):
        unit_case("class %d" % power_class, 5, power_class=power_class)
    unit_case("class 4 with day 0 is refused for its day", 4, day=0, power_class=4)
    unit_case("class 5 with a bad day is refused for its day", 4, day=20230229, power_class=5)
    unit_case("generation 0", 5, generation=0)
    unit_case("generation 1", None, generation=1)
    unit_case("generation 100,000,000", None, generation=100_000_000)
    unit_case("generation 100,000,001", 5, generation=100_000_001)
    unit_case("generation 2^32 - 1", 5, generation=2**32 - 1)
    for name in ("efficiency", "default"):
        for value in (0, 116, 117, 999, 1_000):
            unit_case("%s %d" % (name, value), None, **{name: value})
        for value in (1, 115, 1_001, 65_535):
            unit_case("%s %d" % (name, value), 5, **{name: value})
    for day in GOOD_DAYS:
        unit_case("day %d" % day, None, day=day)
    case("unit: days that are none, each told with its unit",
         *[unit(100 + at, day, 10) for at, day in enumerate(BAD_DAYS)], OPERATING,
         expect=[no(4, 2, 100 + at) for at in range(len(BAD_DAYS))] + [EMPTY])
    case("unit: the day before the ranges, the code before the day",
         unit(0, 0, 0), unit(1, 0, 0), unit(1, 20200101, 0), unit(1, 20200101, 1),
         unit(1, 0, 1), unit(1, 20200101, 0), unit(1, 20200101, 1),
         expect=[no(3, 2, 0), no(4, 2, 1), no(5, 2, 1), no(4, 2, 1), no(5, 2, 1), no(8, 2, 1)])
    case("unit: already stands, and keeps its first numbers", GRAM,
         plant(3, 20200101, 10, grams=50), unit(3, 20210101, 1), OPERATING, ask(),
         expect=[no(8, 2, 3), cm(5, 5, 0, 0), cm(5, 5, 5, 1, 1)])

    case("burn: code 0 of the unit, of the fuel, of both", GRAM, plant(7, 20200101, 10),
         burn(0, 1, 1), burn(7, 0, 1), burn(0, 0, 1), burn(7, 0, 2**32 - 1), burn(8, 0, 1), OPERATING,
         expect=[no(3, 2, 0), no(3, 2, 7), no(3, 2, 0), no(3, 2, 7), no(3, 2, 8), ZERO_ALONE])
    case("burn: quantity at its limit", fuel(1, 1, 0), plant(7, 20200101, 10),
         burn(7, 1, 10_000_001), burn(7, 1, 2**32 - 1), burn(7, 1, 10_000_000),
         burn(7, 1, 0), OPERATING,
         expect=[no(5, 2, 7), no(5, 2, 7), no(8, 2, 7), ZERO_ALONE])
    case("burn: out of range before anything that stands or does not",
         burn(7, 1, 10_000_001), GRAM, plant(7, 20200101, 10, grams=1),
         burn(7, 1, 10_000_001), burn(7, 9, 10_000_001), burn(9, 1, 10_000_001),
         expect=[no(5, 2, 7), no(5, 2, 7), no(5, 2, 7), no(5, 2, 9)])
    case("burn: the unit, or else the fuel, does not stand",
         burn(7, 1, 1), GRAM, burn(7, 1, 1), plant(7, 20200101, 10), burn(7, 3, 1),
         burn(8, 3, 1), burn(7, 1, 20), OPERATING,
         expect=[no(9, 2, 7), no(9, 2, 7), no(9, 2, 3), no(9, 2, 8), cm(2, 2, 0, 0)])
    case("burn: the same fuel in the same unit, and in another",
         GRAM, plant(7, 20200101, 10, grams=20), plant(8, 20200101, 10, grams=40),
         burn(7, 1, 20), burn(8, 1, 1), OPERATING,
         expect=[no(8, 2, 7), no(8, 2, 8), cm(3, 3, 0, 0)])
    fuels = [fuel(code, 1_000, 1) for code in range(1, 7)]
    case("burn: four stand, the fifth is refused", *fuels, plant(7, 20200101, 10),
         burn(7, 1, 10), burn(7, 2, 10), burn(7, 3, 10), burn(7, 4, 10),
         burn(7, 5, 10), burn(7, 4, 10), burn(7, 9, 10), burn(7, 5, 10_000_001),
         burn(7, 0, 10), OPERATING,
         expect=[no(10, 2, 7), no(8, 2, 7), no(9, 2, 9), no(5, 2, 7), no(3, 2, 7), cm(4, 4, 0, 0)])
    case("burn: four burns of quantity 0 fill the table", *fuels, plant(7, 20200101, 10),
         *[burn(7, code, 0) for code in range(1, 6)], OPERATING,
         expect=[no(10, 2, 7), ZERO_ALONE])
    case("burn: a full table before an emission above the limit", *fuels, fuel(9, 100_000, 320_000),
         plant(7, 20200101, 1), *[burn(7, code, 1) for code in range(1, 5)],
         burn(7, 9, 10_000_000), strike(7), plant(7, 20200101, 1), burn(7, 9, 10_000_000),
         expect=[no(10, 2, 7), no(11, 2, 7)])
    case("burn: an emission above the limit puts nothing in", fuel(1, 1_000, 1_000), fuel(2, 1_000, 1),
         plant(7, 20200101, 1), burn(7, 1, 10_001), burn(7, 2, 3), OPERATING,
         expect=[no(11, 2, 7), cm(3, 3, 0, 0)])
    case("burn: an emission exactly at the limit", fuel(1, 1_000, 1_000), plant(7, 20200101, 1),
         burn(7, 1, 10_000), OPERATING, expect=[cm(10_000_000, 10_000_000, 0, 0)])
    case("burn: one fuel unit above the limit", fuel(1, 1_000, 1_000), plant(7, 20200101, 1),
         burn(7, 1, 10_001), OPERATING, expect=[no(11, 2, 7), ZERO_ALONE])
    case("burn: a milligram above the limit, before rounding", fuel(1, 1_000, 1_000), MILLIGRAM,
         plant(7, 20200101, 1), burn(7, 1, 10_000), burn(7, 2, 1), burn(7, 2, 0), OPERATING,
         expect=[no(11, 2, 7), cm(10_000_000, 10_000_000, 0, 0)])
    case("burn: a milligram below the limit rounds up to it", fuel(1, 1_000, 1_000), fuel(2, 1, 1),
         plant(7, 20200101, 1), burn(7, 1, 9_999), burn(7, 2, 999_999), OPERATING,
         expect=[cm(10_000_000, 10_000_000, 0, 0)])
    case("burn: the limit grows with generation", fuel(1, 1_000, 1_000), plant(7, 20200101, 2),
         burn(7, 1, 20_000), plant(8, 20200101, 2), burn(8, 1, 20_001), OPERATING,
         expect=[no(11, 2, 8), cm(5_000_000, 5_000_000, 0, 0)])
    big = [fuel(code, 100_000, 320_000) for code in (1, 2, 3)]
    case("burn: the greatest emission, 10^15 g", *big, fuel(4, 100_000, 40_000),
         plant(7, 20200101, 100_000_000), *[burn(7, code, 10_000_000) for code in (1, 2, 3, 4)],
         OPERATING, ask(),
         expect=[cm(10_000_000, 10_000_000, 0, 0), cm(10_000_000, 10_000_000, 10_000_000, 1, 1)])
    case("burn: just above the greatest emission", *big, fuel(4, 100_000, 40_001),
         plant(7, 20200101, 100_000_000), *[burn(7, code, 10_000_000) for code in (1, 2, 3, 4)],
         OPERATING, expect=[no(11, 2, 7), cm(9_600_000, 9_600_000, 0, 0)])
    case("burn: no limit on the fuel where an efficiency stands", fuel(1, 100_000, 320_000),
         plant(7, 20200101, 1, efficiency=116), burn(7, 1, 10_000_000), OPERATING,
         expect=[cm(9_931_034, 9_931_034, 0, 0)])

    case("strike: code 0", strike(0), expect=[no(3, 2, 0)])
    case("strike: does not stand", strike(7), plant(8, 20200101, 10), strike(7), strike(65_535), OPERATING,
         expect=[no(9, 2, 7), no(9, 2, 7), no(9, 2, 65_535), ZERO_ALONE])
    case("strike: the unit goes with its burns, the fuel stays", GRAM,
         plant(7, 20200101, 10, grams=50), plant(8, 20200101, 10, grams=10), strike(7), burn(7, 1, 1),
         OPERATING, expect=[no(9, 2, 7), cm(1, 1, 0, 0)])
    case("strike: twice", plant(7, 20200101, 10), strike(7), strike(7), OPERATING,
         expect=[no(9, 2, 7), EMPTY])
    case("strike: entered again without burns", GRAM, plant(7, 20200101, 10, grams=50), strike(7),
         plant(7, 20200101, 10), OPERATING, expect=[ZERO_ALONE])
    case("strike: entered again with the same fuel", GRAM, plant(7, 20200101, 10, grams=50), strike(7),
         plant(7, 20200101, 10, grams=30), OPERATING, expect=[cm(3, 3, 0, 0)])
    case("strike: entered again with another day moves in the order", GRAM,
         *[plant(code, 20200100 + code, 10, grams=10 * code) for code in range(1, 7)],
         strike(1), plant(1, 20200131, 10, grams=10),
         strike(6), plant(6, 20190101, 10, grams=1_000), ask(20240630, 0, 100),
         expect=[cm(3, 19, 3, 1, 5)])
    case("strike: a fuel still stands after its last unit went", GRAM, plant(1, 20200101, 1, grams=1),
         strike(1), fuel(1, 1_000, 1), expect=[no(8, 2, 1)])
    case("strike: every unit, then no share", plant(1, 20200101, 1), plant(2, 20200101, 1),
         strike(2), strike(1), ask(), expect=[EMPTY])

    # The table of units: 1,000 stand, a strike frees one place.
    records = [unit(1 + 7 * at % 1_000, 20000101 + 10_000 * (at % 20), 1 + at % 50) for at in range(1_000)]
    case("unit: 1,000 stand, the 1,001st is refused, a struck place is used again",
         GRAM, *records, unit(2_000, 20200101, 1), unit(500, 20200101, 1), unit(2_000, 20200101, 0),
         burn(500, 1, 123), burn(2_000, 1, 1), strike(300), unit(2_000, 20200101, 1), unit(300, 20200101, 1),
         burn(2_000, 1, 77_777), strike(2_000), unit(300, 20210101, 3), burn(300, 1, 40_000), unit(2_000, 20200101, 1),
         ask(20240630), ask(20140630), ask(20300101))
    case("unit: small new units make a long sample group", GRAM,
         *[unit(code, 20200101, 1) for code in range(1, 202)], plant(999, 20190101, 800, grams=8_000), ask(),
         expect=[cm(4, 8, 0, 1, 201)])


GOOD_DAYS = [19000101, 19000228, 20000229, 20240229, 20231231, 20230430, 20991231]
BAD_DAYS = [0, 1, 101, 18991231, 19000100, 19000229, 19001301, 20230001, 20230100, 20230132,
            20230229, 20230230, 20230431, 20230631, 20230931, 20231131, 20231232, 20231301,
            20240230, 20990229, 20991232, 20991301, 21000101, 21000229, 99991231, 2**31, 2**32 - 1]


# --------------------------------------------------------------------------
# Emissions and rounding.

def emission_cases():
    case("rounding: 499 mg is 0 g", MILLIGRAM, unit(1, 20200101, 1), burn(1, 2, 499), OPERATING,
         expect=[ZERO_ALONE])
    case("rounding: 500 mg is 1 g", MILLIGRAM, unit(1, 20200101, 1), burn(1, 2, 500), OPERATING,
         expect=[cm(1, 1, 0, 0)])
    case("rounding: two burns of 250 mg are added before rounding", MILLIGRAM, fuel(3, 1, 1),
         unit(1, 20200101, 1), burn(1, 2, 250), burn(1, 3, 250), OPERATING, expect=[cm(1, 1, 0, 0)])
    case("rounding: two units of 499 mg stay 0 g", MILLIGRAM, unit(1, 20200101, 1), burn(1, 2, 499),
         unit(2, 20200101, 1), burn(2, 2, 499), OPERATING, expect=[ZERO_ALONE])
    case("rounding: grams per unit first, then the mean", MILLIGRAM,
         unit(1, 20200101, 1), burn(1, 2, 500), unit(2, 20200101, 1), OPERATING,
         expect=[cm(1, 1, 0, 0)])
    case("rounding: a third down, two thirds up", GRAM, unit(1, 20200101, 3), burn(1, 1, 1), OPERATING,
         expect=[ZERO_ALONE])
    case("rounding: two thirds", GRAM, unit(1, 20200101, 3), burn(1, 1, 2), OPERATING,
         expect=[cm(1, 1, 0, 0)])
    case("efficiency: 10 MWh, 94,600 g/GJ, 380 per mille give 8,962,105 g", fuel(1, 25_800, 94_600),
         plant(1, 20200101, 10, grams=1, efficiency=380), OPERATING,
         expect=[cm(896_211, 896_211, 0, 0)])
    case("efficiency: the quantity does not matter", fuel(1, 25_800, 94_600),
         plant(1, 20200101, 10, grams=0, efficiency=380), OPERATING,
         expect=[cm(896_211, 896_211, 0, 0)])
    case("efficiency: the lowest carbon factor counts, also of a burn of 0", fuel(1, 1, 9), fuel(2, 1, 5), fuel(3, 1, 7),
         unit(1, 20200101, 10, efficiency=1_000), burn(1, 1, 1), burn(1, 2, 0), burn(1, 3, 1), OPERATING,
         expect=[cm(18, 18, 0, 0)])
    case("efficiency: a carbon factor of 0 gives 0", fuel(1, 1, 9), fuel(2, 1, 0),
         unit(1, 20200101, 10, efficiency=1_000), burn(1, 1, 1), burn(1, 2, 1), OPERATING, expect=[ZERO_ALONE])
    case("efficiency: without burns 0", unit(1, 20200101, 10, efficiency=116), OPERATING, expect=[ZERO_ALONE])
    case("efficiency: generation cancels but for the rounding", fuel(1, 1, 1),
         plant(1, 20200101, 7, grams=0, efficiency=900), OPERATING, expect=[cm(4, 4, 0, 0)])
    case("average: every unit counts, of every class", GRAM,
         *[plant(code, 20200101, 10, grams=100 * code, power_class=code - 1) for code in range(1, 5)],
         OPERATING, expect=[cm(25, 25, 0, 0)])
    case("average: weighted by generation", GRAM, plant(1, 20200101, 1, grams=100), plant(2, 20200101, 99),
         OPERATING, expect=[cm(1, 1, 0, 0)])


# --------------------------------------------------------------------------
# Questions: days, weights, method bytes.

def question_cases():
    book = GRAM + plant(1, 20200101, 10, grams=20)
    case("question: days that are none", book, *[ask(day) for day in BAD_DAYS],
         expect=[no(4, 8)] * len(BAD_DAYS))
    for day in GOOD_DAYS:
        old = 20200101 + 100_000 < day
        case("question: day %d" % day, GRAM, plant(1, 20200101, 10, grams=20, default=1_000), ask(day),
             expect=[cm(3, 2, 4, 3, 0, 0, 1) if old else cm(2, 2, 2, 1, 1)])
    case("question: a bad day with no build margin", book, ask(20230229, 100, 0), ask(0, 100, 0),
         expect=[no(4, 8), no(4, 8)])
    case("question: weights that do not total 100", book,
         *[ask(20240630, *weights) for weights in
           [(0, 0), (50, 49), (50, 51), (101, 0), (0, 101), (99, 0), (0, 99),
            (200, 156), (156, 200), (255, 255), (255, 101), (101, 255), (228, 128)]],
         expect=[no(6, 8)] * 13)
    case("question: every pair of weights at the ends", book,
         *[ask(20240630, 100 - weight, weight) for weight in (0, 1, 49, 50, 51, 99, 100)],
         expect=[cm(2, 2, 0, 0)] + [cm(2, 2, 2, 1, 1)] * 6)
    for method in (0, 4, 255):
        case("question: method byte %d" % method, book, question(method, 50, 50, 20240630),
             question(method, 50, 51, 20240630), question(method, 100, 0, 20240630),
             question(method, 50, 50, 0), question(method, 1, 1, 20230229), ask(),
             expect=[no(5, 1), no(5, 1), no(5, 1), no(4, 8), no(4, 8), cm(2, 2, 2, 1, 1)])
    case("question: by the other methods with a bad day", book,
         question(SIMPLE, 50, 50, 0), question(ADJUSTED, 50, 50, 20230229), question(SIMPLE, 100, 0, 21000101),
         question(ADJUSTED, 1, 1, 18991231), expect=[no(4, 8)] * 4)
    case("question: weights before an empty book", ask(20240630, 1, 1), ask(20240630, 50, 50),
         expect=[no(6, 8), EMPTY])
    case("question: an empty book has no share, whatever the weights",
         ask(20240630, 100, 0), ask(20240630, 0, 100), ask(20240630, 50, 50), expect=[EMPTY] * 3)
    case("question: only registered units", GRAM, plant(1, 20200101, 10, grams=20, power_class=2),
         plant(2, 20200101, 10, grams=40, power_class=3), ask(), ask(20240630, 0, 100), ask(20240630, 99, 1), OPERATING,
         expect=[no(19, 7), no(19, 7), no(19, 7), cm(3, 3, 0, 0)])
    case("question: margins 3 and 4 at 50/50 give 4", GRAM, plant(1, 20200101, 100, grams=400),
         plant(2, 20000101, 100, grams=200), ask(), expect=[cm(4, 3, 4, 2, 1)])
    case("question: rounded once, by weight", GRAM, plant(1, 20200101, 100, grams=200),
         plant(2, 20000101, 100), *[ask(20240630, weight, 100 - weight) for weight in (75, 51, 50, 49, 25, 0, 100)],
         expect=[cm(1, 1, 2, 2, 1), cm(1, 1, 2, 2, 1), cm(2, 1, 2, 2, 1), cm(2, 1, 2, 2, 1),
                 cm(2, 1, 2, 2, 1), cm(2, 1, 2, 2, 1), cm(1, 1, 0, 0)])
    case("question: with wBM 0 the cohort is not asked", GRAM, plant(1, 20000101, 10, grams=20),
         ask(20240630, 99, 1), OPERATING, ask(20240630, 0, 100),
         expect=[no(20, 7, 1), cm(2, 2, 0, 0), no(20, 7, 1)])


# --------------------------------------------------------------------------
# The build cohort.

def cohort_cases():
    def five(generation, grams):
        """Five units of 2020 with codes 1 to 5; the last has another generation."""
        return b"".join(plant(code, 20200100 + code, generation[code == 1], grams=grams)
                        for code in range(1, 6))

    case("set 1: five units make exactly a fifth", GRAM, five((40, 40), 400), plant(9, 20000101, 800), ask(),
         expect=[cm(6, 2, 10, 1, 5)])
    case("set 3: five units stay one MWh below a fifth", GRAM, five((40, 39), 400), plant(9, 20000101, 801), ask(),
         expect=[cm(2, 2, 2, 3, 5, 0, 1)])
    case("set 1: the sixth unit is needed and new", GRAM, five((40, 39), 400), plant(9, 20190101, 801), ask(),
         expect=[cm(2, 2, 2, 1, 6)])
    case("set 1: five units and no more", GRAM, five((10, 10), 10), ask(), expect=[cm(1, 1, 1, 1, 5)])
    case("set 1: six units, five are enough", GRAM, five((10, 10), 10), plant(9, 20100101, 10, grams=1_000), ask(),
         expect=[cm(10, 18, 1, 1, 5)])
    for count in (1, 2, 3, 4):
        case("set 1: %d unregistered, fewer than five" % count, GRAM,
             *[plant(code, 20200101, 10, grams=10 * code) for code in range(1, count + 1)], ask(20240630, 0, 100),
             expect=[cm((count + 2) // 2, (count + 2) // 2, (count + 2) // 2, 1, count)])
    case("set 1: fewer than five, the first already makes a fifth", GRAM, plant(1, 20200101, 900, grams=900),
         plant(2, 20190101, 50, grams=5_000), plant(3, 20180101, 50, grams=5_000), ask(),
         expect=[cm(11, 11, 11, 1, 3)])
    case("set 2: fewer than five, the old ones go", GRAM, plant(1, 20200101, 900, grams=900),
         plant(2, 20100101, 50, grams=5_000), plant(3, 20090101, 50, grams=5_000), ask(),
         expect=[cm(6, 11, 1, 2, 1)])
    case("set 1: registered units do not count in the total", GRAM, five((10, 10), 10),
         plant(8, 20210101, 100_000, grams=0, power_class=2), plant(9, 20000101, 200), ask(20240630, 0, 100),
         expect=[cm(1, 0, 1, 1, 5)])
    case("set 1: low-cost units are unregistered", GRAM,
         *[plant(code, 20200101, 10, grams=10, power_class=1) for code in range(1, 6)],
         plant(6, 20200102, 10, grams=900, power_class=3), ask(20240630, 0, 100),
         expect=[cm(1, 16, 1, 1, 5)])

    # Ten years, by the numbers of the days.
    case("old: a start on 20140629 is old at 20240630", GRAM, plant(1, 20140629, 1_000, grams=0, default=1_000), ask(20240630, 0, 100),
         expect=[cm(4, 0, 4, 3, 0, 0, 1)])
    case("old: a start on 20140630 is not", GRAM, plant(1, 20140630, 1_000, grams=0, default=1_000), ask(20240630, 0, 100),
         expect=[cm(0, 0, 0, 1, 1)])
    case("old: 29 February 2012 at three days of 2022", GRAM, plant(1, 20120229, 1_000, grams=0, default=1_000),
         *[ask(day, 0, 100) for day in (20220228, 20220301, 20220302)],
         expect=[cm(0, 0, 0, 1, 1), cm(4, 0, 4, 3, 0, 0, 1), cm(4, 0, 4, 3, 0, 0, 1)])
    case("old: the turn of the year", GRAM, plant(1, 20131231, 1_000, grams=0, default=1_000),
         *[ask(day, 0, 100) for day in (20231231, 20240101)],
         expect=[cm(0, 0, 0, 1, 1), cm(4, 0, 4, 3, 0, 0, 1)])
    case("old: nothing is old before 1910, nor where the start comes after the reference day", GRAM,
         plant(1, 19000101, 1_000, grams=0), plant(2, 20991231, 1_000, grams=0),
         *[ask(day) for day in (19000101, 19091231, 19100101, 19100102)],
         expect=[cm(0, 0, 0, 1, 2), cm(0, 0, 0, 1, 2), cm(0, 0, 0, 1, 2), cm(0, 0, 0, 2, 1)])
    case("old: one old unit among the five", GRAM,
         *[plant(code, 20200101, 10, grams=10 * code) for code in range(1, 5)], plant(5, 20140629, 10, grams=900),
         ask(20240629, 0, 100), ask(20240630, 0, 100),
         expect=[cm(20, 20, 20, 1, 5), cm(3, 20, 3, 2, 4)])

    case("set 3: one new unit of 100 MWh, five old of 1,000", plant(1, 20200101, 100),
         *[plant(code, 20000101, 1_000) for code in range(2, 7)], ask(), expect=[cm(0, 0, 0, 3, 1, 0, 1)])
    case("set 3: the same with default emissions", GRAM, plant(1, 20200101, 100, grams=1_000),
         *[plant(code, 20000101, 1_000, grams=9_000, default=1_000) for code in range(2, 7)], ask(),
         expect=[cm(7, 9, 4, 3, 1, 0, 1)])
    case("set 3: the kept unit counts its actual grams, its default or none alike", GRAM,
         plant(1, 20200101, 100, grams=1_000, default=116),
         *[plant(code, 20000101, 1_000, default=0) for code in range(2, 7)], ask(20240630, 0, 100),
         expect=[cm(1, 0, 1, 3, 1, 0, 1)])

    old_four = [plant(code, 20100100 + code, 1_000) for code in (11, 12, 13, 14)]

    def new_and(*records, weights=(50, 50)):
        """One new unit of 100 MWh, four old of 1,000 (total 4,100), and more."""
        return (GRAM, plant(1, 20200101, 100), *old_four, *records, ask(20240630, *weights))

    case("set 2: registered units join, old ones too, with their actual grams",
         *new_and(plant(21, 20200101, 300, grams=300, power_class=2), plant(22, 20050101, 500, grams=5_000, power_class=2, default=1_000),
                  plant(23, 20010101, 1_000, power_class=3)),
         expect=[cm(4, 1, 6, 2, 1, 2)])
    case("set 2: registered units make exactly a fifth", *new_and(plant(21, 20200101, 720, grams=820, power_class=2)),
         expect=[cm(1, 0, 1, 2, 1, 1)])
    case("set 3: registered units stay one MWh below a fifth", *new_and(plant(21, 20200101, 719, grams=1_819, power_class=2)),
         expect=[cm(1, 0, 1, 3, 1, 1, 1)])
    case("set 2: registered units join newest first, equal days by lower code",
         *new_and(plant(25, 20200101, 400, grams=9_000, power_class=2), plant(24, 20200101, 400, grams=500, power_class=3),
                  plant(23, 20200102, 400, grams=400, power_class=2), weights=(0, 100)),
         expect=[cm(1, 2, 1, 2, 1, 2)])
    case("set 2: a registered unit joins whole", *new_and(plant(21, 20200101, 100_000, grams=100_100, power_class=2)),
         expect=[cm(1, 1, 1, 2, 1, 1)])
    case("set 2: no unit kept, registered ones alone", GRAM, *old_four,
         plant(21, 20000101, 500, grams=5_000, power_class=2), plant(22, 19990101, 500, grams=1_000, power_class=3),
         plant(23, 19980101, 500, grams=70_000, power_class=3), ask(20240630, 0, 100),
         expect=[cm(6, 14, 6, 2, 0, 2)])
    case("set 3: no unit kept, none registered", GRAM,
         *[plant(code, 20100100 + code, 1_000, grams=0, default=1_000) for code in (11, 12, 13, 14)], ask(20240630, 0, 100),
         expect=[cm(4, 0, 4, 3, 0, 0, 1)])
    case("set 3: exactly a fifth stops the joining", GRAM, plant(1, 20200101, 100),
         plant(11, 20100102, 200, grams=0, default=1_000), plant(12, 20100101, 1_200, grams=0), ask(20240630, 0, 100),
         expect=[cm(2, 0, 2, 3, 1, 0, 1)])
    case("set 3: one MWh below a fifth goes on, and its default is missing", GRAM, plant(1, 20200101, 100),
         plant(11, 20100102, 199, grams=0, default=1_000), plant(12, 20100101, 1_201, grams=0), ask(20240630, 0, 100),
         expect=[no(20, 7, 12)])
    case("set 3: several are brought back, newest first", GRAM,
         *[plant(code, 20100100 + code, 10, grams=0, default=1_000) for code in range(1, 9)],
         plant(30, 20000101, 400, grams=0, default=116), ask(20240630, 0, 100),
         expect=[cm(26, 0, 26, 3, 0, 0, 9)])

    # Set 3: every old unit needs a default; the first in the register's order is told.
    def missing(registered_day, registered_default, first_default, **rest):
        return (GRAM, plant(1, 20200101, 100, grams=0),
                plant(21, registered_day, 100, grams=0, power_class=2, default=registered_default),
                plant(11, 20100112, 1_000, grams=0, default=first_default),
                plant(12, 20100111, 1_000, grams=0, **rest), plant(13, 20100110, 1_000, grams=0), plant(14, 20100109, 1_000, grams=0),
                ask(20240630, 0, 100))

    case("set 3: an old registered unit counts its default", *missing(20110101, 1_000, 500),
         expect=[cm(6, 0, 6, 3, 1, 1, 1)])
    case("set 3: a newer registered unit without a default is told", *missing(20110101, 0, 0), expect=[no(20, 7, 21)])
    case("set 3: an older registered unit without a default comes second", *missing(20050101, 0, 0), expect=[no(20, 7, 11)])
    case("set 3: an older registered unit alone without a default", *missing(20050101, 0, 1_000), expect=[no(20, 7, 21)])
    case("set 3: the unit brought back alone without a default", *missing(20110101, 1_000, 0), expect=[no(20, 7, 11)])
    case("set 3: a new registered unit needs no default", *missing(20190101, 0, 1_000), expect=[cm(3, 0, 3, 3, 1, 1, 1)])
    case("set 3: on the same day the lower code is told", GRAM, plant(1, 20200101, 100, grams=0),
         plant(21, 20100112, 100, grams=0, power_class=2), plant(31, 20100112, 1_000, grams=0),
         *[plant(code, 20000101, 1_000, grams=0, default=1_000) for code in (41, 42, 43)], ask(),
         expect=[no(20, 7, 21)])
    case("set 3: on the same day the lower code is told, the other way round", GRAM, plant(1, 20200101, 100, grams=0),
         plant(31, 20100112, 100, grams=0, power_class=2), plant(21, 20100112, 1_000, grams=0),
         *[plant(code, 20000101, 1_000, grams=0, default=1_000) for code in (41, 42, 43)], ask(),
         expect=[no(20, 7, 21)])
    case("set 3: units outside the cohort need no default", *missing(20110101, 1_000, 1_000, default=0),
         expect=[cm(3, 0, 3, 3, 1, 1, 1)])
    case("set 3: a default carbon factor is the lowest among the burns", GRAM, fuel(2, 1, 2), fuel(3, 1, 9),
         unit(1, 20000101, 1_000, default=1_000), burn(1, 3, 5), burn(1, 2, 0), ask(20240630, 0, 100),
         expect=[cm(7, 0, 7, 3, 0, 0, 1)])
    case("set 3: the default stands beside an efficiency", GRAM,
         plant(1, 20000101, 1_000, grams=0, efficiency=1_000, default=500), ask(),
         expect=[cm(6, 4, 7, 3, 0, 0, 1)])
    case("set 3: the default of another fuel at 116 per mille", fuel(1, 1, 320_000),
         plant(1, 20000101, 10, grams=0, default=116), ask(), expect=[cm(4_965_518, 0, 9_931_035, 3, 0, 0, 1)])

    # Equal days: the cut falls by code, whatever the order of entry.
    codes = [9, 2, 65_535, 5, 7, 300, 1]
    case("equal days: the five lowest codes", GRAM,
         *[plant(code, 20200101, 10, grams=10 * place) for place, code in enumerate(codes)], ask(20240630, 0, 100),
         expect=[cm(3, 3, 3, 1, 5)])
    case("equal days: the five lowest codes after a strike", GRAM,
         *[plant(code, 20200101, 10, grams=10 * place) for place, code in enumerate(codes)], strike(1), strike(2),
         plant(4, 20200101, 10, grams=900), ask(20240630, 0, 100),
         expect=[cm(20, 17, 20, 1, 5)])
    case("order: newest first whatever the order of entry", GRAM,
         *[plant(code, day, 10, grams=grams) for code, day, grams in
           [(1, 20180101, 500), (2, 20230101, 10), (3, 20190101, 30), (4, 20220101, 20), (5, 20170101, 800),
            (6, 20210101, 40), (7, 20200101, 50)]], ask(20240630, 0, 100),
         expect=[cm(3, 21, 3, 1, 5)])


# --------------------------------------------------------------------------
# Random bytes and random small streams, from fixed seeds.

def random_bytes():
    for seed, length in enumerate([1, 16, 31, 32, 33, 63, 64, 65, 96, 100, 257, 512, 1_000, 2_048]):
        rng = random.Random(seed)
        case("%d random bytes" % length, rng.randbytes(length))
    rng = random.Random("kinds")
    for number in range(8):
        pieces = []
        for _ in range(12):
            letter = rng.choice(b"FUBSQP")
            piece = bytearray(rng.choice([worked_piece(letter), rng.randbytes(32)]))
            piece[0] = letter
            if rng.random() < 0.4:
                piece[rng.randrange(1, 32)] ^= 1 << rng.randrange(8)
            if letter == ord("Q"):
                piece[1] = rng.choice([0, 3, 3, 3, 4, 255])
            pieces.append(bytes(piece))
        case("letters with damaged bytes %d" % number, *pieces)


def worked_piece(letter):
    return {ord("F"): fuel(1, 25_800, 94_600), ord("U"): unit(1, 20200101, 1_000),
            ord("B"): burn(1, 1, 400), ord("S"): strike(1), ord("Q"): ask(),
            ord("P"): packed(1, 20200101, 0, 1_000, 5)}[letter]


def random_stream(rng):
    """A small stream of one of three tempers: tiny numbers, real ones, wide ones."""
    temper = rng.choice(["tiny", "real", "wide"])
    many_old = rng.random() < 0.4
    days = [rng.randint(1995 if many_old else 2004, 2013 if many_old else 2024) * 10_000
            + rng.randint(1, 12) * 100 + rng.randint(1, 28) for _ in range(7)]
    days += [20140629, 20140630, 20120229]
    if many_old:
        days += [20200101]
    default_chance = rng.choice([0.6, 0.95, 1.0])
    known_units, known_fuels = [], []
    records = []

    def some_fuel(code):
        if temper == "tiny":
            return fuel(code, rng.choice([1, 1, 10, 1_000, 1_000]), rng.choice([0, 1, 1, 2, 3]))
        if temper == "real":
            return fuel(code, rng.randint(10_000, 50_000), rng.randint(50_000, 120_000))
        return fuel(code, rng.choice([1, 99_999, 100_000, rng.randint(1, 100_000)]),
                    rng.choice([0, 320_000, rng.randint(0, 320_000)]))

    def some_efficiency(chance):
        if rng.random() >= chance:
            return 0
        return rng.choice([116, 380, 500, 900, 1_000, rng.randint(116, 1_000)])

    def some_unit():
        code = rng.choice([rng.randint(1, 20), rng.randint(1, 65_535)])
        known_units.append(code)
        generation = {"tiny": rng.choice([1, 2, 3, rng.randint(1, 20)]),
                      "real": rng.choice([100, 1_000, rng.randint(50, 5_000)]),
                      "wide": rng.choice([1, 100_000_000, rng.randint(1, 100_000_000)])}[temper]
        return unit(code, rng.choice(days), generation, rng.choice([0, 0, 0, 0, 1, 1, 2, 3]),
                    some_efficiency(0.3), some_efficiency(default_chance))

    def some_quantity():
        return {"tiny": rng.choice([0, 1, 499, 500, rng.randint(0, 3_000)]),
                "real": rng.randint(0, 2_000),
                "wide": rng.choice([0, 10_000_000, rng.randint(0, 10_000_000)])}[temper]

    def some_burn():
        unit_code = rng.choice(known_units) if known_units and rng.random() < 0.95 else rng.randint(0, 30)
        fuel_code = rng.choice(known_fuels) if known_fuels and rng.random() < 0.95 else rng.randint(0, 9)
        return burn(unit_code, fuel_code, some_quantity())

    def some_strike():
        return strike(rng.choice(known_units) if known_units and rng.random() < 0.9 else rng.randint(0, 30))

    def something_wrong():
        return rng.choice([
            fuel(rng.randint(0, 5), rng.choice([0, 100_001]), 1), unit(rng.randint(0, 9), 20230229, 5),
            unit(rng.randint(1, 9), 20200101, rng.choice([0, 100_000_001])), unit(rng.randint(1, 9), 20200101, 5, 4),
            unit(rng.randint(1, 9), 20200101, 5, 0, rng.choice([1, 115, 1_001])), burn(1, 1, 10_000_001), rng.randbytes(32)])

    for _ in range(rng.randint(1, 4)):
        known_fuels.append(rng.randint(1, 9))
        records.append(some_fuel(known_fuels[-1]))
    for _ in range(rng.choice([2, 4, 6, 7, 8, 10, 12])):
        records.append(some_unit())
        for chance in (0.85, 0.3):
            if rng.random() < chance:
                records.append(burn(known_units[-1], rng.choice(known_fuels), some_quantity()))
        chance = rng.random()
        if chance < 0.06:
            records.append(some_burn())
        elif chance < 0.14:
            records.append(some_strike())
        elif chance < 0.18:
            known_fuels.append(rng.randint(1, 9))
            records.append(some_fuel(known_fuels[-1]))
        elif chance < 0.22:
            records.append(something_wrong())
    for _ in range(rng.randint(1, 4)):
        weight = rng.choice([0, 25, 50, 50, 75, 100, rng.randint(0, 100)])
        day = rng.choice([20240630, 20240629, 20220228, 20220301, 20150101, 20300101, rng.choice(days) + 100_000,
                          rng.choice(days) + 100_001])
        records.append(ask(day, 100 - weight, weight))
    if rng.random() < 0.1:
        records.append(rng.choice([some_unit(), some_strike(), loads(1, [1] * 6), year(1, 1, 1), b"short"]))
    return records


def random_streams(count):
    rng = random.Random(20240630)
    for number in range(1, count + 1):
        case("random stream %d" % number, *random_stream(rng))


# --------------------------------------------------------------------------

def taken_at_present(stream):
    """Whether `reckon` takes every record of this stream at present."""
    asked = False
    for start in range(0, len(stream), 32):
        parts = reference.taken_apart(stream[start:start + 32])
        if parts is None:
            continue
        kind, fields = parts
        if kind in "HY" and not asked:
            return False
        if kind == "Q":
            asked = True
            if fields["method"] in (SIMPLE, ADJUSTED) and reference.is_day(fields["day"]):
                return False
    return True


def main():
    intake_cases()
    entry_cases()
    emission_cases()
    question_cases()
    cohort_cases()
    random_bytes()
    random_streams(300)

    streams, lines, rules, sets = [], [], set(), set()
    for number, (title, stream, expected) in enumerate(CASES, 1):
        if not taken_at_present(stream):
            sys.exit("case %d (%s) has a record that reckon does not take at present" % (number, title))
        printed = reference.run(stream)
        if expected is not None and printed != expected:
            sys.exit("case %d (%s)\nby hand:\n%sby the reference:\n%s" % (number, title, expected, printed))
        for line in printed.splitlines():
            words = line.split()
            if words[0] == "NO":
                rules.add(int(words[1]))
            else:
                sets.add(int(words[7]))
        streams.append(len(stream).to_bytes(4, "big") + stream)
        lines.append("CASE %04d\n%s" % (number, printed))
        if "--list" in sys.argv[1:]:
            print("%04d %s" % (number, title))
    if not rules >= {1, 2, 3, 4, 5, 6, 8, 9, 10, 11, 18, 19, 20} or sets != {0, 1, 2, 3}:
        sys.exit("some refusal or set is never reached: %s %s" % (sorted(rules), sorted(sets)))

    FOLDER.mkdir(parents=True, exist_ok=True)
    (FOLDER / "stdin").write_bytes(b"".join(streams))
    (FOLDER / "stdout").write_bytes("".join(lines).encode("ascii"))


if __name__ == "__main__":
    main()
