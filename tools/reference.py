#!/usr/bin/env python3
"""A second, independent reading of the rules, to compare the engine with.

    python3 tools/reference.py < records > lines

It reads 32-byte records (docs/FORMATS.md) and prints what `reckon` prints,
for all record kinds and all three operating margin methods. It is written
from docs/RULES.md and docs/FAULTS.md with exact fractions and plain sorting,
and shares no structure with the engine. It is meant to be read in one go and
to be slow rather than clever.
"""

import bisect
import datetime
import itertools
import sys
from dataclasses import dataclass
from fractions import Fraction
from math import floor

# Layers, by number.
INTAKE, BOOK, LOAD_YEAR, METHOD, BUILD, COMBINED = 1, 2, 5, 6, 7, 8

HOURS = 8_760
EMISSION_LIMIT = 10_000_000          # g/MWh
LAST_PLACE = 2**32 - 1


class Refused(Exception):
    """A refusal: the number of the rule, the layer, the place."""

    def __init__(self, rule, layer, place=0):
        super().__init__(rule, layer, place)
        self.rule, self.layer, self.place = rule, layer, place


def rounded(fraction):
    """The floor of the fraction plus one half."""
    return floor(fraction + Fraction(1, 2))


def is_day(number):
    """Whether YYYYMMDD is a calendar day from 19000101 to 20991231."""
    if not 19000101 <= number <= 20991231:
        return False
    try:
        datetime.date(number // 10_000, number // 100 % 100, number % 100)
    except ValueError:
        return False
    return True


# --------------------------------------------------------------------------
# Records. For each kind: the first and the last byte of every field.

LAYOUT = {
    "F": {"code": (2, 3), "heat": (4, 7), "carbon": (8, 11)},
    "U": {"class": (1, 1), "code": (2, 3), "day": (4, 7),
          "generation": (8, 11), "efficiency": (12, 13), "default": (14, 15)},
    "B": {"unit": (2, 3), "fuel": (4, 5), "quantity": (8, 11)},
    "S": {"unit": (2, 3)},
    "H": {"group": (2, 3), "load0": (8, 11), "load1": (12, 15),
          "load2": (16, 19), "load3": (20, 23), "load4": (24, 27),
          "load5": (28, 31)},
    "Y": {"year": (1, 1), "low": (4, 7), "all": (8, 11)},
    "Q": {"method": (1, 1), "wom": (2, 2), "wbm": (3, 3), "day": (4, 7)},
}


def taken_apart(piece):
    """(kind, fields) of a record, or None if it is short, foreign or filled."""
    kind = chr(piece[0])
    if len(piece) != 32 or kind not in LAYOUT:
        return None
    fields = {}
    rest = bytearray(piece)
    rest[0] = 0
    for name, (first, last) in LAYOUT[kind].items():
        fields[name] = int.from_bytes(piece[first:last + 1], "big")
        rest[first:last + 1] = bytes(last + 1 - first)
    if any(rest):
        return None
    return kind, fields


# --------------------------------------------------------------------------
# The year book.

@dataclass
class Entry:
    """A power unit as it was entered, with its burns (fuel code, quantity)."""
    code: int
    day: int
    power_class: int
    generation: int
    efficiency: int
    default: int
    burns: list


@dataclass
class Unit:
    """A power unit as the margins see it: both emissions rounded to grams."""
    code: int
    day: int
    power_class: int
    generation: int
    grams: int
    default_grams: object            # None where there is no default

    @property
    def low_cost(self):
        return self.power_class in (1, 3)


def is_efficiency(number):
    return number == 0 or 116 <= number <= 1_000


class YearBook:
    def __init__(self):
        self.fuels = {}              # code -> (heat content, carbon factor)
        self.entries = []            # in order of entry

    def find(self, code):
        for entry in self.entries:
            if entry.code == code:
                return entry
        return None

    def add_fuel(self, code, heat, carbon):
        if code == 0:
            raise Refused(3, BOOK, code)
        if not 1 <= heat <= 100_000 or carbon > 320_000:
            raise Refused(5, BOOK, code)
        if code in self.fuels:
            raise Refused(8, BOOK, code)
        if len(self.fuels) == 64:
            raise Refused(10, BOOK, code)
        self.fuels[code] = (heat, carbon)

    def add_unit(self, code, day, power_class, generation, efficiency, default):
        if code == 0:
            raise Refused(3, BOOK, code)
        if not is_day(day):
            raise Refused(4, BOOK, code)
        if power_class > 3:
            raise Refused(5, BOOK, code)
        if not 1 <= generation <= 100_000_000:
            raise Refused(5, BOOK, code)
        if not is_efficiency(efficiency) or not is_efficiency(default):
            raise Refused(5, BOOK, code)
        if self.find(code):
            raise Refused(8, BOOK, code)
        if len(self.entries) == 1_000:
            raise Refused(10, BOOK, code)
        self.entries.append(Entry(code, day, power_class, generation,
                                  efficiency, default, []))

    def add_burn(self, unit_code, fuel_code, quantity):
        if unit_code == 0 or fuel_code == 0:
            raise Refused(3, BOOK, unit_code)
        if quantity > 10_000_000:
            raise Refused(5, BOOK, unit_code)
        entry = self.find(unit_code)
        if entry and fuel_code in [code for code, _ in entry.burns]:
            raise Refused(8, BOOK, unit_code)
        if not entry:
            raise Refused(9, BOOK, unit_code)
        if fuel_code not in self.fuels:
            raise Refused(9, BOOK, fuel_code)
        if len(entry.burns) == 4:
            raise Refused(10, BOOK, unit_code)
        burns = entry.burns + [(fuel_code, quantity)]
        if entry.efficiency == 0:
            if self.burnt(burns) > EMISSION_LIMIT * entry.generation:
                raise Refused(11, BOOK, unit_code)
        entry.burns = burns

    def strike(self, code):
        if code == 0:
            raise Refused(3, BOOK, code)
        if not self.find(code):
            raise Refused(9, BOOK, code)
        self.entries = [entry for entry in self.entries if entry.code != code]

    def burnt(self, burns):
        """Grams from the fuel burnt, exact."""
        total = 0
        for fuel_code, quantity in burns:
            heat, carbon = self.fuels[fuel_code]
            total += quantity * heat * carbon
        return Fraction(total, 1_000)

    def by_efficiency(self, entry, efficiency):
        """Grams from generation and efficiency, exact."""
        lowest = min(self.fuels[code][1] for code, _ in entry.burns)
        return Fraction(entry.generation * lowest * 3_600, efficiency)

    def emission(self, entry):
        if entry.efficiency == 0:
            return self.burnt(entry.burns)
        if not entry.burns:
            return Fraction(0)
        return self.by_efficiency(entry, entry.efficiency)

    def default_emission(self, entry):
        if not entry.burns:
            return Fraction(0)
        if entry.default == 0:
            return None
        return self.by_efficiency(entry, entry.default)

    def units(self):
        """All units, newest first, equal days by lower code."""
        listed = []
        for entry in sorted(self.entries, key=lambda e: (-e.day, e.code)):
            default = self.default_emission(entry)
            listed.append(Unit(
                entry.code, entry.day, entry.power_class, entry.generation,
                rounded(self.emission(entry)),
                None if default is None else rounded(default)))
        return listed


# --------------------------------------------------------------------------
# What the intake gathers beside the book.

class HourlyLoads:
    def __init__(self):
        self.groups = {}             # group -> six loads

    def add(self, group, six):
        if group > 1_459 or any(load > 2_000_000 for load in six):
            raise Refused(5, LOAD_YEAR, group)
        if group in self.groups:
            raise Refused(8, LOAD_YEAR, group)
        self.groups[group] = six

    def all_hours(self):
        for hour in range(HOURS):
            if hour // 6 not in self.groups:
                raise Refused(14, LOAD_YEAR, hour)
        return [self.groups[hour // 6][hour % 6] for hour in range(HOURS)]


class YearlyPairs:
    def __init__(self):
        self.pairs = {}              # year -> (low-cost GWh, all GWh)

    def add(self, year, low, everything):
        if year > 4 or low > 4_000_000 or everything > 4_000_000 or low > everything:
            raise Refused(5, METHOD, year)
        if year in self.pairs:
            raise Refused(8, METHOD, year)
        self.pairs[year] = (low, everything)

    def check_open(self):
        for year in range(5):
            if year not in self.pairs:
                raise Refused(14, METHOD, year)
        low = sum(pair[0] for pair in self.pairs.values())
        everything = sum(pair[1] for pair in self.pairs.values())
        if 2 * low >= everything:
            raise Refused(16, METHOD)


# --------------------------------------------------------------------------
# Operating margin.

def generation(units):
    return sum(unit.generation for unit in units)


def mean(units):
    """Grams over generation, rounded."""
    return rounded(Fraction(sum(unit.grams for unit in units), generation(units)))


def average_margin(units):
    if not units:
        raise Refused(18, METHOD)
    return mean(units)


def simple_margin(units, pairs):
    pairs.check_open()
    others = [unit for unit in units if not unit.low_cost]
    if not others:
        raise Refused(18, METHOD)
    return mean(others)


def low_cost_hours(year, low_cost_generation):
    """The hours whose load, laid under every hour, stays below the generation."""
    rising = sorted(year)
    up_to = [0] + list(itertools.accumulate(rising))
    count = 0
    for load in rising:
        below = bisect.bisect_left(rising, load)
        area = up_to[below] + load * (len(rising) - below)
        if area < low_cost_generation:
            count += 1
    return count


def adjusted_margin(units, hourly):
    year = hourly.all_hours()
    low_cost = [unit for unit in units if unit.low_cost]
    others = [unit for unit in units if not unit.low_cost]
    if generation(low_cost) > sum(year):
        raise Refused(17, METHOD)
    if not others:
        raise Refused(18, METHOD)
    hours = low_cost_hours(year, generation(low_cost))
    share = Fraction(hours, HOURS)
    return rounded((1 - share) * mean(others)
                   + share * (mean(low_cost) if low_cost else 0))


# --------------------------------------------------------------------------
# Build margin.

def build_margin(units, reference):
    """(margin, set, kept, registered, brought back)."""

    def is_old(unit):
        return unit.day + 100_000 < reference

    unregistered = [unit for unit in units if unit.power_class in (0, 1)]
    registered = [unit for unit in units if unit.power_class in (2, 3)]
    if not unregistered:
        raise Refused(19, BUILD)
    total = generation(unregistered)

    def short(cohort):
        return 5 * generation(cohort) < total

    # The sample group: the shortest run of at least five units (or all) that
    # makes a fifth.
    length = min(5, len(unregistered))
    while short(unregistered[:length]):
        length += 1
    sample = unregistered[:length]

    cohort = [unit for unit in sample if not is_old(unit)]
    kept = len(cohort)
    if kept == len(sample):
        return mean(cohort), 1, kept, 0, 0

    joined = 0
    while short(cohort) and joined < len(registered):
        cohort.append(registered[joined])
        joined += 1
    if not short(cohort):
        return mean(cohort), 2, kept, joined, 0

    brought_back = 0
    for unit in unregistered:
        if is_old(unit) and short(cohort):
            cohort.append(unit)
            brought_back += 1
    grams = 0
    for unit in sorted(cohort, key=units.index):
        if not is_old(unit):
            grams += unit.grams
        elif unit.default_grams is None:
            raise Refused(20, BUILD, unit.code)
        else:
            grams += unit.default_grams
    margin = rounded(Fraction(grams, generation(cohort)))
    return margin, 3, kept, joined, brought_back


# --------------------------------------------------------------------------
# The intake and its lines.

class Intake:
    def __init__(self):
        self.book = YearBook()
        self.hourly = HourlyLoads()
        self.pairs = YearlyPairs()
        self.asked = False

    def take(self, index, piece):
        """The line for one piece of input, or None for an accepted entry."""
        parts = taken_apart(piece)
        if parts is None:
            raise Refused(1, INTAKE, index)
        kind, f = parts
        if kind == "Q":
            self.asked = True
            return self.answer(f["method"], f["wom"], f["wbm"], f["day"])
        if self.asked:
            raise Refused(2, INTAKE, index)
        if kind == "F":
            self.book.add_fuel(f["code"], f["heat"], f["carbon"])
        elif kind == "U":
            self.book.add_unit(f["code"], f["day"], f["class"],
                               f["generation"], f["efficiency"], f["default"])
        elif kind == "B":
            self.book.add_burn(f["unit"], f["fuel"], f["quantity"])
        elif kind == "S":
            self.book.strike(f["unit"])
        elif kind == "H":
            self.hourly.add(f["group"], [f["load%d" % i] for i in range(6)])
        elif kind == "Y":
            self.pairs.add(f["year"], f["low"], f["all"])
        return None

    def answer(self, method, weight_om, weight_bm, reference):
        if not is_day(reference):
            raise Refused(4, COMBINED)
        if method not in (1, 2, 3):
            raise Refused(5, INTAKE)
        if weight_om + weight_bm != 100:
            raise Refused(6, COMBINED)
        if weight_bm == 0 and method != 3:
            raise Refused(7, COMBINED)
        units = self.book.units()
        if method == 1:
            operating = simple_margin(units, self.pairs)
        elif method == 2:
            operating = adjusted_margin(units, self.hourly)
        else:
            operating = average_margin(units)
        build, number, kept, joined, brought_back = 0, 0, 0, 0, 0
        if weight_bm > 0:
            build, number, kept, joined, brought_back = build_margin(units, reference)
        combined = rounded(Fraction(weight_om * operating + weight_bm * build, 100))
        return "CM %08d OM %08d BM %08d SET %d %04d %04d %04d\n" % (
            combined, operating, build, number, kept, joined, brought_back)


def run(data: bytes) -> str:
    """All lines that `reckon` prints for this input."""
    intake = Intake()
    lines = []
    for start in range(0, len(data), 32):
        index = min(start // 32, LAST_PLACE)
        try:
            line = intake.take(index, data[start:start + 32])
        except Refused as refused:
            line = "NO %02d LAYER %d PLACE %010d\n" % (
                refused.rule, refused.layer, refused.place)
        if line is not None:
            lines.append(line)
    return "".join(lines)


def main():
    sys.stdout.write(run(sys.stdin.buffer.read()))


if __name__ == "__main__":
    main()
