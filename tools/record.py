#!/usr/bin/env python3
"""The 32-byte records, written out from their fields.

Each function gives one record; docs/FORMATS.md has the layout. Numbers are
big-endian, and every byte that holds no field is zero. A field may be given
any value that fits its bytes, also one that the engine refuses.

    python3 tools/record.py

writes the worked example of docs/RULES.md to crates/reckon/stdin and the
lines it must print to crates/reckon/stdout.
"""

import pathlib
import struct

ROOT = pathlib.Path(__file__).resolve().parent.parent

SIMPLE, ADJUSTED, AVERAGE = 1, 2, 3


def fuel(code, heat, carbon):
    """A fuel: heat content in thousandths of a GJ, carbon factor in g/GJ."""
    return struct.pack(">cxHII20x", b"F", code, heat, carbon)


def unit(code, day, generation, power_class=0, efficiency=0, default=0):
    """A power unit: generation in MWh, both efficiencies in per mille."""
    return struct.pack(">cBHIIHH16x", b"U", power_class, code, day,
                       generation, efficiency, default)


def burn(unit_code, fuel_code, quantity):
    """A burn: a quantity of one fuel in one unit."""
    return struct.pack(">cxHHxxI20x", b"B", unit_code, fuel_code, quantity)


def strike(unit_code):
    """The removal of a unit with its burns."""
    return struct.pack(">cxH28x", b"S", unit_code)


def loads(group, six):
    """Six hourly loads in MW: hours 6 * group to 6 * group + 5."""
    return struct.pack(">cxH4x6I", b"H", group, *six)


def year(number, low_cost, total):
    """One yearly pair: low-cost and all generation in GWh."""
    return struct.pack(">cBxxII20x", b"Y", number, low_cost, total)


def question(method, weight_om, weight_bm, day):
    """A question for the combined margin."""
    return struct.pack(">cBBBI24x", b"Q", method, weight_om, weight_bm, day)


def packed(code, day, power_class, generation, grams, default_grams=None):
    """A unit of a packed register, with or without default grams."""
    return struct.pack(">cBHIIB3xQQ", b"P", power_class, code, day, generation,
                       0 if default_grams is None else 1, grams,
                       0 if default_grams is None else default_grams)


def worked_example():
    """The records of the worked example, in order."""
    return b"".join([
        fuel(1, 25_800, 94_600),
        unit(1, 20200101, 1_000, power_class=0),
        unit(2, 20150601, 3_000, power_class=1),
        burn(1, 1, 400),
        question(AVERAGE, 50, 50, 20240630),
        question(AVERAGE, 50, 50, 20260101),
        fuel(1, 25_800, 94_600),
    ])


WORKED_LINES = """\
CM 00244068 OM 00244068 BM 00244068 SET 1 0002 0000 0000
CM 00610170 OM 00244068 BM 00976272 SET 2 0001 0000 0000
NO 02 LAYER 1 PLACE 0000000006
"""


def main():
    folder = ROOT / "crates" / "reckon"
    folder.mkdir(parents=True, exist_ok=True)
    (folder / "stdin").write_bytes(worked_example())
    (folder / "stdout").write_bytes(WORKED_LINES.encode("ascii"))


if __name__ == "__main__":
    main()
