#!/usr/bin/env python3
"""Writes the sheets of this folder from the numbers of the worked rounds, and the page programs' inputs.

A sheet is its header (mark, version, the counts of bidders, places and conditions, in version 2 the tick), then the effects,
the bids and the conditions, every number low byte first. Run with no argument, it writes the sheets beside itself and each
program's input under crates/; with --check it writes nothing, and fails if a file there differs.
"""
import pathlib
import struct
import sys

SHEETS_FOLDER = pathlib.Path(__file__).resolve().parent
CRATES_FOLDER = SHEETS_FOLDER.parent / "crates"


def sheet(bids, effects, conditions=(), tick=None, version=None):
    """The bytes of a sheet, of version 2 where it has a tick; its conditions must be in order then. A condition is (owner, own place,
    other bidder, other's place)."""
    if version is None:
        version = 1 if tick is None else 2
    header = b"PAS" + struct.pack("<HBBH", version, len(bids), len(effects), len(conditions))
    if tick is not None:
        header += struct.pack("<I", tick)
    effect_bytes = b"".join(struct.pack("<I", effect) for effect in effects)
    bid_bytes = b"".join(struct.pack("<I", bid) for bid in bids)
    return header + effect_bytes + bid_bytes + b"".join(bytes(condition) for condition in conditions)


def above(pairs, places):
    """Each pair (i, j) asks that i stand above j: i's own place k is barred with j at every place before k."""
    return [
        (i, own, j, others)
        for i, j in pairs
        for own in range(2, places + 1)
        for others in range(1, own)
    ]


# "1 above 2, 2 above 3, 3 above 4"
IN_ORDER = [(1, 2), (2, 3), (3, 4)]

SHEETS = {
    "A": sheet([30, 20, 10], [10, 9], [(1, 0, 2, 1)]),
    "B": sheet([60, 40, 10], [100, 90, 81]),
    "C": sheet([60, 40, 10], [100, 90, 81], [(1, 1, 0, 0)]),
    "D": sheet(
        [40, 30, 20, 10],
        [100, 90, 81],
        [(2, 0, 3, place) for place in (1, 2, 3)] + [(3, 0, 2, place) for place in (1, 2, 3)],
    ),
    "E": sheet([5, 5], [1]),
    "F": sheet([5, 6], [1]),
    "F2": sheet([3, 6], [1], tick=3),
    "G": sheet([0], [1, 1], [(1, 1, 0, 0)]),
    "H": sheet([30, 32, 36, 40], [10000, 4500, 2025], above(IN_ORDER, 3)),
    "H1": sheet([30, 32, 36, 40], [10000, 4500, 2025], above(IN_ORDER, 3), tick=1),
    # The conditions of H from the last to the first, and the last three again.
    "H1-mixed": sheet([30, 32, 36, 40], [10000, 4500, 2025], above(IN_ORDER, 3)[::-1] + above(IN_ORDER, 3)[6:]),
    "H2": sheet([30, 32, 36, 40], [10000, 4500, 2025], above(IN_ORDER, 3), tick=2),
    "H4": sheet([30, 32, 36, 40], [10000, 4500, 2025, 911], above(IN_ORDER, 4)),
    "own": sheet([2, 1], [1, 1], [(1, 0, 2, 2)]),
    # The best page that took longest of all that were searched for (docs/PERFORMANCE.md).
    "slowest": sheet(
        [30000, 2, 3, 4, 5, 6, 5000, 10000000],
        [1000000, 999999, 999998, 999997, 999996, 999995, 999994, 900000],
        [(7, 0, 1, 7), (7, 0, 8, 7)] + [(1, own, 8, others) for own in range(1, 7) for others in range(1, 7) if own != others],
    ),
}

# 64 bidders, 16 places, 1,024 conditions and a tick: the largest right sheet, of 4,429 bytes. Each bidder has 16 conditions: one
# of places 1 and 2 is barred to it, and so is each place from 2 on while the next bidder stands just above it.
FULL = sheet(
    [1001 + 7 * bidder for bidder in range(64)],
    [16000 - 900 * place for place in range(16)],
    [
        (bidder, bidder % 2 + 1, 0, 0) if place == 1 else (bidder, place, bidder % 64 + 1, place - 1)
        for bidder in range(1, 65)
        for place in range(1, 17)
    ],
    tick=7,
)

# The same size again, drawn at random once, altered by hand so that its last condition decides place 1, and put in order; this file is kept and
# not written.
LARGEST = (SHEETS_FOLDER / "largest.pas").read_bytes()

# What each program of the gate reads.
INPUTS = {
    "page": SHEETS["F"],
    "test_page_refused": sheet([5, 6], [1], version=3),
    "test_page_empty": SHEETS["G"],
    "test_page_chain": SHEETS["H"],
    # longer than any sheet: a sheet of the largest size, and then its bytes again
    "test_page_long": FULL + FULL,
    # a sheet of the largest size with a random round, and the same with one byte more
    "test_page_largest": LARGEST,
    "test_page_one_more": LARGEST + b"\n",
}


def main():
    check = sys.argv[1:] == ["--check"]
    if sys.argv[1:] and not check:
        sys.exit("usage: make.py [--check]")
    files = {SHEETS_FOLDER / f"{name}.pas": content for name, content in SHEETS.items()}
    files.update({CRATES_FOLDER / name / "stdin": content for name, content in INPUTS.items()})
    for path, content in files.items():
        if not check:
            path.write_bytes(content)
        elif path.read_bytes() != content:
            sys.exit(f"{path} is not what make.py writes")


if __name__ == "__main__":
    main()
