#!/usr/bin/env python3
"""make_sample.py [FOLDER]: writes the sample packs mask.pack, journal.pack and extract.pack (docs/FORMAT.md, 3) into sample/, or into FOLDER.

A day's journal of 40 hires by six cabs, the mask that picks the hires of one owner's cabs, and the extract that these two must give, built from the picked
hires and not by filtering. Every byte is fixed: no clock, no chance."""
import os
import sys
from itertools import accumulate

from packs import Null, Pack

HIRES = 40
STREETS = [b"Amber Lane", b"Bell Street", b"Canal Road", b"Dock Road", b"Elm Grove", b"Fish Market"]
SHIFTS = [(b"early", range(0, 13)), (b"late", range(13, 28)), (b"night", range(28, HIRES))]
OWNERS_CABS = (17, 23)


def cab(i):
    return (11, 17, 20, 23, 31, 40)[i * 9 % 23 % 6]


def way_points(i):
    """Where the cab passed on its way: metres east and north of the town's south-west corner. Some hires have none."""
    return [(i * 37 % 90 * 10 + 250 * k, i * 53 % 80 * 10 + 140 * k) for k in range(i % 4)]


def withheld(i):
    """The passenger wants no way points kept."""
    return i % 13 == 5


def journal(hires, under_nulls=True):
    """The rows of these hires, in order. Way points that are withheld are null; the meter's journal still has them under the null, an extract has not."""
    p = Pack()
    p.struct(9, [True] * len(hires))
    # hire number
    p.native(8, [20_260_301_000 + i for i in hires])
    # cab number
    p.native(4, [cab(i) for i in hires])
    # fare in cents; null where the meter was off
    p.native(4, [None if i % 9 == 4 else 350 + 37 * (i * 11 % 29) for i in hires])
    # distance in metres
    p.native(4, [600 + 140 * (i * 11 % 29) + i for i in hires])
    # street of the drop: a dictionary with keys of one byte, which goes along whole
    p.dictionary(1, [i * 5 % 7 % 6 for i in hires])
    p.texts(STREETS)
    # shift: a run for each that has a hire
    shifts = [(name, sum(i in hours for i in hires)) for name, hours in SHIFTS]
    shifts = [(name, count) for name, count in shifts if count]
    p.runs(4, len(hires), list(accumulate(count for _, count in shifts)))
    p.texts([name for name, _ in shifts])
    # paid by card; null where the driver did not say
    p.flags([Null(i % 3 == 0) if i % 11 == 7 else i % 3 == 0 for i in hires])
    # note
    p.texts([(b"receipt", b"luggage", b"", b"waited 10 min")[i % 4] if i % 5 == 0 else None for i in hires])
    # way points: a list of them for each hire
    stored = [way_points(i) if under_nulls or not withheld(i) else [] for i in hires]
    p.lists([Null(len(points)) if withheld(i) else len(points) for i, points in zip(hires, stored)])
    points = [point for points in stored for point in points]
    p.struct(2, [True] * len(points))
    p.native(2, [east for east, _ in points])
    p.native(2, [north for _, north in points])
    return p.whole()


def owned(i):
    return cab(i) in OWNERS_CABS


def disputed(i):
    return i % 8 == 3


def mask():
    """True where the cab is the owner's; null where the hire is in dispute, whatever its bit."""
    return Pack().flags([Null(owned(i)) if disputed(i) else owned(i) for i in range(HIRES)]).whole()


def main():
    folder = sys.argv[1] if len(sys.argv) > 1 else os.path.join(os.path.dirname(os.path.abspath(__file__)), "..", "sample")
    picked = [i for i in range(HIRES) if owned(i) and not disputed(i)]
    for name, pack in (("mask", mask()), ("journal", journal(range(HIRES))), ("extract", journal(picked, under_nulls=False))):
        with open(os.path.join(folder, name + ".pack"), "wb") as f:
            f.write(pack)


if __name__ == "__main__":
    main()
