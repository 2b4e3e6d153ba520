#!/usr/bin/env python3
"""make_cases.py [FOLDER]: writes the whole calls that program `cases` runs, and what it must print of them, as stdin and stdout into
crates/cases/, or into FOLDER.

What a call must give is made from the specification (docs/FORMAT.md) alone: each extract is built from the rows that it says are kept, with skip 0 and
nothing but zeros in between. The packs of a call have ones in all places that mean nothing, so that what should not show would."""
import os
import sys

from packs import MARK, NO_BITMAP, Null, Pack, numbers, view

TEXT_ROOM, PACK_ROOM, LIST_ROOM, SCRATCH_ROOM = 65_536, 4096, 256, 64  # what the program has room for
given, expected = [], []


def pack(old=False):
    """A pack to be filtered, in which waste is ones."""
    return Pack(waste=0xFF, old=old)


def mask(slots, before="", old=False):
    """T and F; n is a null whose bit is false, N one whose bit is true."""
    meaning = {"T": True, "F": False, "n": Null(False), "N": Null(True)}
    return pack(old).flags([meaning[s] for s in slots], [meaning[s] for s in before])


def words(data):
    """Bytes as the program's words: numbers of four bytes, and single bytes at the end."""
    end = len(data) // 4 * 4
    return [str(int.from_bytes(data[i : i + 4], "little")) for i in range(0, end, 4)] + [f"b{x}" for x in data[end:]]


def title(text):
    given.append(f"# {text}")


def call(name, mask, journal, stated, asked, places, scratch, output):
    """A line of the calls; the packs are built, or bytes."""
    mask, journal = (p.whole() if isinstance(p, Pack) else p for p in (mask, journal))
    assert not any(line.startswith(name + " ") for line in given), name
    assert max(len(mask), len(journal), output) <= PACK_ROOM and places <= LIST_ROOM and scratch <= SCRATCH_ROOM, name
    states = [0, 0] if stated is None else [1, stated]
    lent = [*states, int(asked), places, scratch, output]
    given.append(" ".join([name, *words(mask), "|", *words(journal), "|", *map(str, lent)]))


def done(name, slots, answer, journal, extract, entries=None, scratch=0, spare=3, stated=None, before="", old_mask=False):
    """A call that is not refused, by a mask's slots and those before its skip: its answer, its extract, the entries where a list is
    asked for, and the bytes of scratch needed. Each buffer is lent with so much to spare."""
    extract, asked = extract.whole(), entries is not None
    call(name, mask(slots, before, old_mask), journal, stated, asked, len(entries or ()) + spare, scratch + spare, len(extract) + spare)
    expected.append(f"{name}: {answer} bytes {len(extract)}")
    expected.append(" ".join(["  extract", *(extract[i : i + 4].hex() for i in range(0, len(extract), 4))]))
    if asked:
        expected.append(" ".join(["  list", *map(str, entries)]))
    expected.append(f"  scratch zero {scratch}")
    expected.append("  rest kept")


def refused(name, slip, mask, journal, stated=None, asked=False, places=3, scratch=3, output=80):
    call(name, mask, journal, stated, asked, places, scratch, output)
    expected.append(f"{name}: refused {slip}")
    expected.append("  rest kept")


def worked_out(extract, *whole):
    """An extract whose bytes are also given whole, as numbers of four bytes: body, nodes, and the trailer up to its mark."""
    assert extract.whole() == numbers(4, whole) + MARK, extract.whole().hex()
    return extract


FIVE = pack().native(4, [5, 6, 7, 8, 9])
FOUR = pack().native(4, [1, 2, 3, 4])
NINE_RUNS = pack().runs(2, 9, range(1, 10)).native(1, range(1, 10))
NINE_IN_LISTS = pack().lists([5, 4]).native(1, range(1, 10))
# the specification's own bytes
P1 = worked_out(Pack().native(4, [5, 8]), 5, 8, 2, 4, 2, 0, 0, NO_BITMAP, 0, 0, 0, 0, 8, 1, 2)


def bench():
    title("bench cases")
    done("P1-picks-5-and-8", "TFFTF", "rows 2 of 5 route indices", FIVE, P1)
    done("P2-a-null-slot-picks-nothing", "TNTF", "rows 2 of 4 route indices", FOUR, Pack().native(4, [1, 3]))
    done("P3-4-of-5-go-by-indices", "TTTTF", "rows 4 of 5 route indices", FIVE, Pack().native(4, [5, 6, 7, 8]), [0, 1, 2, 3])
    done("P4-5-of-6-go-by-slices", "FTTTTT", "rows 5 of 6 route slices",
         pack().native(4, [1, 2, 3, 4, 5, 6]), Pack().native(4, [2, 3, 4, 5, 6]), [1, 6])
    done("P5-0-of-0-none", "", "rows 0 of 0 route none", pack().native(4, []), Pack().native(4, []), [])
    rows = [b"x", None, b"yz"]
    done("P6-3-of-3-all", "TTT", "rows 3 of 3 route all", pack().texts(rows), Pack().texts(rows), [])
    # B6 and 5A, lowest bit first
    done("P7-B6-compressed-by-5A-is-5", "FTFTTFTF", "rows 4 of 8 route indices",
         pack().flags([False, True, True, False, True, True, False, True]), Pack().flags([True, False, True, False]))
    done("P8-offsets-0-2-5", "TFT", "rows 2 of 3 route indices", pack().texts([b"ab", b"", b"cde"]), Pack().texts([b"ab", b"cde"]))
    done("P9-run-ends-2-5-6-become-1-2", "TFFFFT", "rows 2 of 6 route indices",
         pack().runs(4, 6, [2, 5, 6]).native(4, [10, 20, 30]), Pack().runs(4, 2, [1, 2]).native(4, [10, 30]), scratch=1)
    done("P10-the-same-runs-skip-1", "FTT", "rows 2 of 3 route indices",
         pack().runs(4, 4, [2, 5, 6], skip=1).native(4, [10, 20, 30]), Pack().runs(4, 2, [2]).native(4, [20]), scratch=1)
    done("P11-no-bitmap-if-no-kept-row-is-null", "TFT", "rows 2 of 3 route indices",
         pack().native(4, [1, None, 3]), Pack().native(4, [1, 3]))


def length_128():
    """Bits with nulls at the edges of what goes by runs or row numbers."""
    title("length 128")
    rows = [Null(i % 3 == 0) if i % 10 == 7 else i * i % 7 < 3 for i in range(128)]
    for name, picks, answer, entries in (
        ("126-picks-go-by-runs", [i for i in range(128) if i not in (63, 64)], "126 of 128 route slices", [0, 63, 65, 128]),
        ("125-picks-compress", [i for i in range(128) if i not in (5, 63, 64)], "125 of 128 route slices", [0, 5, 6, 63, 65, 128]),
        ("2-stored-indices-go-by-row-numbers", [7, 100], "2 of 128 route indices", [7, 100]),
        ("3-stored-indices-compress", [7, 64, 100], "3 of 128 route indices", [7, 64, 100]),
        ("2-lazy-indices-compress", [7, 100], "2 of 128 route indices", None),
    ):
        slots = "".join("T" if i in picks else "F" for i in range(128))
        done(f"128-slots-{name}", slots, f"rows {answer}", pack().flags(rows), Pack().flags([rows[i] for i in picks]), entries)
    # three of every four rows: 48 of each word, so that the second word's bits overflow the first that is packed
    rows = [i % 5 < 2 for i in range(192)]
    done("192-slots-a-packed-word-overflows", "TTTF" * 48, "rows 144 of 192 route indices",
         pack().flags(rows), Pack().flags([rows[i] for i in range(192) if i % 4 != 3]))


def kinds():
    title("each kind, with a skip")
    done("kind-1-bits", "TFTTF", "rows 3 of 5 route indices",
         pack().flags([True, False, Null(True), True, False], [True, None, True]),
         Pack().flags([True, Null(True), True]))
    done("kind-2-native", "FTTFT", "rows 3 of 5 route indices",
         pack().native(2, [1, 500, Null(77), 4, 65_535], [8, 9]),
         Pack().native(2, [500, Null(77), 65_535]))
    done("kind-3-fixed", "TFTT", "rows 3 of 4 route indices",
         pack().fixed(3, [b"abc", b"def", Null(b"ghi"), b"jkl"], [b"xyz"]),
         Pack().fixed(3, [b"abc", Null(b"ghi"), b"jkl"]))
    # the first offset is not 0, and a null row has bytes
    for name, kind in (("kind-4-bytes", 4), ("kind-5-bytes64", 5)):
        done(name, "TTFFT", "rows 3 of 5 route indices",
             pack().texts([b"one", Null(b"lost"), b"", b"three", b"four"], [b"skipped", None], kind),
             Pack().texts([b"one", Null(b"lost"), b"four"], kind=kind))
    # the row passed over is no view
    long, longer = b"thirteen byte", b"a text of twenty-one."
    done("kind-6-views", "TTFT", "rows 3 of 4 route indices",
         pack().views(2, [view(b"short"), view(long, 1, 2), view(b"gone"), Null(view(longer, 0, 0))], [b"\xFF" * 16])
         .native(1, longer).native(1, b"__" + long + b"__", b"skip"),
         Pack().views(2, [view(b"short"), view(long, 1, 2), Null(view(longer, 0, 0))])
         .native(1, longer).native(1, b"__" + long + b"__"))
    for name, kind in (("kind-7-list-views", 7), ("kind-8-list-views64", 8)):
        done(name, "TTFT", "rows 3 of 4 route indices",
             pack().list_views([(2, 2), Null((4, 1)), (0, 5), (5, 0)], [(0, 1)], kind).native(4, [1, 2, None, 4, 5], [0]),
             Pack().list_views([(2, 2), Null((4, 1)), (5, 0)], kind=kind).native(4, [1, 2, None, 4, 5]))
    # places 4 to 8: the first two runs end before them, the last starts behind them
    done("kind-9-runs", "TFTFT", "rows 3 of 5 route indices",
         pack().runs(2, 5, [2, 3, 7, 9, 12], skip=4).texts([b"a", b"b", b"cc", None, b"e"], [b"-"]),
         Pack().runs(2, 3, [2, 3]).texts([b"cc", None]), scratch=1)
    # rows under a null row are kept as they stand
    done("kind-10-struct", "FTTF", "rows 2 of 4 route indices",
         pack().struct(2, [True, None, True, None], [True]).native(1, [1, 2, 3, 4], [0, 0]).flags([True, True, False, True]),
         Pack().struct(2, [None, True]).native(1, [2, 3]).flags([True, False]))
    done("kind-11-sparse-union", "TFTT", "rows 3 of 4 route indices",
         pack().union(2, [1, 0, 0, 1], [9]).native(8, [10, 20, 30, None]).texts([b"p", b"q", b"r", b"s"], [b"o"]),
         Pack().union(2, [1, 0, 1]).native(8, [10, 30, None]).texts([b"p", b"r", b"s"]))
    # the key of a null row may be any
    done("kind-12-dictionary", "TTFT", "rows 3 of 4 route indices",
         pack().dictionary(2, [2, Null(999), 1, 2], [777]).texts([b"zero", None, b"two"]),
         Pack().dictionary(2, [2, Null(999), 2]).texts([b"zero", None, b"two"]))
    # the first offset is 1; the one before skip is 5 and means nothing. A null row loses its child rows
    for name, kind in (("kind-13-lists", 13), ("kind-14-lists64", 14)):
        done(name, "TTFT", "rows 3 of 4 route indices",
             pack().lists([2, Null(1), 3, 1], [-4], kind, start=5).native(4, [0, 1, None, 3, 4, 5, 6, None, 8], [9]),
             Pack().lists([2, None, 1], kind=kind).native(4, [1, None, None]), scratch=2)


def every_kind(p, kept, ends, runs, skip):
    """A column of each kind, with those rows of six that are kept; a skip passes over one row more. The kept runs, and where they end.
    Null lists have child rows only with the skip, in what is filtered."""

    def rows(before, *six):
        return [six[i] for i in kept], [before] if skip else []

    def joined(before, *six):
        return [x for items in (before if skip else [], *(six[i] for i in kept)) for x in items]

    long, longer = b"thirteen byte", b"fourteen bytes"
    p.struct(14, *rows(None, True, True, None, True, True, True))
    p.flags(*rows(True, True, None, False, True, Null(True), False))
    p.native(4, *rows(9, 10, 11, None, 13, 14, 15))
    p.fixed(3, *rows(b"---", b"abc", b"def", b"ghi", None, b"mno", Null(b"pqr")))
    p.texts(*rows(b"before", b"one", b"", None, b"four", Null(b"lost"), b"six"))
    p.texts(*rows(None, b"1", b"22", b"333", b"4444", b"55555", b"666666"), kind=5)
    p.views(1, *rows(view(b""), view(b"a"), view(long, 0, 0), None, view(longer, 0, 13), view(b"twelve bytes"), view(b"")))
    p.native(1, long + longer)
    p.list_views(*rows((9, 9), (0, 2), (1, 1), None, (2, 1), (3, 0), Null((0, 3)))).native(2, [7, 8, 9])
    p.list_views(*rows((9, 9), (0, 0), (1, 0), (0, 1), (0, 1), (1, 0), (0, 0)), kind=8).texts([b"child"])
    p.runs(4, len(kept), ends, int(skip)).native(4, [(20, None, 22)[j] for j in runs])
    p.struct(1, *rows(True, True, None, True, True, True, None)).native(1, *rows(0, 1, 2, 3, 4, 5, 6))
    p.union(2, *rows(3, 0, 1, 1, 0, 0, 1)).flags(*rows(None, True, False, True, False, True, False)).native(8, *rows(0, 1, 2, 3, 4, 5, 6))
    p.dictionary(1, *rows(9, 0, 1, None, 1, Null(7), 0)).fixed(1, [b"x", b"y"])
    p.lists(*rows(1, 2, 0, Null(int(skip)), 1, 3, None)).native(2, joined([30], [31, 32], [], [33] if skip else [], [34], [35, 36, 37], []))
    p.lists(*rows(2, 1, 2, 0, Null(2 * skip), 1, 1), kind=14)
    p.texts(joined([b"no", b"no"], [b"A"], [b"B", None], [], [b"x", b"yy"] if skip else [], [b"CCC"], [b""]))
    return p


def kinds_by_routes():
    title("every kind, by each route")
    journal = every_kind(pack(), range(6), [3, 6, 9], range(3), True)
    for name, slots, answer, kept, ends, runs, entries in (
        ("all", "TTTTTT", "6 of 6 route all", range(6), [2, 5, 6], range(3), []),
        ("slices-stored", "TTTFTT", "5 of 6 route slices", [0, 1, 2, 4, 5], [2, 4, 5], range(3), [0, 3, 4, 6]),
        ("slices-lazy", "FTTTTT", "5 of 6 route slices", [1, 2, 3, 4, 5], [1, 4, 5], range(3), None),
        ("indices-stored", "FTFFTF", "2 of 6 route indices", [1, 4], [1, 2], [0, 1], [1, 4]),
        ("indices-lazy", "TFFFFT", "2 of 6 route indices", [0, 5], [1, 2], [0, 2], None),
    ):
        # children of 3 runs, of 8 and of 9 list rows
        done(f"every-kind-{name}", slots, f"rows {answer}", journal, every_kind(Pack(), kept, ends, runs, False), entries, scratch=1 + 1 + 2)


def widths():
    title("widths")
    journal, extract = pack().struct(6, [True] * 3), Pack().struct(6, [True] * 2)
    for width in (1, 2, 4, 8, 16, 32):
        journal.native(width, [256**width - 1, None, 3])
        extract.native(width, [256**width - 1, 3])
    done("native-of-every-width", "TFT", "rows 2 of 3 route indices", journal, extract)
    journal, extract = pack().struct(4, [True] * 3), Pack().struct(4, [True] * 2)
    for width in (1, 2, 4, 8):
        journal.dictionary(width, [1, 0, 0]).native(1, [7, 8])
        extract.dictionary(width, [1, 0]).native(1, [7, 8])
    done("keys-of-every-width", "TFT", "rows 2 of 3 route indices", journal, extract)
    journal, extract = pack().struct(3, [True] * 3), Pack().struct(3, [True] * 2)
    for width in (2, 4, 8):
        journal.runs(width, 3, [2, 256**width // 2 - 1]).native(1, [7, 8])
        extract.runs(width, 2, [1, 2]).native(1, [7, 8])
    done("run-ends-of-every-width", "TFT", "rows 2 of 3 route indices", journal, extract, scratch=3)
    done("fixed-of-width-0", "TFT", "rows 2 of 3 route indices", pack().fixed(0, [b"", None, b""]), Pack().fixed(0, [b"", b""]))
    a, b, c = (letter * 40 for letter in (b"a", b"b", b"c"))
    done("fixed-of-width-40", "TFT", "rows 2 of 3 route indices", pack().fixed(40, [a, b, c]), Pack().fixed(40, [a, c]))


def nesting():
    title("nesting")
    # hire, fare, street, shift, paid by card, note
    done("struct-of-six-columns", "TFTTFT", "rows 4 of 6 route indices",
         pack().struct(6, [True, True, None, True, True, True])
         .native(8, [100, 101, 102, 103, 104, 105])
         .native(4, [350, None, 720, None, 410, 500], [1])
         .dictionary(1, [0, 1, 1, None, 0, 2]).texts([b"Amber Lane", b"Bell Street", b"Canal Road"])
         .runs(4, 6, [2, 3, 6]).texts([b"early", b"late", b"night"])
         .flags([True, False, None, True, True, False], [True, True])
         .texts([None, b"receipt", b"luggage", None, b"x", b"waited"], [b"no"]),
         Pack().struct(6, [True, None, True, True])
         .native(8, [100, 102, 103, 105])
         .native(4, [350, 720, None, 500])
         .dictionary(1, [0, 1, None, 2]).texts([b"Amber Lane", b"Bell Street", b"Canal Road"])
         .runs(4, 4, [1, 2, 4]).texts([b"early", b"late", b"night"])
         .flags([True, None, True, False])
         .texts([None, b"luggage", None, b"waited"]), scratch=1)
    # all rows of the runs are kept, places 2 to 4: the first run lies before them, the last behind
    done("runs-under-a-carried-child", "TFT", "rows 2 of 3 route indices",
         pack().dictionary(1, [2, 0, 1]).runs(4, 3, [2, 4, 7, 9], skip=2).native(4, [1, 2, 3, 4]),
         Pack().dictionary(1, [2, 1]).runs(4, 3, [2, 3]).native(4, [2, 3]), scratch=1)
    done("carried-children-under-each-other", "FT", "rows 1 of 2 route indices",
         pack().list_views([(0, 1), (1, 2)]).dictionary(1, [1, 0, None], [5])
         .views(1, [view(b"in"), view(b"a longer street")]).native(1, b"a longer street"),
         Pack().list_views([(1, 2)]).dictionary(1, [1, 0, None])
         .views(1, [view(b"in"), view(b"a longer street")]).native(1, b"a longer street"))
    # the list's child keeps all its rows, which are none: so its own child keeps none
    done("a-carried-child-that-has-no-rows", "TF", "rows 1 of 2 route indices",
         pack().list_views([(0, 0), (0, 0)]).dictionary(1, []).texts([b"x", b"y"]),
         Pack().list_views([(0, 0)]).dictionary(1, []).texts([]))
    done("no-row-kept-in-every-kind", "FFF", "rows 0 of 3 route none",
         pack().struct(11, [True, None, True])
         .flags([True, None, False]).fixed(2, [b"ab", b"cd", b"ef"]).texts([b"a", b"b", None]).texts([b"a", b"b", b"c"], kind=5)
         .views(1, [view(b"s"), view(b"thirteen byte"), None]).native(1, b"thirteen byte")
         .list_views([(0, 2), (1, 1), (0, 0)], kind=8).dictionary(4, [0, 1]).texts([b"x", b"y"])
         .runs(8, 3, [1, 3]).runs(2, 2, [1, 2]).native(4, [1, 2])
         .union(1, [0, 0, 0]).native(1, [1, 2, 3])
         .dictionary(2, [0, 1, 0]).struct(1, [True, None]).native(8, [1, 2])
         .lists([2, Null(1), 0]).lists([1, 0, 1], kind=14).native(4, [1, 2])
         .lists([0, 0, 1], kind=14).dictionary(1, [0]).texts([b"x"]),
         Pack().struct(11, [])
         .flags([]).fixed(2, []).texts([]).texts([], kind=5)
         .views(1, []).native(1, [])
         .list_views([], kind=8).dictionary(4, []).texts([])
         .runs(8, 0, []).runs(2, 0, []).native(4, [])
         .union(1, []).native(1, [])
         .dictionary(2, []).struct(1, []).native(8, [])
         .lists([]).lists([], kind=14).native(4, [])
         .lists([], kind=14).dictionary(1, []).texts([]), scratch=5)
    journal, extract = pack(), Pack()
    for _ in range(7):
        journal.struct(1, [True] * 3)
        extract.struct(1, [True] * 2)
    done("depth-8", "FTT", "rows 2 of 3 route indices", journal.native(4, [1, 2, 3]), extract.native(4, [2, 3]))
    journal, extract = pack().struct(63, [True] * 3), Pack().struct(63, [True])
    for _ in range(63):
        journal.fixed(0, [b""] * 3)
        extract.fixed(0, [b""])
    done("64-nodes", "FTF", "rows 1 of 3 route indices", journal, extract)
    done("struct-of-no-column", "TFT", "rows 2 of 3 route indices", pack().struct(0, [True, True, None]), Pack().struct(0, [True, None]))


def under_runs():
    title("under runs")
    # the two outer runs of rows 2 to 5 go, and with their values the inner run of rows 1 and 2
    done("runs-under-runs", "TFFFFFTFT", "rows 3 of 9 route indices",
         pack().runs(4, 9, [2, 5, 6, 9]).runs(2, 4, [1, 3, 4]).texts([b"a", b"b", b"c"]),
         Pack().runs(4, 3, [1, 3]).runs(2, 2, [1, 2]).texts([b"a", b"c"]), scratch=2)
    done("runs-with-equal-neighbours-are-not-merged", "TFTFT", "rows 3 of 5 route indices",
         pack().runs(4, 5, [1, 4, 5]).native(1, [7, 7, 7]), Pack().runs(4, 3, [1, 2, 3]).native(1, [7, 7, 7]), scratch=1)
    done("struct-under-runs", "FFTT", "rows 2 of 4 route indices",
         pack().runs(4, 4, [1, 3, 4]).struct(2, [True, None, True], [True]).native(2, [1, 2, 3]).views(0, [view(b"u"), view(b"v"), None]),
         Pack().runs(4, 2, [1, 2]).struct(2, [None, True]).native(2, [2, 3]).views(0, [view(b"v"), None]), scratch=1)
    done("dictionary-under-runs", "TF", "rows 1 of 2 route indices",
         pack().runs(4, 2, [1, 2]).dictionary(1, [1, 0]).native(1, [8, 9]),
         Pack().runs(4, 1, [1]).dictionary(1, [1]).native(1, [8, 9]), scratch=1)
    # more runs than a word has bits: 70 of two rows each
    flags, texts = [Null(True) if j % 11 == 5 else j % 3 == 1 for j in range(70)], [b"%d" % j for j in range(70)]
    journal = pack().runs(2, 140, range(2, 142, 2)).struct(2, [True] * 70).flags(flags, [None]).texts(texts, [b"-"])
    for name, slots, answer, kept, ends in (
        ("each-third-kept", "TFFFFF" * 23 + "FT", "24 of 140 route indices", range(0, 70, 3), range(1, 25)),
        ("one-dropped", "T" * 80 + "FF" + "T" * 58, "138 of 140 route slices", [*range(40), *range(41, 70)], range(2, 140, 2)),
    ):
        extract = Pack().runs(2, ends[-1], ends).struct(2, [True] * len(kept))
        extract.flags([flags[j] for j in kept]).texts([texts[j] for j in kept])
        done(f"70-runs-{name}", slots, f"rows {answer}", journal, extract, scratch=9)


def lists():
    title("lists")
    # 1, 3, 4, 5 become 0, 2, 3: not from the journal's first offset on; child rows 0 and 5 are in no list
    done("list-offsets-are-rebuilt-from-0", "TFT", "rows 2 of 3 route indices",
         pack().lists([2, 1, 1], start=1).native(4, [9, 10, 11, 12, 13, 14]),
         worked_out(Pack().lists([2, 1]).native(4, [10, 11, 13]), 0, 2, 3, 0, 10, 11, 13, 0,
                    13, 0, 2, 0, 1, NO_BITMAP, 0, 0, 0, 0, 2, 4, 3, 0, 0, NO_BITMAP, 16, 0, 0, 0, 32, 2, 2), scratch=1)
    # the bitmap, row 0 valid; the null row repeats the offset
    done("a-null-list-loses-its-child-rows", "TTF", "rows 2 of 3 route indices",
         pack().lists([2, Null(1), 1]).native(4, [10, 11, 12, 13]),
         worked_out(Pack().lists([2, None]).native(4, [10, 11]), 1, 0, 0, 2, 2, 0, 10, 11,
                    13, 0, 2, 0, 1, 0, 8, 0, 0, 1, 2, 4, 2, 0, 0, NO_BITMAP, 24, 0, 0, 0, 32, 2, 2), scratch=1)
    done("a-null-list64-loses-its-child-rows", "TTF", "rows 2 of 3 route indices",
         pack().lists([2, Null(1), 1], kind=14).native(4, [10, 11, 12, 13]),
         worked_out(Pack().lists([2, None], kind=14).native(4, [10, 11]), 1, 0, 0, 0, 2, 0, 2, 0, 10, 11,
                    14, 0, 2, 0, 1, 0, 8, 0, 0, 1, 2, 4, 2, 0, 0, NO_BITMAP, 32, 0, 0, 0, 40, 2, 2), scratch=1)
    done("a-null-list-that-is-dropped", "TFT", "rows 2 of 3 route indices",
         pack().lists([2, Null(1), 1]).native(4, [10, 11, 12, 13]), Pack().lists([2, 1]).native(4, [10, 11, 13]), scratch=1)
    done("all-lists-lose-what-is-in-none", "TTTT", "rows 4 of 4 route all",
         pack().lists([1, Null(2), 0, 2], kind=14, start=2).texts([b"a", b"b", b"c", b"d", b"e", b"f", b"g", b"h"]),
         Pack().lists([1, None, 0, 2], kind=14).texts([b"c", b"f", b"g"]), [], scratch=1)
    # no child row is kept: so the street names go too, which the dictionary would carry
    done("kept-lists-that-are-null-or-empty", "TTF", "rows 2 of 3 route indices",
         pack().lists([0, Null(2), 1]).dictionary(1, [0, 1, 1]).texts([b"Amber Lane", b"Bell Street"]),
         Pack().lists([0, None]).dictionary(1, []).texts([]), scratch=1)
    done("lists-with-0-rows-and-an-offset-of-2", "", "rows 0 of 0 route none",
         pack().lists([], start=2).native(1, [1, 2, 3]), Pack().lists([]).native(1, []), scratch=1)
    done("lists-of-bytes", "FTT", "rows 2 of 3 route indices",
         pack().lists([1, 2, 1]).texts([b"one", b"two", None, Null(b"lost")], [b"skipped"]),
         Pack().lists([2, 1]).texts([b"two", None, Null(b"lost")]), scratch=1)
    # way points: a null struct row, a null in a column, skips
    done("lists-of-struct", "TFT", "rows 2 of 3 route indices",
         pack().lists([2, 1, 2], [1]).struct(2, [True, True, None, True, True, None]).native(2, [0, 10, 20, 30, 40, 50], [9, 9])
         .native(2, [1, None, 21, 31, None, 51]),
         Pack().lists([2, 2]).struct(2, [True, None, True, None]).native(2, [10, 20, 40, 50]).native(2, [None, 21, None, 51]), scratch=1)
    done("lists-of-a-dictionary-carry-its-child", "FT", "rows 1 of 2 route indices",
         pack().lists([1, 2]).dictionary(1, [0, 2, None]).texts([b"x", b"y", b"z"]),
         Pack().lists([2]).dictionary(1, [2, None]).texts([b"x", b"y", b"z"]), scratch=1)
    done("lists-of-views-and-list-views-carry-their-children", "TF", "rows 1 of 2 route indices",
         pack().struct(2, [True, True])
         .lists([1, 1]).views(1, [view(b"thirteen byte", 0, 1), view(b"s")]).native(1, b"_thirteen byte")
         .lists([1, 1]).list_views([(0, 2), (1, 2)]).native(1, [5, 6, 7]),
         Pack().struct(2, [True])
         .lists([1]).views(1, [view(b"thirteen byte", 0, 1)]).native(1, b"_thirteen byte")
         .lists([1]).list_views([(0, 2)]).native(1, [5, 6, 7]), scratch=2)
    # more child rows than a word has bits: 70 lists of two
    flags, texts = [Null(True) if j % 11 == 5 else j % 3 == 1 for j in range(140)], [b"%d" % (j % 10) for j in range(140)]
    journal = pack().lists([2] * 70).struct(2, [True] * 140).flags(flags, [None]).texts(texts, [b"-"])
    for name, slots, answer, kept in (
        ("each-third-kept", "TFF" * 23 + "F", "23 of 70 route indices", range(0, 69, 3)),
        ("one-dropped", "T" * 32 + "F" + "T" * 37, "69 of 70 route slices", [*range(32), *range(33, 70)]),
    ):
        below = [j for i in kept for j in (2 * i, 2 * i + 1)]
        extract = Pack().lists([2] * len(kept)).struct(2, [True] * len(below))
        extract.flags([flags[j] for j in below]).texts([texts[j] for j in below])
        done(f"70-lists-{name}", slots, f"rows {answer}", journal, extract, scratch=18)


def nested_lists():
    title("lists under other kinds, and under each other")
    # the kept list has a null one in it, whose child rows go, an empty one and one of two
    done("lists-under-lists", "FTF", "rows 1 of 3 route indices",
         pack().lists([1, 3, 1]).lists([1, Null(2), 0, 2, 1]).native(4, [10, 20, 21, 40, 41, 50]),
         worked_out(Pack().lists([3]).lists([None, 0, 2]).native(4, [40, 41]), 0, 3, 0b110, 0, 0, 0, 0, 2, 40, 41,
                    13, 0, 1, 0, 1, NO_BITMAP, 0, 0, 0, 0, 13, 0, 3, 0, 1, 8, 16, 0, 0, 1, 2, 4, 2, 0, 0, NO_BITMAP, 32, 0, 0, 0, 40, 3, 1),
         scratch=2)
    # the offsets start at 3 and below at 2; kept are the inner lists 3 and 4, none (a null, over the list of 18 and 19), and 7
    done("lists-under-lists-with-skips", "TFTT", "rows 3 of 4 route indices",
         pack().lists([2, 1, Null(1), 1], [3], 14).lists([1, 2, 0, 1, 1, 1, 2, 1], [2]).native(1, range(10, 21), [7]),
         Pack().lists([2, None, 1], kind=14).lists([1, 1, 1]).native(1, [15, 16, 20]), scratch=3)
    # a run of rows 0 and 1 and one of row 3 are kept: their lists, once each, and the child rows of these
    done("lists-under-runs", "TTFT", "rows 3 of 4 route indices",
         pack().runs(4, 4, [2, 3, 4]).lists([2, 3, 1]).native(4, [1, 2, 3, 4, 5, 6]),
         worked_out(Pack().runs(4, 3, [2, 3]).lists([2, 1]).native(4, [1, 2, 6]), 2, 3, 0, 2, 3, 0, 1, 2, 6, 0,
                    9, 4, 3, 0, 1, NO_BITMAP, 0, 0, 0, 0, 13, 0, 2, 0, 1, NO_BITMAP, 8, 0, 0, 0, 2, 4, 3, 0, 0, NO_BITMAP, 24, 0, 0, 0, 40, 3, 3),
         scratch=2)
    # child rows 0 and 1, none, and 5: one in each of the runs
    done("runs-under-lists", "TTFT", "rows 3 of 4 route indices",
         pack().lists([2, Null(1), 2, 1]).runs(4, 6, [1, 4, 6]).native(4, [10, 20, 30]),
         worked_out(Pack().lists([2, None, 1]).runs(4, 3, [1, 2, 3]).native(4, [10, 20, 30]), 0b101, 0, 0, 2, 2, 3, 1, 2, 3, 0, 10, 20, 30, 0,
                    13, 0, 3, 0, 1, 0, 8, 0, 0, 1, 9, 4, 3, 0, 1, NO_BITMAP, 24, 0, 0, 0, 2, 4, 3, 0, 0, NO_BITMAP, 40, 0, 0, 0, 56, 3, 3),
         scratch=2)
    # the runs of a dropped list and of a null one go; the child rows are the places 2 to 6 of the runs
    done("runs-under-lists-go-with-their-lists", "TFT", "rows 2 of 3 route indices",
         pack().lists([1, 2, Null(2)]).runs(2, 5, [3, 5, 9], skip=2).native(4, [1, 2, 3]),
         Pack().lists([1, None]).runs(2, 1, [1]).native(4, [1]), scratch=2)
    done("lists-under-a-null-struct-row", "TF", "rows 1 of 2 route indices",
         pack().struct(1, [None, True]).lists([2, 1]).native(1, [1, 2, 3]), Pack().struct(1, [None]).lists([2]).native(1, [1, 2]), scratch=1)
    done("lists-under-a-union", "FT", "rows 1 of 2 route indices",
         pack().union(2, [0, 1]).lists([1, 2]).native(1, [1, 2, 3]).flags([True, False]),
         Pack().union(2, [1]).lists([2]).native(1, [2, 3]).flags([False]), scratch=1)
    # all lists are kept, but no child row that is under a null one or in none
    done("lists-under-a-carried-child", "TF", "rows 1 of 2 route indices",
         pack().dictionary(1, [2, 0]).lists([1, Null(2), 1], start=1).native(1, [1, 2, 3, 4, 5, 6]),
         Pack().dictionary(1, [2]).lists([1, None, 1]).native(1, [2, 5]), scratch=1)
    done("lists-under-list-views", "TF", "rows 1 of 2 route indices",
         pack().list_views([(0, 1), (1, 1)]).lists([1, Null(1)]).native(1, [1, 2]),
         Pack().list_views([(0, 1)]).lists([1, None]).native(1, [1]), scratch=1)
    # row 1 has rows 1 and 2 of the next level, and these have rows 1 and 2 of each level below
    journal, extract = pack().lists([1, 2]), Pack().lists([2])
    for _ in range(6):
        journal.lists([1, 1, 1])
        extract.lists([1, 1])
    done("lists-to-depth-8", "FT", "rows 1 of 2 route indices", journal.native(4, [1, 2, 3]), extract.native(4, [2, 3]), scratch=7)


def masks():
    title("masks and routes")
    done("a-mask-shorter-than-the-journal", "FTT", "rows 2 of 3 route indices", FIVE, Pack().native(4, [6, 7]), [1, 2])
    done("all-of-a-mask-shorter-than-the-journal", "TT", "rows 2 of 2 route all",
         pack().native(4, [5, 6, None], [None]), Pack().native(4, [5, 6]), [])
    done("an-empty-mask-and-five-rows", "", "rows 0 of 0 route none", FIVE, Pack().native(4, []))
    done("none-of-five", "FnFNF", "rows 0 of 5 route none", FIVE, Pack().native(4, []), [])
    done("a-mask-with-nulls-and-a-skip", "TNTFn", "rows 2 of 5 route indices", FIVE, Pack().native(4, [5, 7]), [0, 2], before="TFTTTTTTN")
    done("all-by-a-mask-with-a-bitmap", "TT", "rows 2 of 2 route all", pack().native(4, [1, 2], [3]), Pack().native(4, [1, 2]), [], before="n")
    rows = [3 * i for i in range(70)]
    kept = rows[:62] + rows[63:]
    done("slices-across-a-word", "T" * 62 + "F" + "T" * 7, "rows 69 of 70 route slices",
         pack().native(1, rows), Pack().native(1, kept), [0, 62, 63, 70])
    done("slices-that-are-not-stored", "T" * 62 + "N" + "T" * 7, "rows 69 of 70 route slices",
         pack().native(1, rows, [0]), Pack().native(1, kept), before="F")
    done("indices-across-a-word", "F" * 63 + "TTT" + "F" * 4, "rows 3 of 70 route indices",
         pack().native(1, rows), Pack().native(1, [189, 192, 195]), [63, 64, 65])
    # the same body serves two columns, at any place; the table starts at an odd one
    overlapping = Pack().node(10, 0, 3, kids=2).node(2, 4, 3, first=1).node(2, 2, 3, skip=1, first=0)
    overlapping.body = bytes(range(1, 14))
    done("buffers-that-overlap", "TFT", "rows 2 of 3 route indices", overlapping,
         Pack().struct(2, [True] * 2).native(4, [0x05040302, 0x0D0C0B0A]).native(2, [0x0403, 0x0807]))


def limits():
    title("what is lent is just enough; a count is stated")
    done("list-scratch-and-output-exact", "TFTFT", "rows 3 of 5 route indices",
         NINE_RUNS, Pack().runs(2, 3, [1, 2, 3]).native(1, [1, 3, 5]), [0, 2, 4], scratch=2, spare=0)
    done("list-scratch-and-output-exact-for-lists", "FT", "rows 1 of 2 route indices",
         NINE_IN_LISTS, Pack().lists([4]).native(1, [6, 7, 8, 9]), [1], scratch=2, spare=0)
    # 9 child rows, 1, and 9 runs: two bytes, one and two
    done("scratch-exact-for-lists-and-runs", "TF", "rows 1 of 2 route indices",
         pack().struct(2, [True] * 2).lists([1, 0]).lists([9], kind=14).native(1, range(1, 10)).runs(2, 2, range(1, 10)).native(1, range(9)),
         Pack().struct(2, [True]).lists([1]).lists([9], kind=14).native(1, range(1, 10)).runs(2, 1, [1]).native(1, [0]), scratch=5, spare=0)
    done("slices-exact", "TTTTTTFTTT", "rows 9 of 10 route slices",
         pack().native(1, range(10)), Pack().native(1, [0, 1, 2, 3, 4, 5, 7, 8, 9]), [0, 6, 7, 10], spare=0)
    done("all-stored-in-no-list", "TTTTT", "rows 5 of 5 route all", FIVE, Pack().native(4, [5, 6, 7, 8, 9]), [], spare=0)
    done("stated-count-right", "TNTF", "rows 2 of 4 route indices", FOUR, Pack().native(4, [1, 3]), stated=2)
    done("stated-count-0-right", "nNF", "rows 0 of 3 route none", FOUR, Pack().native(4, []), stated=0)


KIND_99 = Pack().node(99, 0, 0)
FALLING = Pack()
FALLING.node(4, 0, 2, first=FALLING.buffer(numbers(4, [0, 3, 2])), second=FALLING.buffer(b"abc"), length=3)


def in_8_bytes(kind, param, rows):
    """A column whose first buffer has a body of 8 bytes."""
    p = Pack()
    return p.node(kind, param, rows, first=p.buffer(bytes(8)))


def slips():
    title("refusal slips: each number's example, of each pack that it can name")
    good = mask("TFFTF")
    for number, name, bad_mask, bad_journal in (
        (1, "15-bytes", bytes(15), bytes(15)),
        (2, "ends-in-00", good.whole()[:-1] + b"\0", FIVE.whole()[:-1] + b"\0"),
        (3, "0-nodes", numbers(4, [0, 0, 0]) + MARK, numbers(4, [0, 0, 0]) + MARK),
        (4, "kind-99", KIND_99, KIND_99),
        (5, "1-node-with-1-kid", Pack().node(10, 0, 0, kids=1), Pack().node(10, 0, 0, kids=1)),
        (6, "1048577-rows", Pack().node(1, 0, 1_048_577), Pack().node(1, 0, 1_048_577)),
        (7, "12-bytes-in-a-body-of-8", in_8_bytes(1, 0, 96), in_8_bytes(2, 4, 3)),
        (8, "offsets-0-3-2", FALLING, FALLING),
    ):
        refused(f"{number}-mask-{name}", f"{number} mask", bad_mask, FIVE)
        refused(f"{number}-journal-{name}", f"{number} journal", good, bad_journal)
    refused("9-native-root", "9 mask", FIVE, FIVE)
    refused("10-6-against-5", "10 journal", mask("TTTTTT"), FIVE)
    refused("11-3-for-T-null-T-F", "11 mask", mask("TNTF"), FOUR, stated=3)
    refused("12-3-picks-by-indices-2-places", "12 journal", mask("TTTFF"), FIVE, asked=True, places=2)
    refused("13-9-runs-1-byte", "13 journal", good, NINE_RUNS, scratch=1, output=200)
    refused("14-64-into-63", "14 journal", good, FIVE, output=63)


def three_in_lists(kind, offsets, valid=0b11, **fields):
    """Lists by their offsets, over a child of three rows; their bits of the bitmap; fields that a list does not use may be given."""
    p = Pack()
    validity, first = p.buffer(bytes([valid])), p.buffer(numbers(4 if kind == 13 else 8, offsets))
    rows = len(offsets) - 1
    p.node(kind, 0, rows, 0, 1, validity, first, nulls=sum(not valid >> i & 1 for i in range(rows)), **fields)
    return p.native(1, [7, 8, 9])


def list_slips():
    title("refusal slips: lists")
    for name, kind in (("lists", 13), ("lists64", 14)):
        top = 2 ** (31 if kind == 13 else 63)
        for case, number, journal in (
            ("second-at-not-0", 4, three_in_lists(kind, [0, 1, 3], second=8)),
            ("second-length-not-0", 4, three_in_lists(kind, [0, 1, 3], length=3)),
            ("offsets-0-3-2", 8, three_in_lists(kind, [0, 3, 2])),
            ("offsets-0-3-2-in-a-null-row", 8, three_in_lists(kind, [0, 3, 2], valid=0b01)),
            ("offsets-0-1-4-in-3-child-rows", 8, three_in_lists(kind, [0, 1, 4])),
            ("an-offset-past-the-child-with-0-rows", 8, three_in_lists(kind, [4])),
            ("a-negative-offset-with-0-rows", 8, three_in_lists(kind, [top])),
        ):
            refused(f"{number}-{name}-{case}", f"{number} journal", mask("T"), journal)
    refused("13-lists-of-9-child-rows-1-byte", "13 journal", mask("FT"), NINE_IN_LISTS, scratch=1, output=200)
    refused("13-lists64-of-9-child-rows-1-byte", "13 journal", mask("T"), pack().lists([9], kind=14).native(1, range(9)), scratch=1, output=200)
    refused("13-lists-though-no-row-is-kept", "13 journal", mask("FF"), NINE_IN_LISTS, scratch=1, output=200)
    # a byte for the lists and a byte for the runs below them
    refused("13-lists-of-runs-1-byte", "13 journal", mask("T"), pack().lists([1]).runs(2, 1, [1]).native(1, [7]), scratch=1, output=200)
    # two offsets of 4 bytes, four child rows raised to 8 bytes, two nodes, the trailer; then offsets of 8 bytes
    refused("14-lists-112-into-111", "14 journal", mask("FT"), NINE_IN_LISTS, output=8 + 8 + 2 * 40 + 16 - 1)
    refused("14-lists64-120-into-119", "14 journal", mask("FT"), pack().lists([5, 4], kind=14).native(1, range(1, 10)), output=16 + 8 + 2 * 40 + 16 - 1)


def view_slips():
    title("refusal slips: views, whether or not the mask picks them")
    text = b"a text of twenty-one."
    right = view(text[2:], 0, 2)
    for case, row in (
        ("prefix-of-the-buffer-s-start", right[:4] + text[:4] + right[8:]),
        ("prefix-untrue-in-its-last-byte", right[:7] + b"?" + right[8:]),
        ("prefix-untrue-in-a-null-row", Null(right[:4] + b"?" + right[5:])),
        ("unused-byte-in-the-prefix-s-place", view(b"two")[:7] + b"?" + bytes(8)),
        ("last-unused-byte", view(b"eleven byte")[:15] + b"?"),
        ("last-unused-byte-in-a-null-row", Null(view(b"")[:15] + b"?")),
    ):
        for picked, slots in (("picked", "TT"), ("dropped", "TF")):
            refused(f"8-views-{case}-{picked}", "8 journal", mask(slots), pack().views(1, [right, row]).native(1, text), output=200)
    # with 0 kids every view is short
    done("views-of-0-to-12-bytes", "TFT", "rows 2 of 3 route indices",
         pack().views(0, [view(b""), view(b"eleven byte"), view(b"twelve bytes")]), Pack().views(0, [view(b""), view(b"twelve bytes")]))


def saying(p, i, count):
    """The pack, with another null count on node i."""
    p.nodes[i] = (*p.nodes[i][:9], count)
    return p


def one_of_three(old=False):
    """1, null and 3, behind two null rows that are passed over."""
    return pack(old).native(4, [1, None, 3], [None, None])


def null_counts():
    title("null counts, and packs with the old mark")
    # the bitmap 01, the values 1 and 0, and one row null in the last field
    one_null = worked_out(Pack().native(4, [1, None]), 1, 0, 1, 0, 2, 4, 2, 0, 0, 0, 8, 0, 0, 1, 16, 1, 2)
    done("null-count-of-the-kept-rows", "TTF", "rows 2 of 3 route indices", one_of_three(), one_null)
    done("null-count-of-an-old-journal", "TTF", "rows 2 of 3 route indices", one_of_three(old=True), one_null)
    done("null-count-0-and-no-bitmap", "TFT", "rows 2 of 3 route indices", one_of_three(), Pack().native(4, [1, 3]))
    done("every-kind-of-old-packs", "TTTFTT", "rows 5 of 6 route slices",
         every_kind(pack(old=True), range(6), [3, 6, 9], range(3), True),
         every_kind(Pack(), [0, 1, 2, 4, 5], [2, 4, 5], range(3), False), scratch=1 + 1 + 2, old_mask=True)
    for case, journal in (
        ("of-the-rows-passed-over-too", saying(one_of_three(), 0, 3)),
        ("of-the-valid-rows", saying(one_of_three(), 0, 2)),
        ("0", saying(one_of_three(), 0, 0)),
        ("4294967295", saying(one_of_three(), 0, 4_294_967_295)),
        ("without-a-bitmap", saying(pack().native(4, [1, 2, 3]), 0, 1)),
        ("of-runs", saying(pack().runs(2, 3, [3]).native(1, [7]), 0, 1)),
        ("of-a-union", saying(pack().union(1, [0, 0, 0]).native(1, [7, 8, 9]), 0, 1)),
        ("of-the-last-node", saying(pack().struct(1, [True, None, True]).native(1, [7, 8, 9]), 1, 1)),
        ("of-a-data-buffer", saying(pack().views(1, [view(b"")] * 3).native(1, b"x"), 1, 1)),
    ):
        refused(f"20-null-count-{case}", "20 journal", mask("TTF"), journal, output=200)
    refused("20-mask-null-count-2", "20 mask", saying(mask("TNTF"), 0, 2), FOUR)
    refused("4-null-count-with-the-old-mark", "4 journal", mask("TTF"), saying(one_of_three(old=True), 0, 1))
    refused("2-mark-ends-in-52", "2 journal", mask("TTF"), one_of_three().whole()[:-1] + b"\x52")
    refused("8-before-20", "8 journal", mask("T"), saying(three_in_lists(13, [0, 3, 2]), 0, 1))
    refused("20-before-9", "20 mask", saying(one_of_three(), 0, 0), FOUR)
    refused("20-before-10", "20 journal", mask("TTTT"), saying(one_of_three(), 0, 0))
    refused("20-before-11", "20 mask", saying(mask("TNTF"), 0, 0), FOUR, stated=3)
    refused("20-before-12", "20 journal", mask("TTF"), saying(one_of_three(), 0, 0), asked=True, places=1)
    refused("11-before-20-of-the-journal", "11 mask", mask("TTF"), saying(one_of_three(), 0, 0), stated=3)


def order():
    title("refusal slips: edges and order")
    good = mask("TFFTF")
    refused("12-slices-one-place-short", "12 journal", mask("TTTTTTFTTT"), pack().native(1, range(10)), asked=True, places=3)
    refused("13-though-no-row-is-kept", "13 journal", mask("FFFFF"), NINE_RUNS, scratch=1, output=200)
    refused("14-no-output", "14 journal", mask(""), FIVE, output=0)
    refused("9-before-the-journal-is-tried", "9 mask", FIVE, bytes(15))
    refused("11-before-the-journal-is-tried", "11 mask", good, KIND_99, stated=5)
    refused("8-before-10", "8 journal", mask("TTTTTT"), FALLING)
    refused("10-before-12", "10 journal", mask("TTTFFF"), FIVE, asked=True, places=2)
    refused("12-before-13", "12 journal", mask("TTTFF"), NINE_RUNS, asked=True, places=2, scratch=1)
    refused("13-before-14", "13 journal", good, NINE_RUNS, scratch=1, output=0)
    # the first column's buffer leaves the body, the second's param is none
    both = Pack().node(10, 0, 3, kids=2).node(2, 4, 3).node(2, 3, 3)
    refused("4-of-the-last-node-before-7-of-the-first", "4 journal", good, both)


def main():
    folder = sys.argv[1] if len(sys.argv) > 1 else os.path.join(os.path.dirname(os.path.abspath(__file__)), "..", "crates", "cases")
    for group in (bench, length_128, kinds, kinds_by_routes, widths, nesting, under_runs, lists, nested_lists, masks, limits, slips, list_slips, view_slips, null_counts, order):
        group()
    for name, lines in (("stdin", given), ("stdout", expected)):
        text = "".join(line + "\n" for line in lines)
        assert name == "stdout" or len(text) < TEXT_ROOM, len(text)
        with open(os.path.join(folder, name), "w") as f:
            f.write(text)


if __name__ == "__main__":
    main()
