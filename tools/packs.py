"""Packs (docs/FORMAT.md, 3) built column by column, parent first. A row is a value; None, a null whose entry is 0 or empty; or
Null(entry), a null whose entry is that."""
import struct
from itertools import accumulate

MARK = bytes.fromhex("434F4C51")  # of a pack whose nodes carry their null counts
OLD_MARK = bytes.fromhex("434F4C50")
NO_BITMAP = 0xFFFFFFFF


class Null:
    def __init__(self, entry):
        self.entry = entry


def entry(row, blank):
    """What stands in the buffers for a row."""
    return blank if row is None else row.entry if isinstance(row, Null) else row


def valid(row):
    return row is not None and not isinstance(row, Null)


def nulls(rows):
    """The null count of a node with these rows from skip on."""
    return sum(not valid(row) for row in rows)


def numbers(width, values):
    return b"".join(v.to_bytes(width, "little") for v in values)


def view(text, buffer=0, offset=0):
    """A view's 16 bytes: a short text itself, or a long one's length, prefix, buffer number and offset."""
    rest = text.ljust(12, b"\0") if len(text) <= 12 else text[:4] + numbers(4, [buffer, offset])
    return numbers(4, [len(text)]) + rest


class Pack:
    """A pack as it grows. `waste` fills what means nothing: bytes between buffers, spare bits; 0 is what an extract has there. An `old` one
    has the old mark and no null counts. Every method that adds a column gives the pack back; `before` are the rows that its skip passes over."""

    def __init__(self, waste=0, old=False):
        self.body, self.nodes, self.waste, self.old = b"", [], waste, old

    def buffer(self, data):
        at = len(self.body)
        self.body += data + bytes([self.waste]) * (-len(data) % 8)
        return at

    def bits(self, values):
        """Packed bits, bit 0 of a byte first."""
        packed = bytearray(len(values) // 8)
        if len(values) % 8:
            packed.append(self.waste >> len(values) % 8 << len(values) % 8)
        for i, v in enumerate(values):
            packed[i // 8] |= bool(v) << i % 8
        return bytes(packed)

    def bitmap(self, rows):
        return NO_BITMAP if all(map(valid, rows)) else self.buffer(self.bits([valid(row) for row in rows]))

    def node(self, kind, param, rows, skip=0, kids=0, validity=NO_BITMAP, first=0, second=0, length=0, nulls=0):
        self.nodes.append((kind, param, rows, skip, kids, validity, first, second, length, 0 if self.old else nulls))
        return self

    def entries(self, kind, param, before, rows, entries, kids=0):
        """A column of one buffer."""
        validity = self.bitmap([*before, *rows])
        return self.node(kind, param, len(rows), len(before), kids, validity, self.buffer(entries), nulls=nulls(rows))

    def flags(self, rows, before=()):
        return self.entries(1, 0, before, rows, self.bits([entry(row, False) for row in (*before, *rows)]))

    def native(self, width, rows, before=()):
        return self.entries(2, width, before, rows, numbers(width, [entry(row, 0) for row in (*before, *rows)]))

    def fixed(self, width, rows, before=()):
        return self.entries(3, width, before, rows, b"".join(entry(row, bytes(width)) for row in (*before, *rows)))

    def texts(self, rows, before=(), kind=4):
        """Bytes with offsets of 32 bits; of 64 if the kind is 5."""
        texts = [entry(row, b"") for row in (*before, *rows)]
        validity = self.bitmap([*before, *rows])
        first = self.buffer(numbers(4 if kind == 4 else 8, accumulate(map(len, texts), initial=0)))
        data = b"".join(texts)
        return self.node(kind, 0, len(rows), len(before), 0, validity, first, self.buffer(data), len(data), nulls(rows))

    def views(self, kids, rows, before=()):
        """Rows are views; the data buffers come next, each native of width 1."""
        return self.entries(6, 0, before, rows, b"".join(entry(row, bytes(16)) for row in (*before, *rows)), kids)

    def list_views(self, rows, before=(), kind=7):
        """Rows are offset and size, of 32 bits; of 64 if the kind is 8. The child comes next."""
        ranges = [entry(row, (0, 0)) for row in (*before, *rows)]
        validity = self.bitmap([*before, *rows])
        width = 4 if kind == 7 else 8
        first = self.buffer(numbers(width, [offset for offset, _ in ranges]))
        second = self.buffer(numbers(width, [size for _, size in ranges]))
        return self.node(kind, 0, len(rows), len(before), 1, validity, first, second, nulls=nulls(rows))

    def runs(self, width, rows, ends, skip=0):
        """So many rows; the child, a row for each run, comes next."""
        return self.node(9, width, rows, skip, 1, first=self.buffer(numbers(width, ends)))

    def struct(self, kids, rows, before=()):
        """A row is True, or None for a null. The children come next."""
        return self.node(10, 0, len(rows), len(before), kids, self.bitmap([*before, *rows]), nulls=nulls(rows))

    def union(self, kids, ids, before=()):
        return self.entries(11, 0, before, ids, bytes([*before, *ids]), kids)

    def dictionary(self, width, keys, before=()):
        return self.entries(12, width, before, keys, numbers(width, [entry(row, 0) for row in (*before, *keys)]), 1)

    def lists(self, rows, before=(), kind=13, start=0):
        """A row is how many child rows it has: they follow one another from row `start` of the child on. Offsets of 32 bits; of 64 if the
        kind is 14. The child comes next."""
        sizes = [entry(row, 0) for row in (*before, *rows)]
        return self.entries(kind, 0, before, rows, numbers(4 if kind == 13 else 8, accumulate(sizes, initial=start)), 1)

    def whole(self):
        table = b"".join(struct.pack("<10I", *n) for n in self.nodes)
        return self.body + table + struct.pack("<3I", len(self.body), len(self.nodes), self.nodes[0][2]) + (OLD_MARK if self.old else MARK)
