#!/usr/bin/env python3
"""show.py FILE..: prints each pack (docs/FORMAT.md, 3) as a table, a struct's children side by side. A null is -.
It looks at what it prints, and is no checker: a pack that it shows may still be refused."""
import signal
import struct
import sys

PACK_LIMIT, ROW_LIMIT, NODE_LIMIT, DEPTH_LIMIT = 16_777_216, 1_048_576, 64, 8
NO_BITMAP = 0xFFFFFFFF
MARK, OLD_MARK = b"COLQ", b"COLP"  # with the first, nodes carry their null counts
ROWS_SHOWN, ITEMS_SHOWN, BYTES_SHOWN = 100, 5, 40  # a table is for a reader: the rest is counted, not printed
NAMES = ("", "bits", "native", "fixed", "bytes", "bytes64", "views", "list views", "list views64", "runs", "struct", "union", "dictionary",
         "lists", "lists64")
PARAMS = {2: (1, 2, 4, 8, 16, 32), 3: range(1025), 9: (2, 4, 8), 12: (1, 2, 4, 8)}
KIDS = {1: 0, 2: 0, 3: 0, 4: 0, 5: 0, 7: 1, 8: 1, 9: 1, 12: 1, 13: 1, 14: 1}
WIDTHS = {4: 4, 5: 8, 6: 16, 7: 4, 8: 8, 11: 1, 13: 4, 14: 8}  # of an entry; else param


class Bad(Exception):
    """Why a file is no pack."""


def need(fact, why):
    if not fact:
        raise Bad(why)


class Node:
    def __init__(self, body, nodes, depth):
        need(nodes, "a node is missing")
        need(depth <= DEPTH_LIMIT, "nested too deep")
        self.body = body
        self.kind, self.param, self.rows, self.skip, kids, self.validity, self.first, self.second, self.length, self.nulls = nodes.pop(0)
        need(1 <= self.kind < len(NAMES), f"there is no kind {self.kind}")
        need(self.param in PARAMS.get(self.kind, (0,)), f"param {self.param} of a {NAMES[self.kind]} node")
        need(KIDS.get(self.kind, kids) == kids, f"{kids} children of a {NAMES[self.kind]} node")
        need(self.skip + self.rows <= ROW_LIMIT, f"{self.skip + self.rows} rows")
        self.width = WIDTHS.get(self.kind, self.param)
        self.kids = []
        for _ in range(kids):
            self.kids.append(Node(body, nodes, depth + 1))
        if self.kind in (10, 11):
            need(all(k.rows == self.rows for k in self.kids), "a child has other rows than its parent")

    def title(self):
        return NAMES[self.kind] + (str(self.param) if self.kind in (2, 3) else "")

    def bytes(self, at, size):
        need(at + size <= len(self.body), "a buffer leaves the body")
        return self.body[at : at + size]

    def number(self, at, index, width):
        return int.from_bytes(self.bytes(at + width * index, width), "little")

    def bit(self, at, index):
        return self.bytes(at + index // 8, 1)[0] >> index % 8 & 1

    def null_count(self):
        """How many rows are null."""
        if self.validity == NO_BITMAP:
            return 0
        places = self.skip + self.rows
        bits = int.from_bytes(self.bytes(self.validity, (places + 7) // 8), "little")
        return self.rows - bin((bits & (1 << places) - 1) >> self.skip).count("1")

    def run(self, place):
        """The run in which a place lies: the first that ends past it."""
        low, high = 0, self.kids[0].rows
        while low < high:
            middle = (low + high) // 2
            if self.number(self.first, middle, self.param) > place:
                high = middle
            else:
                low = middle + 1
        return low

    def view(self, place):
        whole = self.bytes(self.first + 16 * place, 16)
        size, _, buffer, offset = struct.unpack("<4I", whole)
        if size <= 12:
            need(not any(whole[4 + size:]), "a short view's unused bytes are not zero")
            return whole[4 : 4 + size]
        need(buffer < len(self.kids), "a view's data buffer is missing")
        data = self.kids[buffer]
        need(offset + size <= data.rows, "a view leaves its data buffer")
        found = data.bytes(data.first + data.skip + offset, size)
        need(found[:4] == whole[4:8], "a view's prefix is not that of its data")
        return found

    def between(self, place, size):
        """The two offsets of a place; `size` is how much they may reach into."""
        start, end = (self.number(self.first, place + i, self.width) for i in (0, 1))
        need(start <= end <= size, "offsets fall or leave the " + ("data" if self.kind in (4, 5) else "child"))
        return start, end

    def items(self, start, size):
        """A list, by the child's rows from `start` on."""
        shown = [self.kids[0].cell(start + i) for i in range(min(size, ITEMS_SHOWN))]
        return "[" + ", ".join(shown) + (", .." if size > ITEMS_SHOWN else "") + "]"

    def cell(self, row):
        need(row < self.rows, "a place is past the child's rows")
        place = self.skip + row
        if self.validity != NO_BITMAP and not self.bit(self.validity, place):
            return "-"
        if self.kind == 1:
            return "FT"[self.bit(self.first, place)]
        if self.kind == 3:
            return text(self.bytes(self.first + self.param * place, self.param))
        if self.kind in (4, 5):
            start, end = self.between(place, self.length)
            return text(self.bytes(self.second + start, end - start))
        if self.kind == 6:
            return text(self.view(place))
        if self.kind in (7, 8):
            start, size = (self.number(at, place, self.width) for at in (self.first, self.second))
            need(start + size <= self.kids[0].rows, "a list view leaves its child")
            return self.items(start, size)
        if self.kind in (13, 14):
            start, end = self.between(place, self.kids[0].rows)
            return self.items(start, end - start)
        if self.kind == 9:
            return self.kids[0].cell(self.run(place))
        if self.kind == 10:
            return "{" + ", ".join(k.cell(row) for k in self.kids) + "}"
        entry = self.number(self.first, place, self.width)
        if self.kind == 11:
            need(entry < len(self.kids), "a union's id has no child")
            return f"{entry}:{self.kids[entry].cell(row)}"
        return self.kids[0].cell(entry) if self.kind == 12 else str(entry)


def text(data):
    shown = "".join(chr(b) if 32 <= b < 127 else f"\\x{b:02x}" for b in data[:BYTES_SHOWN])
    return f'"{shown}"' + (".." if len(data) > BYTES_SHOWN else "")


def read(data):
    need(16 <= len(data) <= PACK_LIMIT, f"{len(data)} bytes")
    need(data[-4:] in (MARK, OLD_MARK), "no mark at its end")
    start, count, rows = struct.unpack("<3I", data[-16:-4])
    need(1 <= count <= NODE_LIMIT, f"{count} nodes")
    need(start + 40 * count == len(data) - 16, "the node table does not end at the trailer")
    nodes = [struct.unpack_from("<10I", data, start + 40 * i) for i in range(count)]
    root = Node(data[:start], nodes, 1)
    need(not nodes, "nodes are left over")
    need(root.rows == rows, "the trailer has other rows than the root")
    for column in (root, *columns(root)):
        if data[-4:] == MARK:
            need(column.nulls == column.null_count(), f"a null count of {column.nulls}, and {column.null_count()} rows are null")
    return root


def columns(root):
    """The columns of the table."""
    return root.kids if root.kind == 10 and root.validity == NO_BITMAP and root.kids else [root]


def table(root):
    shown = range(min(root.rows, ROWS_SHOWN))
    cells = [["row", *map(str, shown)]] + [[c.title(), *map(c.cell, shown)] for c in columns(root)]
    plain = [True] + [c.kind == 2 for c in columns(root)]
    widths = [max(map(len, c)) for c in cells]
    for line in zip(*cells):
        yield "  ".join(x.rjust(w) if p else x.ljust(w) for x, w, p in zip(line, widths, plain)).rstrip()
    if root.rows > ROWS_SHOWN:
        yield f".. and {root.rows - ROWS_SHOWN} rows more"


def main(paths):
    if not paths:
        print("usage: show.py FILE..", file=sys.stderr)
        return 1
    status = 0
    for path in paths:
        try:
            with open(path, "rb") as f:
                root = read(f.read(PACK_LIMIT + 1))
            lines = list(table(root))
            print(f"{path}: {root.title()}, {root.rows} rows", *lines, sep="\n")
        except OSError as e:
            print(f"{path}: {e.strerror}")
            status = 1
        except Bad as e:
            print(f"{path}: not a pack: {e}")
            status = 1
    return status


if __name__ == "__main__":
    signal.signal(signal.SIGPIPE, signal.SIG_DFL)
    sys.exit(main(sys.argv[1:]))
