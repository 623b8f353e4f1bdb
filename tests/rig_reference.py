# What the rig has to answer, written from the rules and apart from the rig: reads a script, prints the expected
# answers. crates/rig/stdout was made by it.
import re
import sys

LIMITS = {0: 128, 1: 1024}


def esc(b):
    if b == b"":
        return "-"
    if b == b"-":
        return "\\x2d"
    return "".join(chr(c) if 0x21 <= c <= 0x7e and c != 0x5c else "\\x%02x" % c for c in b)


class Disk:
    def __init__(self, rows):
        self.rows, self.free, self.writes, self.windows = {}, rows, 0, []

    def limit(self, kind):
        return self.windows[-1][kind][1] if self.windows else LIMITS[kind]

    def window(self, spans):
        if any(base + width > self.limit(kind) for kind, (base, width) in spans.items()):
            return False
        self.windows.append(spans)
        return True

    def place(self, kind, number):
        if number >= self.limit(kind):
            return None
        return kind, number + sum(spans[kind][0] for spans in self.windows)

    def load(self, kind, number):
        at = self.place(kind, number)
        if at is None:
            return "bad"
        row = self.rows.get(at, b"")
        return "done %d" % len(row) + (" " + row.hex() if row else "")

    def put(self, kind, number, row):
        at = self.place(kind, number)
        if at is None or not 1 <= len(row) <= 560:
            return "bad"
        if self.writes == 0:
            return "gone"
        if at not in self.rows:
            if self.free == 0:
                return "no room"
            self.free -= 1
        self.writes -= 1
        self.rows[at] = row
        return "done"

    def drop(self, kind, number):
        at = self.place(kind, number)
        if at is None:
            return "bad"
        if at not in self.rows:
            return "done"
        if self.writes == 0:
            return "gone"
        del self.rows[at]
        self.free += 1
        self.writes -= 1
        return "done"


def number(word):
    if re.fullmatch(rb"[0-9]+", word) and int(word) < 2**32:
        return int(word)
    return None


def row_of(word):
    if word == b"-":
        return b""
    return bytes.fromhex(word.decode()) if re.fullmatch(rb"([0-9a-fA-F]{2})+", word) else None


def perform(disk, words):
    """The disk then and the answer, None for a line that is not understood."""
    name, args = words[0], words[1:]
    if name == b"store" and len(args) == 2 and args[0] in (b"table", b"journal"):
        rows = number(args[1])
        if rows is None:
            return disk, None
        return (Disk(rows), "store done") if rows <= 1152 else (None, "store bad")
    if disk is None:
        return disk, None
    if name == b"put" and len(args) == 3:
        row = row_of(args[2])
        args = args[:2]
        if row is None:
            return disk, None
    elif name == b"put":
        return disk, None
    ns = [number(a) for a in args]
    if None in ns:
        return disk, None
    if name == b"window" and len(ns) == 4 and len(disk.windows) < 3:
        ok = disk.window({0: (ns[0], ns[1]), 1: (ns[2], ns[3])})
        return disk, "window done" if ok else "window refused 13"
    if name == b"power" and len(ns) == 1:
        disk.writes = ns[0]
        return disk, "power done 0"
    if name == b"free" and not ns:
        return disk, "free %d" % disk.free
    if not ns or ns[0] not in LIMITS:
        return disk, None
    if name == b"limit" and len(ns) == 1:
        return disk, "limit %d %d" % (ns[0], disk.limit(ns[0]))
    if len(ns) == 2 and name in (b"load", b"put", b"drop"):
        end = disk.put(*ns, row) if name == b"put" else getattr(disk, name.decode())(*ns)
        return disk, "%s %d %d %s" % (name.decode(), *ns, end)
    return disk, None


def main():
    lines = sys.stdin.buffer.read().split(b"\n")
    if lines[-1] == b"":
        lines.pop()
    disk = None
    for line in lines:
        words = [w for w in line.split(b" ") if w]
        if not words:
            continue
        disk, text = perform(disk, words)
        print(text if text is not None else "? " + esc(line))


main()
