#!/usr/bin/env python3
"""Writes the record of a legal run, to measure `zcrx check` by, or to draw.

usage: tools/make_record.py plain LINES | pieces | busy LINES

`plain`: 64 buffers of 4,096 bytes, each taken, filled with one piece, lent, given back, honoured and shut, over and over, in
LINES lines at most. `pieces`: one buffer of 65,536 bytes that is cut into pieces of one byte, which are lent, given back and
honoured, each time in an order that is drawn, always the same. `busy`: 24 buffers of 4,096 bytes that a card fills for three
applications, which at times keep so many loans that no buffer is free, in LINES lines or some more."""
import random
import sys
from collections import deque


def plain(lines):
    """At most so many lines."""
    yield "run 64:4096 1"
    for turn in range((lines - 2) // 8):
        buffer = turn % 64
        yield f"take {buffer} 1"
        yield f"place {buffer} 0 4096 2"
        yield f"sent 0 {buffer} 0 4096"
        yield f"held 0 {buffer} 0 4096"
        yield f"lend 0 {buffer} 0 4096 2 1"
        yield f"back 0 {buffer} 0 4096 1"
        yield f"honour 0 {buffer} 1 0"
        yield f"shut {buffer} 0"
    yield "end"


def pieces(draw, size=65536):
    """262,150 lines."""
    yield "run 1:65536 1"
    yield from ("take 0 1", f"place 0 0 {size} 2", f"sent 0 0 0 {size}", f"held 0 0 0 {size}")
    held, pool = [(0, size)], 2
    while held:
        at = draw.randrange(len(held))
        held[at], held[-1] = held[-1], held[at]
        offset, length = held.pop()
        if length > 1:
            first = draw.randint(1, length - 1)
            pool += 1
            yield f"cut 0 0 {offset} {length} {first} {pool}"
            held += [(offset, first), (offset + first, length - first)]
    offsets = list(range(size))
    draw.shuffle(offsets)
    for lent, offset in enumerate(offsets, 1):
        yield f"lend 0 0 {offset} 1 {pool} {lent}"
    draw.shuffle(offsets)
    for offset in offsets:
        yield f"back 0 0 {offset} 1 {size}"
    for left in range(size - 1, -1, -1):
        yield f"honour 0 0 {left + 1} {left}"
    yield from ("shut 0 0", "end")


class Busy:
    """A card and three applications over 24 buffers."""

    def __init__(self, draw):
        self.draw = draw
        self.pool = [0] * 24
        self.user = {}
        self.current = None
        self.start = 0
        self.loans = [deque() for _ in range(3)]
        self.owed = deque()

    def more(self, buffer, change):
        self.pool[buffer] += change
        return f"{buffer} {self.pool[buffer]}"

    def lent(self, app, buffer, change):
        self.user[app, buffer] = self.user.get((app, buffer), 0) + change
        return self.user[app, buffer]

    def room(self, length):
        """A buffer with room for so many bytes becomes the card's, where one is free."""
        if self.current is not None and self.start + length > 4096:
            yield f"shut {self.more(self.current, -1)}"
            self.current = None
        free = [buffer for buffer, count in enumerate(self.pool) if not count]
        if self.current is None and free:
            self.current, self.start = self.draw.choice(free), 0
            yield f"take {self.more(self.current, 1)}"

    def piece(self):
        """A payload comes, and its piece is lent."""
        app, length = self.draw.randrange(3), self.draw.randint(300, 1460)
        yield from self.room(length)
        if self.current is None:
            return
        buffer, place = self.current, f"{self.current} {self.start} {length}"
        yield f"place {place} {self.more(buffer, 1).split()[1]}"
        yield f"sent {app} {place}"
        yield f"held {app} {place}"
        yield f"lend {app} {place} {self.pool[buffer]} {self.lent(app, buffer, 1)}"
        self.loans[app].append((buffer, place))
        self.start = -(-(self.start + length) // 64) * 64

    def back(self, kept):
        """Loans beyond so many for each application are given back, and then honoured."""
        for app, loans in enumerate(self.loans):
            while len(loans) > kept:
                buffer, place = loans.popleft()
                yield f"back {app} {place} {self.user[app, buffer]}"
                self.owed.append((app, buffer))
        while len(self.owed) > kept // 4:
            app, buffer = self.owed.popleft()
            yield f"honour {app} {self.more(buffer, -1)} {self.lent(app, buffer, -1)}"


def busy(draw, lines):
    """So many lines, or some more: what is out at the end still has to go."""
    yield "run 24:4096 3"
    said, run = 1, Busy(draw)
    while said < lines - 1:
        kept = 30 if said % 7000 > 4500 else draw.randint(2, 9)
        said_now = [*run.piece(), *run.back(kept)] or [*run.back(max(map(len, run.loans)) - 1)]
        said += len(said_now)
        yield from said_now
    yield from run.back(0)
    if run.current is not None:
        yield f"shut {run.more(run.current, -1)}"
    yield "end"


def main():
    if sys.argv[1:2] == ["plain"] and len(sys.argv) == 3:
        lines = plain(int(sys.argv[2]))
    elif sys.argv[1:] == ["pieces"]:
        lines = pieces(random.Random(1))
    elif sys.argv[1:2] == ["busy"] and len(sys.argv) == 3:
        lines = busy(random.Random(1), int(sys.argv[2]))
    else:
        sys.exit(__doc__)
    for line in lines:
        print(line)


if __name__ == "__main__":
    main()
