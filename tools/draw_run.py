#!/usr/bin/env python3
"""Draws the record of a run: which bytes of which buffer lay where, event by event.

usage: tools/draw_run.py [--from EVENT] [--to EVENT] < RECORD > run.svg

Time goes from left to right, a step an event, and a step shows what stands behind its event. A row is a buffer, and its bytes go down
the row from offset 0. A box is a piece: it stands at its bytes from the event that made it to the one that ended it, and its fill says
what it is by then: placed, sent, held, lent, owed. So a piece keeps its lane for life. Of an application's loans in a buffer that were
given back, an entry ends the one that was given back first. A spare's box is as high as the row, since its bytes aren't known yet.
The row is shaded while the card has the buffer. A buffer that nobody had has no row.

Above the rows stands how many pool buffers were free, and where none was. Below them stand ticks, a line a role: whose event it was.
Where the SVG is opened alone, all of this says on hover what it is.

Events are numbered from 1. Up to 20,000 are drawn, the first where nothing is said; where they aren't all, a strip at the top has the
whole record, with what is drawn marked. The record's form is in docs/FORMATS.md.

The status is 1 where the text isn't such a record, and the line is said on standard error. `zcrx check` judges whether a run is legal.
"""

import argparse
import sys
from collections import deque
from html import escape

MOST_DRAWN = 20000
LEFT, RIGHT, WIDE = 84, 16, 1040
WIDEST_STEP = 26
STRIP, LANE, WORD_LANE = 30, 12, 48
# Up to how many rows there are, how high one is, how far the next is from it, and which of them are named.
ROWS = ((6, 60, 8, 1), (16, 32, 5, 1), (48, 14, 2, 1), (256, 6, 1, 4), (1024, 2, 0, 32), (9999, 1, 0, 128))

# What a box can be, from its making on: its ground, its lines and its words, in light and in dark. The grounds differ in brightness too.
STATES = {
    "placed": (("#eceff3", "#64748b", "#111827"), ("#3f4c5e", "#cbd5e1", "#f8fafc")),
    "sent": (("#fbbf24", "#92400e", "#111827"), ("#9a6416", "#fde68a", "#fff7e0")),
    "held": (("#4aa8e0", "#0c4a6e", "#111827"), ("#38a0dc", "#082f49", "#08131f")),
    "lent": (("#0b5138", "#022c1e", "#ffffff"), ("#bbf7d0", "#166534", "#052e16")),
    "owed": (("#b5489a", "#f5d0fe", "#ffffff"), ("#f0a6fb", "#701a75", "#2e0433")),
    "spare": (("#ffffff", "#be185d", "#111827"), ("#0f172a", "#f9a8d4", "#f8fafc")),
}
# Lines on a ground, by which states are told apart where colours can't be: those of a tile of 8 by 8.
MARKS = {"sent": "M-2 2L2 -2M0 8L8 0M6 10L10 6", "owed": "M0 0L8 8M0 8L8 0", "spare": "M2 2h1M6 6h1"}
# These events are the card's, all others an application's.
OF_CARD = {"take", "place", "sent", "honour", "stray", "shut"}


class BadRecord(Exception):
    """The number of a line, and what is wrong with it."""


class Box:
    """A holder of some bytes of a buffer, from the event that made it to the one that ended it."""

    def __init__(self, buffer, offset, length):
        self.buffer, self.offset, self.length = buffer, offset, length
        self.parts = []
        self.end = None

    def state(self):
        return self.parts[-1][1]


class Run:
    """The events of a record, as boxes."""

    def __init__(self, areas, apps):
        self.sizes = [size for count, size in areas for _ in range(count)]
        self.pool = len(self.sizes)
        self.sizes += [areas[0][1]] * apps
        self.apps = apps
        self.lines = []
        self.boxes = []
        self.here = {}
        self.owed = {}
        self.holders = [0] * len(self.sizes)
        # How many pool buffers are free behind so many events.
        self.free = [self.pool]

    def take_event(self, line):
        name, *words = line.split(" ")
        if not all(word.isascii() and word.isdigit() for word in words):
            raise ValueError("no number")
        self.lines.append(line)
        self.free.append(self.free[-1])
        getattr(self, f"on_{name}")(*map(int, words))

    def begin(self, buffer, offset, length, state, app=None):
        if buffer >= len(self.sizes) or not 0 < length <= self.sizes[buffer] - offset:
            raise ValueError("no such bytes")
        box = Box(buffer, offset, length)
        self.boxes.append(box)
        self.holders[buffer] += 1
        if self.holders[buffer] == 1 and buffer < self.pool:
            self.free[-1] -= 1
        self.enter(box, state, app)

    def enter(self, box, state, app=None):
        if app is not None and app >= self.apps:
            raise ValueError("no such application")
        key = (state, app, box.buffer, box.offset, box.length)
        if state == "owed":
            self.owed.setdefault((app, box.buffer), deque()).append(box)
        elif key in self.here:
            raise ValueError(f"it is {state} already")
        else:
            self.here[key] = box
        box.parts.append((len(self.lines), state, app))

    def leave(self, *key):
        box = self.here.pop(key, None)
        if box is None:
            raise ValueError(f"nothing there is {key[0]}")
        return box

    def end(self, box):
        box.end = len(self.lines)
        self.holders[box.buffer] -= 1
        if not self.holders[box.buffer] and box.buffer < self.pool:
            self.free[-1] += 1

    def pay(self, app, buffer):
        """Ends the loan that is owed there for the longest time."""
        owed = self.owed.get((app, buffer))
        if not owed:
            raise ValueError("nothing is owed there")
        self.end(owed.popleft())

    def on_take(self, buffer, _pool):
        self.begin(buffer, 0, self.sizes[buffer], "card")

    def on_place(self, buffer, offset, length, _pool):
        self.begin(buffer, offset, length, "placed")

    def on_sent(self, app, buffer, offset, length):
        self.enter(self.leave("placed", None, buffer, offset, length), "sent", app)

    def on_held(self, app, buffer, offset, length):
        self.enter(self.leave("sent", app, buffer, offset, length), "held", app)

    def on_cut(self, app, buffer, offset, length, first, _pool):
        self.end(self.leave("held", app, buffer, offset, length))
        self.begin(buffer, offset, first, "held", app)
        self.begin(buffer, offset + first, length - first, "held", app)

    def on_lend(self, app, buffer, offset, length, _pool, _user):
        self.enter(self.leave("held", app, buffer, offset, length), "lent", app)

    def on_back(self, app, buffer, offset, length, _user):
        self.enter(self.leave("lent", app, buffer, offset, length), "owed", app)

    def on_honour(self, app, buffer, _pool, _user):
        self.pay(app, buffer)

    def on_stray(self, app):
        if app >= self.apps:
            raise ValueError("no such application")

    def on_free(self, app, buffer, offset, length, _pool):
        self.end(self.leave("held", app, buffer, offset, length))

    def on_spare(self, app, buffer, _pool):
        self.begin(buffer, 0, self.sizes[buffer], "spare", app)

    def on_own(self, app, buffer, length, _pool, _user):
        self.end(self.leave("spare", app, buffer, 0, self.sizes[buffer]))
        self.begin(buffer, 0, length, "lent", app)

    def on_shut(self, buffer, _pool):
        self.end(self.leave("card", None, buffer, 0, self.sizes[buffer]))

    def on_scrub(self, app, buffer, _pool, _user):
        self.pay(app, buffer)
        while self.owed[app, buffer]:
            self.pay(app, buffer)


def first_line(line):
    """The run that a record's first line begins."""
    name, areas, apps = line.split(" ")
    sizes = [tuple(map(int, area.split(":"))) for area in areas.split(",")]
    if name != "run" or not 1 <= int(apps) <= 8 or any(count < 1 or size < 1 for count, size in sizes):
        raise ValueError("no first line")
    return Run(sizes, int(apps))


def read_run(lines):
    """The run of a record, and the word that ends it."""
    run = None
    number = 0
    try:
        for number, line in enumerate(lines, 1):
            line = line.rstrip("\n")
            if run is None:
                run = first_line(line)
            elif line in ("end", "more"):
                return run, line
            else:
                run.take_event(line)
    except (ValueError, TypeError, AttributeError, IndexError) as why:
        raise BadRecord(f"line {number}: {why}") from why
    raise BadRecord(f"line {number + 1}: no end")


def many(count, noun):
    return f"{count:,} {noun}{'' if count == 1 else 's'}"


def number(value):
    """A coordinate, in few digits."""
    return f"{value:.2f}".rstrip("0").rstrip(".")


def rect(kind, x, y, width, height, title=""):
    """A rectangle, with what it says on hover."""
    inside = f"><title>{escape(title)}</title></rect>" if title else "/>"
    return f'<rect class="{kind}" x="{number(x)}" y="{number(y)}" width="{number(width)}" height="{number(height)}"{inside}'


def text(x, y, words, kind="", more=""):
    kind = f' class="{kind}"' if kind else ""
    return f'<text{kind} x="{number(x)}" y="{number(y)}"{more}>{escape(words)}</text>'


def named(state, app):
    """A state with its application: `lent 0`."""
    return state if app is None else f"{state} {app}"


def styles():
    """The colours, in light and in dark."""
    def rules(which):
        ground, ink, row, card, faint, short = (("#ffffff", "#111827", "#f3f6fa", "#ccd5e0", "#94a3b8", "#dc2626"),
                                                ("#0f172a", "#e5e7eb", "#172033", "#2b3850", "#64748b", "#f87171"))[which]
        yield f"svg{{background:{ground}}}text{{fill:{ink};font:11px sans-serif}}.small{{font-size:10px}}.row{{fill:{row}}}"
        yield f".card{{fill:{card}}}.free,.tick{{fill:{faint}}}.short,.stray{{fill:{short}}}.line{{stroke:{faint};stroke-opacity:.45}}"
        yield f".row.key,.card.key{{stroke:{faint}}}.drawn{{fill:none;stroke:{ink};stroke-width:2}}"
        for state, colours in STATES.items():
            back, line, words = colours[which]
            fill = f"url(#{state})" if state in MARKS else back
            yield f".{state}{{fill:{fill};stroke:{line}}}.flat .{state},.{state}-ground{{fill:{back};stroke:none}}"
            yield f".{state}-line{{fill:none;stroke:{line}}}"
            yield f".{state}-word{{fill:{words};font-size:10px}}"
    return "".join(rules(0)) + "@media(prefers-color-scheme:dark){" + "".join(rules(1)) + "}"


def patterns():
    """The lines on the grounds of boxes."""
    return [f'<pattern id="{state}" width="8" height="8" patternUnits="userSpaceOnUse"><rect class="{state}-ground" width="8" height="8"/>'
            f'<path class="{state}-line" d="{marks}"/></pattern>' for state, marks in MARKS.items()]


class Drawing:
    """The picture of the events `first` to `last` of a run, from the top down."""

    def __init__(self, run, first, last):
        self.run, self.first, self.last = run, first, last
        self.count = last - first + 1
        self.step = min(WIDEST_STEP, WIDE / max(self.count, 1))
        self.width = LEFT + int(-(-max(480, self.count * self.step) // 1)) + RIGHT
        self.parts = []
        self.y = 0

    def at(self, event):
        """Where an event's step begins, or the drawn events end."""
        return LEFT + (min(max(event, self.first), self.last + 1) - self.first) * self.step

    def head(self, ending):
        """What is drawn, and what the fills mean."""
        run, total = self.run, len(self.run.lines)
        said = ", ".join([many(run.pool, "buffer"), many(run.apps, "application"), many(total, "event")])
        if ending == "more":
            said += " and more that weren't kept"
        if self.count < total:
            said += f"; drawn are {self.first:,} to {self.last:,}"
        self.parts += [f"<title>{escape(said)}</title><style>{styles()}</style><defs>", *patterns(), "</defs>", text(LEFT, 18, said)]
        self.key()

    def key(self):
        """What the fills mean."""
        x, y = LEFT, 28
        states = ((state, state) for state in STATES)
        for kind, name in [("row", "nobody has it"), ("card", "the card has it"), *states, ("short", "no buffer is free")]:
            wide = 40 + 6 * len(name)
            if x + wide > self.width:
                x, y = LEFT, y + 18
            high = 4 if kind == "short" else 12
            self.parts += [rect(kind + " key", x, y + (12 - high) / 2, 20, high), text(x + 25, y + 10, name)]
            x += wide
        self.y = y + 26

    def strip(self, first, last, name):
        """How many pool buffers were free behind the events of a stretch, and where none was. Of events that share a point the fewest."""
        run, count = self.run, last - first + 1
        stride = max(1, -(-count // WIDE))
        step = self.step if (first, last) == (self.first, self.last) else WIDE / count
        fewest = [min(run.free[at:min(at + stride, last + 1)]) for at in range(first, last + 1, stride)]
        high = STRIP - 6
        bottom = self.y + high
        ends = [LEFT + min(at * stride, count) * step for at in range(len(fewest) + 1)]
        path = "".join(f"V{number(bottom - high * free / run.pool)}H{number(end)}" for free, end in zip(fewest, ends[1:]))
        self.parts += [rect("row", LEFT, self.y, count * step, high), f'<path class="free" d="M{LEFT} {bottom}{path}V{bottom}z"/>',
                       text(LEFT - 6, self.y + 10, name, "small", ' text-anchor="end"'),
                       text(LEFT - 6, self.y + 22, f"of {run.pool:,}", "small", ' text-anchor="end"')]
        begin = None
        for at, free in enumerate([*fewest, 1]):
            if begin is None and not free:
                begin = at
            elif begin is not None and free:
                last_one = min(first + at * stride - 1, last)
                said = f"events {first + begin * stride:,} to {last_one:,}: none free" + (" at times" if stride > 1 else "")
                self.parts.append(rect("short", ends[begin], bottom, ends[at] - ends[begin], 4, said))
                begin = None
        if (first, last) != (self.first, self.last):
            x = LEFT + (self.first - first) * step
            said = f"drawn: {self.first:,} to {self.last:,}"
            self.parts.append(rect("drawn", x, self.y - 2, max(self.count * step, 2), STRIP + 2, said))
        self.y += STRIP + 8

    def shown(self):
        """The boxes of the drawn events, by buffer."""
        rows = {}
        for box in self.run.boxes:
            if box.parts[0][0] <= self.last and (box.end is None or box.end > self.first):
                rows.setdefault(box.buffer, []).append(box)
        return dict(sorted(rows.items()))

    def rows(self):
        """The rows of the buffers that somebody had."""
        rows = self.shown()
        high, gap, every = next(sizes for most, *sizes in ROWS if len(rows) <= most)
        top = self.y
        for place, buffer in enumerate(rows):
            self.row(buffer, high, place % every == 0)
            self.y += high + gap
        left = self.run.pool - sum(buffer < self.run.pool for buffer in rows)
        if left:
            self.parts.append(text(LEFT, self.y + 10, f"{many(left, 'other buffer')}: nobody had {'it' if left == 1 else 'them'}", "small"))
            self.y += 16
        self.axis(top)
        # What is owed lies behind what came there later, and the card's shade behind all.
        self.parts.append("<g>" if self.step >= 3 else '<g class="flat">')
        self.parts += [self.box(box, top + place * (high + gap), high) for place, boxes in enumerate(rows.values())
                       for box in sorted(boxes, key=lambda box: (box.state() != "card", box.state() != "owed"))]
        self.parts.append("</g>")

    def row(self, buffer, high, is_named):
        """The ground of a row, and its name."""
        pool, size = buffer < self.run.pool, self.run.sizes[buffer]
        said = f"{'buffer' if pool else 'reserve, buffer'} {buffer}, {size:,} bytes"
        self.parts.append(rect("row", LEFT, self.y, max(self.count * self.step, 1), high, said))
        if is_named or (not pool and high > 10):
            name = f"reserve {buffer - self.run.pool}" if not pool else f"buffer {buffer}" if high > 20 else str(buffer)
            self.parts.append(text(LEFT - 6, self.y + min(max(high, 6), 14), name, "", ' text-anchor="end"'))
        if high > 50:
            self.parts.append(text(LEFT - 6, self.y + 27, f"{size:,} bytes", "small", ' text-anchor="end"'))

    def box(self, box, top, high):
        """A box, in parts by what it is. A part too thin to be seen goes to the next."""
        size = self.run.sizes[box.buffer]
        y, tall = top + high * box.offset / size, high * box.length / size
        if tall < min(2, high):
            y, tall = min(y, top + high - min(2, high)), min(2, high)
        starts = [event for event, _, _ in box.parts[1:]]
        ends = [*starts, box.end or len(self.run.lines) + 1]
        drawn, words, x = [], [], self.at(box.parts[0][0])
        least = min(self.step, 0.8 if len(box.parts) == 1 else 0.3)
        for (_, state, app), end in zip(box.parts, ends):
            wide = self.at(end) - x
            if wide <= 0 or (wide < least and end != ends[-1]):
                continue
            drawn.append(rect(state, x, y, max(wide, 0.3), tall))
            word = named(state, app)
            if state != "card" and tall >= 9 and wide >= 6 * len(word) + 4:
                words += [rect(f"{state}-ground", x + 2, y + tall / 2 - 4.5, 5.2 * len(word) + 4, 9) if state in MARKS else "",
                          text(x + 4, y + tall / 2 + 3.5, word, f"{state}-word")]
            x += wide
        return f"<g><title>{escape(self.story(box))}</title>" + "".join(drawn + words) + "</g>"

    def story(self, box):
        """What became of a box."""
        where = f"buffer {box.buffer}"
        if box.state() not in ("card", "spare"):
            where += f", bytes {box.offset:,} to {box.offset + box.length - 1:,}"
        parts = [f"{named(state, app)} from event {event:,}" for event, state, app in box.parts]
        if box.end is not None:
            parts.append(f"ended by event {box.end:,}")
        return f"{where}: " + ", ".join(parts)

    def axis(self, top):
        """The numbers of events."""
        spacing = next(unit * ten for ten in (10 ** power for power in range(7)) for unit in (1, 2, 5) if unit * ten * self.step >= 50)
        self.y += 12
        for event in range(self.first, self.last + 1):
            x, name = self.at(event), f"{event:,}"
            is_named = event % spacing == 0 or event == self.first and spacing - event % spacing > spacing / 2
            if is_named and x + 6 * len(name) < self.width:
                self.parts += [f'<path class="line" d="M{number(x)} {top}V{self.y - 10}"/>', text(x + 1, self.y, name, "small")]
        self.parts.append(text(LEFT - 6, self.y, "event", "small", ' text-anchor="end"'))
        self.y += 6

    def roles(self):
        """Ticks by role: a step each where steps can be seen, else as high as the role has many events there."""
        stride = 1 if self.step >= 1 else -(-self.count // WIDE)
        most, lanes = 1, [{} for _ in range(self.run.apps + 2)]
        for event in range(self.first, self.last + 1):
            name, *words = self.run.lines[event - 1].split(" ")
            column = (event - self.first) // stride
            for lane in [0 if name in OF_CARD else 1 + int(words[0])] + [self.run.apps + 1] * (name == "stray"):
                lanes[lane][column] = lanes[lane].get(column, 0) + 1
                most = max(most, lanes[lane][column])
        names = ["card", *(f"app {app}" for app in range(self.run.apps)), "strays"]
        for name, lane in zip(names, lanes):
            if lane or name != "strays":
                self.parts.append(text(LEFT - 6, self.y + LANE - 3, name, "small", ' text-anchor="end"'))
                self.ticks(name, lane, stride, most)
                self.y += LANE + 2

    def ticks(self, name, lane, stride, most):
        wide = stride * self.step
        self.parts.append(rect("row", LEFT, self.y, max(self.count * self.step, 1), LANE))
        for column, count in lane.items():
            event = self.first + column * stride
            tall = LANE * count / most
            if stride == 1:
                said = f"event {event:,}: {self.run.lines[event - 1]}"
            else:
                said = f"events {event:,} to {min(event + stride - 1, self.last):,}: {count} of {name}"
            inset = 1 if wide > 4 else 0
            kind = "stray" if name == "strays" else "tick"
            self.parts.append(rect(kind, self.at(event) + inset, self.y + LANE - tall, wide - 2 * inset, tall, said))

    def words(self):
        """The names of the events, where there is room for them."""
        if self.step < 14:
            return
        for event in range(self.first, self.last + 1):
            x, name = self.at(event) + self.step / 2 + 3.5, self.run.lines[event - 1].split(" ")[0]
            turned = f' transform="rotate(-90 {number(x)} {self.y + 2})" text-anchor="end"'
            self.parts.append(text(x, self.y + 2, name, "small", turned))
        self.y += WORD_LANE

    def picture(self, ending):
        """The picture's text."""
        self.head(ending)
        total = len(self.run.lines)
        if self.count < total:
            self.strip(1, total, "all: free")
        if self.count:
            self.strip(self.first, self.last, "free")
        self.rows()
        self.roles()
        self.words()
        size = f'width="{self.width}" height="{self.y + 8}" viewBox="0 0 {self.width} {self.y + 8}"'
        return "\n".join([f'<svg xmlns="http://www.w3.org/2000/svg" {size} role="img">', *self.parts, "</svg>\n"])


def stretch(first, last, total):
    """The first and the last event to be drawn, of those that were said, or none."""
    last = min(last or total, total)
    if first is None:
        first = max(1, last - MOST_DRAWN + 1) if last < total else 1
    first = min(first, max(total, 1))
    return first, min(last, first + MOST_DRAWN - 1)


def main():
    words = argparse.ArgumentParser(description="Draws the record of a run on standard input, as SVG on standard output.")
    words.add_argument("--from", dest="first", type=int, metavar="EVENT", help="the first event to be drawn, from 1")
    words.add_argument("--to", dest="last", type=int, metavar="EVENT", help="the last one")
    said = words.parse_args()
    ends = [event for event in (said.first, said.last) if event is not None]
    if ends != sorted(ends) or min(ends, default=1) < 1:
        words.error("events are numbered from 1, and the first isn't behind the last")
    try:
        run, ending = read_run(sys.stdin)
    except (BadRecord, UnicodeDecodeError) as why:
        print(f"draw_run: no record of a run: {why}", file=sys.stderr)
        return 1
    sys.stdout.write(Drawing(run, *stretch(said.first, said.last, len(run.lines))).picture(ending))
    return 0


if __name__ == "__main__":
    sys.exit(main())
