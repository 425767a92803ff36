#!/usr/bin/env python3
"""Asks whether tools/draw_run.py draws what a record says, and whether docs/run.svg is its picture of docs/run.txt.

usage: tools/draw_run_test.py

Drawn legal runs are compared with the holders that tools/check_runs.py has behind each event, a second reading of the record: for each
buffer the boxes at that event's step, by their state, their application and their bytes. Beside them stand whose event it was, and where
no pool buffer was free. The status is 0 where nothing is wrong, and each thing that is gets a line.
"""

import pathlib
import random
import re
import subprocess
import sys
import xml.etree.ElementTree as xml

import check_runs
import make_record

TOP = pathlib.Path(__file__).resolve().parent.parent
SVG = "{http://www.w3.org/2000/svg}"
EXAMPLE = (TOP / "docs" / "run.txt").read_text()
MOST_BYTES = 6_000_000
NAMES = {"own": "card", "piece": "placed", "loan": "lent"}
OF_CARD = ("take", "place", "sent", "honour", "stray", "shut")

ONE_PIECE = """run 1:1024 1
take 0 1
place 0 0 5 2
sent 0 0 0 5
held 0 0 0 5
stray 0
lend 0 0 0 5 2 1
back 0 0 0 5 1
shut 0 1
honour 0 0 0 0
end
"""
ONE_PIECE_SAYS = {
    "buffer 0: card from event 1, ended by event 8",
    "buffer 0, bytes 0 to 4: placed from event 2, sent 0 from event 3, held 0 from event 4, lent 0 from event 6, owed 0 from event 7, "
    "ended by event 9",
    "events 1 to 8: none free", "event 5: stray 0", "buffer 0, 1,024 bytes",
}
# Cut, given up, spares, an own loan, entries that end the loan which was given back first, and a scrub that ends all that is owed.
KINDS = """run 1:1024,1:2048 1
take 1 1
place 1 0 2000 2
sent 0 1 0 2000
held 0 1 0 2000
cut 0 1 0 2000 1000 3
cut 0 1 1000 1000 400 4
lend 0 1 0 1000 4 1
lend 0 1 1000 400 4 2
back 0 1 1000 400 2
back 0 1 0 1000 2
honour 0 1 3 1
free 0 1 1400 600 2
spare 0 0 1
own 0 0 7 1 1
back 0 0 0 7 1
scrub 0 1 1 0
scrub 0 0 0 0
shut 1 0
end
"""
KINDS_SAYS = {
    "buffer 1, bytes 0 to 1,999: placed from event 2, sent 0 from event 3, held 0 from event 4, ended by event 5",
    "buffer 1, bytes 1,000 to 1,999: held 0 from event 5, ended by event 6",
    "buffer 1, bytes 0 to 999: held 0 from event 5, lent 0 from event 7, owed 0 from event 10, ended by event 16",
    "buffer 1, bytes 1,000 to 1,399: held 0 from event 6, lent 0 from event 8, owed 0 from event 9, ended by event 11",
    "buffer 1, bytes 1,400 to 1,999: held 0 from event 6, ended by event 12",
    "buffer 0: spare 0 from event 13, ended by event 14",
    "buffer 0, bytes 0 to 6: lent 0 from event 14, owed 0 from event 15, ended by event 17",
}

# No records, and which line is wrong.
BAD = (
    ("", "line 1"),
    ("run 1:1024 1\n", "line 2"),
    ("run 1:1024\n", "line 1"),
    ("run 1:1024 9\nend\n", "line 1"),
    ("run 1:1024 1\nshut 0 0\nend\n", "line 2"),
    ("run 1:1024 1\ntake 5 1\nend\n", "line 2"),
    ("run 1:1024 1\ntake -1 1\nend\n", "line 2"),
    ("run 1:1024 1\ntake 0\nend\n", "line 2"),
    ("run 1:1024 1\nopen 0\nend\n", "line 2"),
    ("run 1:1024 1\nstray 1\nend\n", "line 2"),
    ("run 1:1024 1\nhonour 0 0 0 0\nend\n", "line 2"),
    ("run 1:1024 1\ntake 0 1\nplace 0 1000 25 2\nend\n", "line 3"),
    ("run 1:1024 1\ntake 0 1\nplace 0 0 5 2\nsent 1 0 0 5\nend\n", "line 4"),
)

wrong = 0


def say(what):
    global wrong
    wrong += 1
    print(what)


def run(record, *words):
    return subprocess.run([str(TOP / "tools" / "draw_run.py"), *words], input=record.encode(), capture_output=True, check=False)


def picture(name, record, *words):
    drawn = run(record, *words)
    if drawn.returncode:
        say(f"{name}: status {drawn.returncode}: {drawn.stderr.decode().strip()}")
        return xml.fromstring("<svg/>")
    if len(drawn.stdout) > MOST_BYTES:
        say(f"{name}: {len(drawn.stdout)} bytes")
    return xml.fromstring(drawn.stdout)


def titles(root):
    return [title.text for title in root.iter(f"{SVG}title")]


def place(rect):
    return [float(rect.get(name)) for name in ("x", "y", "width", "height")]


def check_says(name, record, says):
    found = titles(picture(name, record))
    for title in says - set(found):
        say(f"{name}: nothing says '{title}', but {found}")


class Picture:
    """What a picture shows, read from its rectangles and what they say."""

    def __init__(self, root):
        said = [(rect, rect.findtext(f"{SVG}title", "")) for rect in root.iter(f"{SVG}rect")]
        self.rows = {int(re.search(r"buffer (\d+),", title).group(1)): place(rect) for rect, title in said
                     if rect.get("class") == "row" and "buffer" in title}
        self.ticks = {title: place(rect) for rect, title in said if rect.get("class") == "tick"}
        self.short = [title for rect, title in said if rect.get("class") == "short" and title]
        self.drawn = [place(rect) for rect, title in said if rect.get("class") == "drawn"]
        self.names = {text.text: float(text.get("y")) for text in root.iter(f"{SVG}text")}
        self.boxes = [self.box(group) for group in root.iter(f"{SVG}g") if group.find(f"{SVG}title") is not None]

    @staticmethod
    def box(group):
        """The buffer, the bytes, the events from which on it is something and the one that ends it, and its rectangles."""
        where, _, story = group.findtext(f"{SVG}title").partition(": ")
        buffer, *ends = (int(word.replace(",", "")) for word in re.findall(r"[\d,]*\d", where))
        parts = [(int(event.replace(",", "")), state) for state, event in re.findall(r"(\w+(?: \d)?) from event ([\d,]*\d)", story)]
        end = re.search(r"ended by event ([\d,]+)", story)
        rects = [(rect.get("class"), place(rect)) for rect in group.iter(f"{SVG}rect") if not rect.get("class").endswith("-ground")]
        return buffer, (ends[0], ends[1] - ends[0] + 1) if ends else None, parts, int(end.group(1).replace(",", "")) if end else None, rects


def holders(line_run):
    """The holders of each buffer, as the picture names them: the state with its application, and the bytes where they are known."""
    found = {}
    for buffer, held in enumerate(line_run.holders):
        for kind, *rest in held:
            app = rest.pop(0) if len(rest) in (1, 3) else None
            state = NAMES.get(kind, kind) + ("" if app is None else f" {app}")
            found.setdefault(buffer, []).append((state, tuple(rest) or None))
    return {buffer: sorted(held, key=str) for buffer, held in found.items()}


def told(shown, event):
    """What the boxes say of a step."""
    found = {}
    for buffer, bytes_, parts, end, _ in shown.boxes:
        if parts[0][0] <= event and (end is None or event < end):
            state = [state for begin, state in parts if begin <= event][-1]
            found.setdefault(buffer, []).append((state, None if state.startswith("owed") else bytes_))
    return {buffer: sorted(held, key=str) for buffer, held in found.items()}


def misplaced(shown, event, x, sizes):
    """The boxes that don't stand at their bytes at an event's step, with the fill of their state."""
    for buffer, bytes_, parts, end, rects in shown.boxes:
        here = [(kind, y, tall) for kind, (left, y, wide, tall) in rects if left < x < left + wide]
        if not (parts[0][0] <= event and (end is None or event < end)):
            if here:
                yield f"buffer {buffer}: {here} stands there too long"
            continue
        state = [state for begin, state in parts if begin <= event][-1].split(" ")[0]
        _, top, _, high = shown.rows[buffer]
        offset, length = bytes_ or (0, sizes[buffer])
        y, tall = top + high * offset / sizes[buffer], high * length / sizes[buffer]
        slack = 2 if tall < 2 else 0.02
        if len(here) != 1 or here[0][0] != state or abs(here[0][1] - y) > slack or abs(here[0][2] - max(tall, 2)) > 0.02:
            yield f"buffer {buffer}, {bytes_}: {here} in place of {state} at {y}"


def check_run(name, lines, first=1, last=None):
    """Each step of a picture of a legal run that has a pixel or so for each event."""
    total = len(lines) - 2
    last = last or total
    words = ("--from", str(first), "--to", str(last)) if (first, last) != (1, total) else ()
    shown = Picture(picture(name, "\n".join(lines) + "\n", *words))
    model = check_runs.first_line(lines[0])
    x, _, wide, _ = next(iter(shown.rows.values())) if shown.rows else (0, 0, 0, 0)
    step = wide / (last - first + 1)
    short = set()
    for event, line in enumerate(lines[1:last + 1], 1):
        kind, *numbers = line.split(" ")
        model.change(kind, dict(zip(check_runs.FORMS[kind], map(int, numbers))))
        if event < first:
            continue
        if told(shown, event) != holders(model):
            say(f"{name}: behind event {event} {told(shown, event)} in place of {holders(model)}")
        for what in misplaced(shown, event, x + (event - first + 0.5) * step, model.sizes):
            say(f"{name}: event {event}: {what}")
        lane = shown.names["card" if kind in OF_CARD else f"app {numbers[0]}"]
        tick = shown.ticks.get(f"event {event:,}: {line}")
        if tick is None or not lane - 12 < tick[1] < lane + 12 or not 0 <= tick[0] - x - (event - first) * step <= 1.02:
            say(f"{name}: event {event}: its tick is {tick}, its line at {lane}")
        if all(model.holders[:model.pool]):
            short.add(event)
    if short != short_events(shown.short, first, last):
        say(f"{name}: none free behind {sorted(short)}, but {shown.short}")
    return shown, x, wide


def short_events(says, first, last):
    """The drawn events of which the picture says that no buffer was free."""
    ends = [re.findall(r"[\d,]*\d", said) for said in says]
    events = {event for begin, end in ends for event in range(int(begin.replace(",", "")), int(end.replace(",", "")) + 1)}
    return {event for event in events if first <= event <= last}


def check_drawn():
    for seed in range(12):
        lines = check_runs.drawn(random.Random(seed))
        if len(lines) > 2:
            check_run(f"drawn run {seed}", lines)
    check_run("the example", EXAMPLE.splitlines())


def check_part():
    """A part of a record: its boxes are cut at its ends, and the strip of the whole has it marked."""
    lines = list(make_record.busy(random.Random(2), 600))
    total = len(lines) - 2
    shown, x, _ = check_run("a part", lines, 201, 300)
    frame, = shown.drawn
    scale = 1040 / total
    if abs(frame[0] - x - 200 * scale) > 0.02 or abs(frame[2] - 100 * scale) > 0.02:
        say(f"a part: marked at {frame}")
    rows = ((("--from", "590"), f"590 to {total:,}"), (("--to", "5"), "1 to 5"), (("--from", "9999"), f"{total:,} to {total:,}"))
    for words, drawn in rows:
        head = titles(picture("a part", "\n".join(lines) + "\n", *words))[0]
        if not head.endswith(f"; drawn are {drawn}"):
            say(f"{words}: {head}")


def check_many():
    """Of many events a point has several: all are counted, and no shortness is lost. Above 20,000 the first are drawn."""
    lines = list(make_record.busy(random.Random(1), 19000))
    shown = Picture(picture("many events", "\n".join(lines) + "\n"))
    model = check_runs.first_line(lines[0])
    counts, short = {}, set()
    for event, line in enumerate(lines[1:-1], 1):
        kind, *numbers = line.split(" ")
        model.change(kind, dict(zip(check_runs.FORMS[kind], map(int, numbers))))
        role = "card" if kind in OF_CARD else f"app {numbers[0]}"
        counts[role] = counts.get(role, 0) + 1
        if all(model.holders[:model.pool]):
            short.add(event)
    for role, count in counts.items():
        if sum(int(re.search(r": (\d+) of", title).group(1)) for title in shown.ticks if title.endswith(role)) != count:
            say(f"many events: not {count} ticks of {role}")
    stride = -(-(len(lines) - 2) // 1040)
    points = {(event - 1) // stride for event in short}
    if points != {(event - 1) // stride for event in short_events(shown.short, 1, 10 ** 6)} or not points:
        say(f"many events: none free at times {shown.short}")
    events = [line for turn in range(13000) for line in (f"take {turn % 4} 1", f"shut {turn % 4} 0")]
    head = titles(picture("more events", "\n".join(["run 4:1024 1", *events, "more"]) + "\n"))[0]
    if head != "4 buffers, 1 application, 26,000 events and more that weren't kept; drawn are 1 to 20,000":
        say(f"more events: {head}")
    root = picture("many buffers", "run 4096:1024 8\n" + "".join(f"take {buffer} 1\n" for buffer in range(4000)) + "more\n")
    if len(Picture(root).boxes) != 4000 or "96 other buffers: nobody had them" not in {text.text for text in root.iter(f"{SVG}text")}:
        say("many buffers: not 4,000 boxes, or nothing said of the others")


def check_told_apart():
    """Each state has lines or a brightness of its own, so that no colour is needed, in light and in dark."""
    style = "".join(picture("styles", ONE_PIECE).itertext())
    for scheme in style.split("@media"):
        grounds = dict(re.findall(r"\.(\w+)-ground\{fill:#(\w{6})", scheme))
        weights = ((0.21, 0), (0.72, 2), (0.07, 4))
        light = sorted(sum(weight * int(ground[at:at + 2], 16) for weight, at in weights)
                       for state, ground in grounds.items() if state != "spare")
        if len(light) != 5 or any(after - before < 15 for before, after in zip(light, light[1:])):
            say(f"states are as bright as others: {light}")
    for state in ("sent", "owed", "spare"):
        if style.count(f".{state}{{fill:url(#{state})") != 2:
            say(f"{state} has no lines")


def check_bad():
    for record, why in BAD:
        drawn = run(record)
        if drawn.returncode != 1 or drawn.stdout or why not in drawn.stderr.decode():
            say(f"{record!r}: status {drawn.returncode}, {drawn.stderr.decode().strip()!r}")
    for words in (("--from", "0"), ("--from", "5", "--to", "4"), ("--to", "x"), ("record",)):
        drawn = run(ONE_PIECE, *words)
        if drawn.returncode != 2 or drawn.stdout:
            say(f"{words}: status {drawn.returncode}")


def check_documents():
    drawn = run(EXAMPLE)
    if drawn.stdout.decode() != (TOP / "docs" / "run.svg").read_text():
        say("docs/run.svg isn't the picture of docs/run.txt")


def main():
    check_says("one piece", ONE_PIECE, ONE_PIECE_SAYS)
    check_says("kinds", KINDS, KINDS_SAYS)
    check_drawn()
    check_part()
    check_many()
    check_told_apart()
    check_bad()
    check_documents()
    picture("no event", "run 1:1024 1\nend\n")
    print("draw_run: nothing wrong" if not wrong else f"draw_run: {wrong} wrong")
    return 1 if wrong else 0


if __name__ == "__main__":
    sys.exit(main())
