#!/usr/bin/env python3
"""Compares what tools/need.py says with runs of the program.

usage: tools/need_test.py [CAPTURES [SEED]]

CAPTURES is 300 if left out, and SEED 0: capture K is drawn by SEED + K. Four things are compared:

- the class of each frame, and the status of the reading, with the report's, over frames of both kinds of IP with tags, extension
  headers, cut ends and changed bytes, in all four forms of a capture, some of which break off;
- the need with a count over the drawn payloads, and with runs with exactly so many buffers, of one size or in up to four areas: by
  turns in which the card runs ahead, by drawn turns and with threads, applications that keep, leak, stray and quit. No frame may be
  refused, and each stream has to be right;
- the same with one buffer fewer: each frame that is refused has to have a need, with the frames before it that weren't, above the
  number of buffers, and so with a drawn number of buffers;
- captures each of whose payloads takes buffers of its own: with the need nothing is refused, and with one buffer fewer some text of
  turns refuses the last frame and no other.

The status is 0 where all are right. ZCRX=FILE names another program than crates/zcrx_cli/out/zcrx_cli, which `make build` leaves
there.
"""

import io
import os
import pathlib
import random
import struct
import subprocess
import sys
import tempfile

import frames
import need
import thread_runs

TOP = pathlib.Path(__file__).resolve().parent.parent
PROGRAM = pathlib.Path(os.environ.get("ZCRX", TOP / "crates/zcrx_cli/out/zcrx_cli")).resolve()
FIRST_PORT = thread_runs.FIRST_PORT
AHEAD = "n" * 4096


def replay(capture, words, check):
    """Runs the program on a capture, and gives what `check` makes of its status, its report and its folder."""
    with tempfile.TemporaryDirectory() as folder:
        try:
            done = subprocess.run([PROGRAM, "replay", *words], input=capture, cwd=folder, capture_output=True, timeout=120)
        except subprocess.TimeoutExpired:
            return ["it didn't end within 120 s"]
        return check(done.returncode, done.stdout.decode(), pathlib.Path(folder))


def words_of(options, ports, text=None):
    turns = [] if text is None else [f"--turns={text}"]
    return [f"{name}={value}" for name, value in options.items()] + turns + [str(FIRST_PORT + app) for app in range(ports)]


class Tallies:
    """What was compared, and what was wrong."""

    def __init__(self):
        self.counts = {}
        self.wrong = 0

    def count(self, name, more=1):
        self.counts[name] = self.counts.get(name, 0) + more

    def report(self, faults, seed, words):
        if faults := list(faults):
            self.wrong += 1
            print(f"seed {seed}: {' '.join(word if len(word) < 99 else word[:60] + '..' for word in words)}")
            for fault in faults:
                print(f"    {fault}")


# ---- classes


def draw_frame(draw):
    """An Ethernet frame with a TCP segment, and then perhaps changed bytes, a cut end, or padding."""
    payload = bytes(draw.choice([0, 1, 7, 200, 1500]))
    segment = struct.pack(">HHIIBBHHH", 40000 + draw.randrange(3), FIRST_PORT + draw.randrange(4), draw.randrange(2**32), 0,
                          draw.choice([0x50, 0x50, 0x60, 0xF0, 0x40]), draw.choice([2, 16, 24, 24, 17, 4]), 0, 0, 0) + payload
    if draw.random() < 0.5:
        options = bytes(4 * draw.choice([0, 0, 0, 2]))
        total = 20 + len(options) + len(segment)
        header = struct.pack(">BBHHHBBHII", 0x45 + len(options) // 4, 0, total, 0, draw.choice([0, 0x4000, 0x4000, 0x2000, 5]), 64,
                             draw.choice([6, 6, 6, 17]), 0, 1, 2)
        kind, packet = 0x0800, header + options + segment
    else:
        kinds = [draw.choice([0, 43, 60, 44, 50]) for _ in range(draw.choice([0, 0, 1, 2]))] + [draw.choice([6, 6, 6, 17])]
        extensions = b"".join(
            bytes([following, size]) + bytes(8 * size + 6) for following, size in zip(kinds[1:], iter(lambda: draw.choice([0, 0, 1]), None)))
        body = extensions + segment
        kind, packet = 0x86DD, struct.pack(">IHBB", 0x60000000, len(body), kinds[0], 64) + bytes(31) + b"\1" + bytes(31) + b"\2" + body
    tag = draw.choice([b"", b"", b"\x81\x00\x00\x07", b"\x81\x00\x00\x07\x81\x00\x00\x08"])
    frame = bytearray(bytes(12) + tag + struct.pack(">H", kind) + packet)
    if draw.random() < 0.3:
        frame[draw.randrange(12, min(len(frame), 80))] = draw.randrange(256)
    if draw.random() < 0.15:
        del frame[draw.randrange(len(frame)):]
    return bytes(frame) + bytes(draw.choice([0, 0, 0, 6]))


def draw_capture(draw):
    """A capture in one of the four forms, which may break off."""
    magic = draw.choice(list(need.ORDERS))
    order = need.ORDERS[magic]
    capture = bytes.fromhex(magic) + struct.pack(order + "HHIIII", 2, 4, 0, 0, 262144, 1)
    for _ in range(draw.randint(1, 40)):
        frame = draw_frame(draw)
        capture += struct.pack(order + "IIII", 0, 0, len(frame), len(frame)) + frame
    if draw.random() < 0.2:
        capture += draw.choice([bytes(15), struct.pack(order + "IIII", 0, 0, 262145, 0), struct.pack(order + "IIII", 0, 0, 5, 5) + b"four"])
    return capture


def check_classes(draw, seed, tallies):
    capture = draw_capture(draw)
    split, ports = draw.choice([0, 5, 256]), draw.randint(1, 3)
    said = need.Need(range(FIRST_PORT, FIRST_PORT + ports), split).read(io.BytesIO(capture))
    buffers = max(said.of_size(1024), 1)
    if buffers > need.may_have(1024):
        return
    words = words_of({"--split": split, "--size": 1024, "--buffers": buffers}, ports, draw.choice([AHEAD, None]))
    wanted = [f"capture records {sum(said.classes.values())} tcp {said.classes['tcp']} steered {sum(said.lengths.values())} "
              f"other {said.classes['other']} fragment {said.classes['fragment']} cut {said.classes['cut']} bad {said.classes['bad']}"]

    def check(status, report, folder):
        if report.splitlines()[:1] != wanted:
            yield f"the report says {report.splitlines()[:1]}, not {wanted}"
        if status != (said.fault or 0):
            yield f"status {status}, not {said.fault or 0}"
        if refused := thread_runs.read_report(report)[2]:
            yield f"refused with {buffers} buffers: {sorted(refused)}"

    tallies.count("captures by class")
    tallies.count("their frames", sum(said.classes.values()))
    tallies.count("their faults", said.fault is not None)
    tallies.report(replay(capture, words, lambda *ended: list(check(*ended))), seed, words)


# ---- at the need, and below


def bytes_of(segments):
    return frames.FILE_HEADER + b"".join(
        frames.record(0, frames.frame(source, port, sequence, flags, payload)) for source, port, sequence, flags, payload in segments)


def counted(segments, split, size):
    """The need of drawn segments, without a look at a capture."""
    lengths = thread_runs.counted_lengths(segments).values()
    return sum((length + size - 1) // size if length > split else length for length in lengths)


def needs_of(segments, split, size, refused):
    """The need of each refused frame with those before it that weren't refused."""
    so_far = 0
    for number, length in sorted(thread_runs.counted_lengths(segments).items()):
        own = need.need_for(length, split, size)
        if number in refused:
            yield number, so_far + own
        else:
            so_far += own


def areas_of(options):
    """The areas of a pool, as pairs of a number of buffers and their size."""
    if "--areas" in options:
        return [tuple(map(int, part.split(":"))) for part in options["--areas"].split(",")]
    return [(options["--buffers"], options["--size"])]


def sizes_of(options):
    return [size for _, size in areas_of(options)]


def set_buffers(draw, options, buffers):
    """Gives the pool so many buffers, in as many of its areas as there are buffers for, one of the least size among them."""
    if "--areas" not in options:
        options["--buffers"] = buffers
        return
    sizes = sorted(sizes_of(options))[:buffers]
    ends = [0, *sorted(draw.sample(range(1, buffers), len(sizes) - 1)), buffers]
    draw.shuffle(sizes)
    options["--areas"] = ",".join(f"{end - begin}:{size}" for begin, end, size in zip(ends, ends[1:], sizes))


def check_run(segments, options, ports, text, seed, tallies):
    """Runs once: what is refused, where nothing else is wrong. Each refusal has to lack buffers."""
    words = words_of(options, ports, text)
    buffers = sum(count for count, _ in areas_of(options))
    seen = set()

    def check(status, report, folder):
        refused = thread_runs.read_report(report)[2]
        seen.update(refused)
        yield from thread_runs.faults_of(segments, options, ports, report, folder)
        for number, least in needs_of(segments, options["--split"], min(sizes_of(options)), refused):
            if least <= buffers:
                yield f"frame {number} is refused, whose need is {least} of {buffers}"

    tallies.report(replay(bytes_of(segments), words, lambda *ended: list(check(*ended))), seed, words)
    return seen


def draw_text(draw, ports):
    letters = "n" + "".join(map(str, range(ports)))
    return "".join(draw.choice(letters) for _ in range(draw.randint(1, 200)))


def need_by_reading(segments, options, ports):
    said = need.Need(range(FIRST_PORT, FIRST_PORT + ports), options["--split"]).read(io.BytesIO(bytes_of(segments)))
    return said.of_size(min(sizes_of(options)))


def check_needs(draw, seed, tallies):
    ports = draw.randint(1, 8)
    segments, options = thread_runs.draw_segments(draw, ports), thread_runs.draw_options(draw)
    buffers = need_by_reading(segments, options, ports)
    if buffers != counted(segments, options["--split"], min(sizes_of(options))):
        tallies.report([f"need {buffers}, counted otherwise"], seed, [])
    if buffers > need.may_have(max(sizes_of(options))):
        return
    tallies.count("captures at their need")
    tallies.count("of several areas", len(sizes_of(options)) > 1)
    set_buffers(draw, options, max(buffers, 1))
    for text in [AHEAD, draw_text(draw, ports), None]:
        tallies.count("runs at the need")
        tallies.count("refused at the need", len(check_run(segments, options, ports, text, seed, tallies)))
    if buffers < 2:
        return
    for below in {buffers - 1, draw.randint(1, buffers - 1)}:
        set_buffers(draw, options, below)
        for text in [AHEAD, draw_text(draw, ports), None]:
            tallies.count("runs below the need")
            tallies.count("refused below the need", len(check_run(segments, options, ports, text, seed, tallies)))


def draw_tight(draw, size, short):
    """Segments of one flow, in order, each of whose payloads takes buffers of its own. Those of one byte come first, since the card
    caches what is listed at its first search."""
    lengths = [1] * draw.randint(1, 30) if short else []
    lengths += [size * draw.choice([0, 0, 1, 2]) + draw.randint(size // 2 + 1, size) for _ in range(draw.randint(0, 30))] + [size]
    segments, position = [], 1000
    for length in lengths:
        segments.append((40000, FIRST_PORT, position, frames.PSH_ACK, bytes(length)))
        position += length
    return segments


def check_tight(draw, seed, tallies):
    short = draw.random() < 0.5
    options = {"--size": draw.choice([1024, 2048, 4096]), "--ring": 256, "--split": int(short), "--hold": 4096, "--stray": 0}
    segments = draw_tight(draw, options["--size"], short)
    text = ("n00" if short else "n") * 1300
    enough = counted(segments, options["--split"], options["--size"])
    for buffers, wanted in [(enough, set()), (enough - 1, {len(segments)})]:
        if buffers == 0:
            continue
        options["--buffers"] = buffers
        refused = check_run(segments, options, 1, text, seed, tallies)
        tallies.count("tight runs")
        tallies.count("tight runs that refuse", bool(refused))
        if refused != wanted:
            tallies.report([f"refused {sorted(refused)} with {buffers} buffers, and the need is {enough}"], seed, words_of(options, 1, text))


def main():
    captures = int(sys.argv[1]) if len(sys.argv) > 1 else 300
    first = int(sys.argv[2]) if len(sys.argv) > 2 else 0
    tallies = Tallies()
    for seed in range(first, first + captures):
        draw = random.Random(seed)
        check_classes(draw, seed, tallies)
        check_needs(draw, seed, tallies)
        check_tight(draw, seed, tallies)
    for name, count in tallies.counts.items():
        print(f"{name}: {count}")
    print(f"wrong: {tallies.wrong}")
    return 1 if tallies.wrong else 0


if __name__ == "__main__":
    sys.exit(main())
