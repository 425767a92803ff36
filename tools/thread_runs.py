#!/usr/bin/env python3
"""Replays drawn captures under drawn options with threads, and compares each stream with plain copying.

usage: tools/thread_runs.py [RUNS [SEED]]

RUNS is 2,000 if left out, and SEED 0: run K draws by SEED + K. A capture has up to 60 frames of up to six flows to one to
eight ports, with pieces out of order, overlapping, doubled, empty, far ahead, and flows that begin anew. Buffers may be few
and rings short, and applications keep, leak, stray and quit, or are polled, or forward. Each stream has to be what a plain copying receiver gives on the
frames that the report doesn't call refused: all of it where the application wasn't stopped, and otherwise a front of it. The
status is 0 where all are.

ZCRX=FILE names another program than crates/zcrx_cli/out/zcrx_cli, which `make build` leaves there.
"""

import os
import pathlib
import random
import subprocess
import sys
import tempfile

import frames

TOP = pathlib.Path(__file__).resolve().parent.parent
FIRST_PORT = 9000
WINDOW = 2**30
LENGTHS = [0, 1, 5, 64, 65, 200, 256, 257, 700, 1000, 1024, 1025, 2500, 5000]


class Receiver:
    """The copying receiver: its base, a map from positions to bytes, and the least position that isn't in it."""

    def __init__(self, base):
        self.base = base
        self.bytes_at = {}
        self.next = 0

    def take(self, sequence, payload):
        distance = (sequence - self.base - self.next) % 2**32
        if distance >= 2**31:
            distance -= 2**32
        if distance + len(payload) > WINDOW:
            return
        start = self.next + distance
        for place, byte in enumerate(payload, start):
            if place >= 0:
                self.bytes_at.setdefault(place, byte)
        while self.next in self.bytes_at:
            self.next += 1

    def stream(self):
        return bytes(self.bytes_at[place] for place in range(self.next))


class Flow:
    """A flow by the book: its port, its base, the number behind its last byte, and what counts of its segments, by their record
    numbers."""

    def __init__(self, port, base):
        self.port = port
        self.base = base
        self.fin = None
        self.reset = False
        self.segments = []

    def see(self, number, first, flags, payload):
        if self.reset or flags & frames.RST:
            self.reset = True
        elif flags & frames.FIN and self.fin is None:
            self.fin = (first + len(payload)) % 2**32
        self.segments.append((number, first, payload[:self.counted(first, len(payload))]))

    def counted(self, first, length):
        """How many of so many bytes from a sequence number on count."""
        if self.reset:
            return 0
        if self.fin is None:
            return length
        ahead = (self.fin - first) % 2**32
        return min(length, ahead) if ahead < 2**31 else 0

    def end(self, count):
        """How it ended, where its stream has so many bytes."""
        if self.reset:
            return "reset"
        if self.fin is None:
            return "open"
        return "whole" if (self.fin - self.base - count) % 2**32 == 0 else "short"

    def stream(self, refused):
        receiver = Receiver(self.base)
        for number, sequence, payload in self.segments:
            if number not in refused:
                receiver.take(sequence, payload)
        return receiver.stream()


def flows_of(segments):
    """The flows of segments (source port, port, sequence number, flags, payload), each of one record, in order."""
    flows = []
    newest = {}
    for number, (source_port, port, sequence, flags, payload) in enumerate(segments, 1):
        syn = bool(flags & frames.SYN)
        first = (sequence + syn) % 2**32
        flow = newest.get((source_port, port))
        if flow is None or (syn and first != flow.base):
            flow = Flow(port, first)
            flows.append(flow)
            newest[source_port, port] = flow
        flow.see(number, first, flags, payload)
    return flows


def counted_lengths(segments):
    """How many bytes count of each segment, by its record's number."""
    return {number: len(payload) for flow in flows_of(segments) for number, _, payload in flow.segments}


def draw_segments(draw, ports):
    """Segments of up to six flows, each from a source port of its own."""
    begun = {}
    segments = []
    for _ in range(draw.randint(1, 60)):
        source_port = 40000 + draw.randrange(6)
        port = FIRST_PORT + source_port % ports
        state = begun.get(source_port)
        if state is None or draw.random() < 0.03:
            base = draw.choice([1000, 2**32 - 700, draw.randrange(2**32)])
            begun[source_port] = [base, 0]
            segments.append((source_port, port, (base - 1) % 2**32, frames.SYN, b""))
            continue
        base, position = state
        length = draw.choice(LENGTHS)
        shift = draw.choice([0, 0, 0, 0, -length, -3, -700, 900, 1000, 2000, 2**29])
        start = max(position + shift, -50)
        payload = bytes((start + offset) * 7 % 251 for offset in range(length))
        flags = draw.choices([frames.PSH_ACK, frames.FIN_ACK, frames.RST, frames.FIN_ACK | frames.RST], [95, 3, 1, 1])[0]
        segments.append((source_port, port, (base + start) % 2**32, flags, payload))
        if start <= position < start + length < 2**28:
            state[1] = start + length
    return segments


def draw_options(draw):
    options = {
        "--buffers": draw.choice([1, 2, 4, 16, 64, 300]),
        "--size": draw.choice([1024, 2048, 4096]),
        "--ring": draw.choice([1, 2, 3, 64]),
        "--split": draw.choice([0, 64, 256]),
        "--hold": draw.choice([0, 0, 1, 5]),
        "--leak": draw.choice([0, 0, 2]),
        "--stray": draw.choice([0, 0, 1, 16]),
    }
    if draw.random() < 0.3:
        del options["--buffers"], options["--size"]
        options["--areas"] = ",".join(
            f"{draw.choice([1, 2, 16, 64])}:{draw.choice([1024, 2048, 4096, 65536])}" for _ in range(draw.randint(1, 4))
        )
    if draw.random() < 0.3:
        options["--quit"] = draw.choice([0, 1, 100, 2000])
    return options


def draw_way(draw, options):
    """The words of the options; in some runs applications are polled, or forward, and then they behave in no way of their own."""
    way = draw.choice([[], [], ["--polled"], [f"--forward={draw.choice([0, 1, 3, 63])}"]])
    if way:
        for name in ("--hold", "--leak", "--stray", "--quit"):
            options.pop(name, None)
    return way + [f"{name}={value}" for name, value in options.items()]


def read_report(text):
    """The lines of a report: applications, flows, refused frames, the pool's counts and the status."""
    applications, flows, refused, pool, status = [], [], set(), {}, None
    for line in text.splitlines():
        kind, *rest = line.split()
        if kind == "app":
            applications.append(dict(zip(rest[1::2], rest[2::2])))
        elif kind == "flow":
            flows.append(dict(zip(rest[1::2], rest[2::2])))
        elif kind == "refused":
            refused.add(int(rest[0]))
        elif kind == "pool":
            pool = dict(zip(rest[::2], map(int, rest[1::2])))
        elif kind == "status":
            status = int(rest[0])
    return applications, flows, refused, pool, status


def faults_of(segments, options, ports, report, folder):
    """What is wrong with a report and the streams in a folder."""
    applications, lines, refused, pool, status = read_report(report)
    if status != 0 or len(applications) != ports:
        yield f"status {status}, {len(applications)} applications"
        return
    lengths = counted_lengths(segments)
    for number in refused:
        if lengths.get(number, 0) <= options["--split"]:
            yield f"frame {number} is refused, which isn't there or whose payload travels in its note"
    if pool["empty"] != len(refused):
        yield f"{len(refused)} frames are refused, and {pool['empty']} searches found too few"
    if pool["strays"] > options.get("--stray", 0) * sum(int(line["loans"]) for line in applications):
        yield f"{pool['strays']} strays"
    flows = flows_of(segments)
    if len(lines) != len(flows):
        yield f"{len(lines)} flows, not {len(flows)}"
        return
    for number, (flow, line) in enumerate(zip(flows, lines)):
        path = folder / f"flow-{number}.bin"
        stream = path.read_bytes() if path.exists() else b""
        wanted = flow.stream(refused)
        told = (int(line["port"]), int(line["base"]), line["fin"], int(line["bytes"]), line["end"])
        fin = "no" if flow.fin is None else "yes"
        if told != (flow.port, flow.base, fin, len(stream), flow.end(len(stream))):
            yield f"flow {number}: its line says {told}"
        if not wanted.startswith(stream):
            yield f"flow {number}: other bytes"
        if applications[flow.port - FIRST_PORT]["stopped"] == "no" and stream != wanted:
            yield f"flow {number}: {len(stream)} of {len(wanted)} bytes"
    for app, line in enumerate(applications):
        written = sum(int(flow["bytes"]) for flow in lines if int(flow["port"]) == FIRST_PORT + app)
        quits = "--quit" in options and written == options["--quit"]
        if (int(line["written"]), line["stopped"]) != (written, "quit" if quits else "no"):
            yield f"application {app}: its line says {line}"


def run(program, seed):
    """Runs once. What is wrong with it."""
    draw = random.Random(seed)
    ports = draw.randint(1, 8)
    segments = draw_segments(draw, ports)
    options = draw_options(draw)
    capture = frames.FILE_HEADER + b"".join(
        frames.record(0, frames.frame(source, port, sequence, flags, payload))
        for source, port, sequence, flags, payload in segments)
    words = draw_way(random.Random(f"way {seed}"), options)
    words += [str(FIRST_PORT + app) for app in range(ports)]
    with tempfile.TemporaryDirectory() as folder:
        try:
            done = subprocess.run([program, "replay", *words], input=capture, cwd=folder, capture_output=True, timeout=120)
        except subprocess.TimeoutExpired:
            return ["it didn't end within 120 s"], words
        if done.returncode != 0:
            return [f"it ended with {done.returncode}: {done.stderr[:200]!r}"], words
        return list(faults_of(segments, options, ports, done.stdout.decode(), pathlib.Path(folder))), words


def main():
    program = pathlib.Path(os.environ.get("ZCRX", TOP / "crates/zcrx_cli/out/zcrx_cli")).resolve()
    runs = int(sys.argv[1]) if len(sys.argv) > 1 else 2000
    first = int(sys.argv[2]) if len(sys.argv) > 2 else 0
    wrong = 0
    for seed in range(first, first + runs):
        faults, words = run(program, seed)
        if faults:
            wrong += 1
            print(f"seed {seed}: {' '.join(words)}")
            for fault in faults:
                print(f"    {fault}")
    print(f"{runs - wrong} of {runs} runs right")
    return 1 if wrong else 0


if __name__ == "__main__":
    sys.exit(main())
