#!/usr/bin/env python3
"""Replays captures with threads over few buffers, and asks that no frame is refused: the card waits for buffers that come back.

usage: tools/waits_test.py [RUNS]

Each row runs RUNS times, 50 if left out. In each a frame's payload fits in half of the buffers, or in the only one, beside what the
applications keep; of areas with buffers of different sizes, in half of them if all had the least. Every stream has to be whole. The
status is 0 where all are.

ZCRX=FILE names another program than crates/zcrx_cli/out/zcrx_cli, which `make build` leaves there.
"""

import os
import pathlib
import subprocess
import sys
import tempfile

import frames

TOP = pathlib.Path(__file__).resolve().parent.parent
BASE = 1000


def text(position, length):
    """So many bytes of each stream, from a position on."""
    cycle = bytes(range(251))
    start = position % 251
    return (cycle[start:] + cycle * (length // 251 + 1))[:length]


def capture(payloads):
    """A capture of one flow to each port: payloads is a list of (port, length), in order. And the streams, by the flows' numbers."""
    sent = {}
    records = [frames.FILE_HEADER]
    for number, (port, length) in enumerate(payloads):
        position = sent.get(port, 0)
        frame = frames.frame(40000, port, BASE + position, frames.PSH_ACK, text(position, length))
        records.append(frames.record(number, frame))
        sent[port] = position + length
    return b"".join(records), {port: text(0, length) for port, length in sent.items()}


def each(count, *payloads):
    return list(payloads) * count


def rows():
    """Name, options, payloads."""
    large = each(100, (9000, 65000))
    for options in ("--size 2048", "--size 2048 --buffers 256 --ring 256", "--size 1024 --buffers 256 --ring 256",
                    "--size 1024 --buffers 128", "--size 1024 --buffers 128 --ring 1"):
        yield "large", options, large
        yield "large to two ports", options, each(50, (9000, 65000), (9001, 65000))
    for buffers in (1, 16, 32, 63, 64):
        length = min(buffers * 1024, 65495)
        yield f"{buffers} buffers each", f"--size 1024 --buffers {2 * buffers}", each(40, (9000, length))
        yield f"{buffers} buffers each", f"--size 1024 --buffers {2 * buffers} --ring 1", each(40, (9000, length))
    for ring in (1, 2, 8, 64):
        yield "all buffers each", f"--size 1024 --buffers 32 --ring {ring}", each(200, (9000, 32768))
    yield "copies", "--size 1024 --buffers 1 --split 64", each(3, (9000, 60)) + each(20, (9000, 1000))
    yield "copies", "--split 256", each(100, (9000, 250), (9001, 250)) + each(100, (9000, 60000))
    yield "copies", "--size 1024 --buffers 16 --split 256", each(40, (9000, 250), (9001, 250)) + each(20, (9000, 8000))
    yield "one buffer", "--size 1024 --buffers 1", each(200, (9000, 1000))
    yield "one buffer", "--size 1024 --buffers 1 --ring 1", each(200, (9000, 1000), (9001, 1000))
    yield "both keep", "--size 1024 --buffers 16 --hold 4", each(200, (9000, 1000), (9001, 1000))
    yield "one keeps", "--size 1024 --buffers 12 --hold 4", each(4, (9001, 1000)) + each(400, (9000, 1000))
    yield "one quits", "--size 1024 --buffers 8 --quit 5000", each(100, (9000, 1000), (9001, 1000))
    yield "they leak", "--size 1024 --buffers 8 --leak 2", each(200, (9000, 1000), (9001, 1000))
    for ring in (1, 64):
        yield "two areas", f"--areas 8:1024,8:4096 --ring {ring}", each(100, (9000, 8192), (9001, 8192))
        yield "four areas", f"--areas 16:1024,16:2048,16:4096,16:65536 --ring {ring}", each(40, (9000, 32768))
    yield "a buffer each of two areas", "--areas 1:1024,1:65536", each(200, (9000, 1000), (9001, 1000))
    yield "copies in two areas", "--areas 8:1024,8:2048 --split 256", each(40, (9000, 250), (9001, 250)) + each(20, (9000, 8000))
    yield "one keeps of two areas", "--areas 4:2048,8:1024 --hold 4", each(4, (9001, 1000)) + each(400, (9000, 1000))
    yield "defaults", "", each(500, (9000, 1000), (9001, 1000), (9002, 1000), (9003, 1000))


def replay(program, options, bytes_in, streams, may_stop):
    """What is wrong with one run, or None."""
    with tempfile.TemporaryDirectory() as folder:
        command = [program, "replay", *options.split(), *map(str, sorted(streams))]
        run = subprocess.run(command, input=bytes_in, capture_output=True, cwd=folder, timeout=120)
        report = run.stdout.decode()
        if run.returncode != 0:
            return f"status {run.returncode}: {run.stderr.decode()}"
        refused = sum(line.startswith("refused ") for line in report.splitlines())
        if refused:
            return f"{refused} frames refused"
        for flow, stream in enumerate(streams.values()):
            file = pathlib.Path(folder) / f"flow-{flow}.bin"
            found = file.read_bytes() if file.exists() else b""
            if found != stream and not (may_stop and stream.startswith(found)):
                return f"{file.name} has {len(found)} bytes, not {len(stream)}"
        return None


def main():
    runs = int(sys.argv[1]) if len(sys.argv) > 1 else 50
    program = os.environ.get("ZCRX", str(TOP / "crates/zcrx_cli/out/zcrx_cli"))
    wrong = 0
    for name, options, payloads in rows():
        bytes_in, streams = capture(payloads)
        found = {}
        for _ in range(runs):
            what = replay(program, options, bytes_in, streams, "--quit" in options)
            found[what] = found.get(what, 0) + 1
        good = found.pop(None, 0)
        print(f"{name}, {options or 'no option'}: {good} of {runs} right")
        for what, count in sorted(found.items()):
            print(f"    {count} times {what}")
        wrong += runs - good
    return 1 if wrong else 0


if __name__ == "__main__":
    sys.exit(main())
