#!/usr/bin/env python3
"""Replays captures of many flows where the system lets the program open few files, and compares the streams.

usage: tools/few_descriptors.py [RUNS]

512 flows go to 8 ports, in turn and one port's flows after another's, with 40, 64, 128, 256 and 512 descriptors, on threads
and by turns on one; and 64 flows go to one port with 40. Each flow comes three times, so that a file that was closed is appended
to again, and each case runs so often (10). The status is 0 where each run ends with status 0 and each stream is right.

ZCRX=FILE names another program than crates/zcrx_cli/out/zcrx_cli, which `make build` leaves there.
"""

import os
import pathlib
import resource
import subprocess
import sys
import tempfile

import frames

TOP = pathlib.Path(__file__).resolve().parent.parent
FIRST_PORT = 9000
FIRST_SEQUENCE = 1000
PIECES = 3


def in_turn(flow, ports, flows):
    """The port of a flow where the ports take turns."""
    return FIRST_PORT + flow % ports


def one_by_one(flow, ports, flows):
    """The port of a flow where each port's flows come after those of the port before."""
    return FIRST_PORT + flow * ports // flows


DESCRIPTORS = [40, 64, 128, 256, 512]
WAYS = {"threads": [], "turns": ["--turns=n"]}

# A name, how many ports and flows, the port of a flow, and the descriptors.
CASES = [
    ("64 flows to one port", 1, 64, in_turn, [40]),
    ("512 flows to 8 ports in turn", 8, 512, in_turn, DESCRIPTORS),
    ("512 flows to 8 ports, port by port", 8, 512, one_by_one, DESCRIPTORS),
]


def payload(flow, piece):
    return f"flow {flow:3}, piece {piece}.\n".encode()


def capture(ports, flows, port_of):
    records = [frames.FILE_HEADER]
    for piece in range(PIECES):
        for flow in range(flows):
            text = payload(flow, piece)
            sequence = FIRST_SEQUENCE + piece * len(text)
            segment = frames.frame(20000 + flow, port_of(flow, ports, flows), sequence, frames.PSH_ACK, text)
            records.append(frames.record(0, segment))
    return b"".join(records)


def replay(program, options, ports, descriptors, bytes_in, folder):
    """The status of a replay in a folder, with so many descriptors."""
    words = [*options, *(str(FIRST_PORT + port) for port in range(ports))]
    limit = lambda: resource.setrlimit(resource.RLIMIT_NOFILE, (descriptors, descriptors))
    run = subprocess.run(
        [program, "replay", *words], input=bytes_in, cwd=folder, preexec_fn=limit, stdout=subprocess.DEVNULL)
    return run.returncode


def wrong_streams(flows, folder):
    """The flows whose stream isn't what was sent."""
    wrong = []
    for flow in range(flows):
        stream = pathlib.Path(folder, f"flow-{flow}.bin")
        wanted = b"".join(payload(flow, piece) for piece in range(PIECES))
        if not stream.is_file() or stream.read_bytes() != wanted:
            wrong.append(flow)
    return wrong


def runs_of(program, options, case, descriptors, runs):
    """How many of the runs of a case end with another status than 0, and how many streams are wrong in all."""
    _, ports, flows, port_of, _ = case
    bytes_in = capture(ports, flows, port_of)
    failed = wrong = 0
    for _ in range(runs):
        with tempfile.TemporaryDirectory() as folder:
            failed += replay(program, options, ports, descriptors, bytes_in, folder) != 0
            wrong += len(wrong_streams(flows, folder))
    return failed, wrong


def main():
    program = pathlib.Path(os.environ.get("ZCRX", TOP / "crates/zcrx_cli/out/zcrx_cli")).resolve()
    runs = int(sys.argv[1]) if len(sys.argv) > 1 else 10
    bad = False
    for case in CASES:
        for way, options in WAYS.items():
            for descriptors in case[-1]:
                failed, wrong = runs_of(program, options, case, descriptors, runs)
                print(f"{case[0]}, {way}, {descriptors} descriptors: {failed} of {runs} runs failed, {wrong} wrong streams")
                bad = bad or failed or wrong
    return 1 if bad else 0


if __name__ == "__main__":
    sys.exit(main())
