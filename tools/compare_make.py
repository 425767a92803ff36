#!/usr/bin/env python3
"""Writes the captures of `zcrx make` a second time, from the text of docs/FORMATS.md, and compares them byte for byte.

usage: tools/compare_make.py

The status is 0 where all are the same. ZCRX=FILE names another program than crates/zcrx_cli/out/zcrx_cli, which
`make build` leaves there.
"""

import os
import pathlib
import subprocess
import sys

import frames

TOP = pathlib.Path(__file__).resolve().parent.parent
FLOWS = 4
PIECE = 1000
OVERLAP = 100
FIRST_SEQUENCE = 4_294_960_000

# Seeds and numbers of frames.
CASES = [
    (7, 0), (7, 1), (7, 2), (7, 2000), (0, 999), (1, 1001), (255, 1002), (256, 1003), (65_535, 400), (123_456_789, 30_000),
    (2**31 - 1, 500), (2**31, 501), (2**32 - 257, 700), (2**32 - 1, 20_000),
]

# In each four pieces of a flow the last two change places.
SWAPPED = [0, 1, 3, 2]


def piece_of(turn):
    """The piece that a flow sends at its turn."""
    return turn - turn % 4 + SWAPPED[turn % 4]


def payload_of(seed, flow, positions):
    return bytes((position + 31 * flow + seed) % 256 for position in positions)


def records(seed, count):
    x = seed
    for k in range(count):
        x = (1_664_525 * x + 1_013_904_223) % 2**32
        turn, flow = divmod(k, FLOWS)
        piece = piece_of(turn)
        early = OVERLAP if x < 2**28 and piece > 0 else 0
        positions = range(PIECE * piece - early, PIECE * (piece + 1))
        payload = payload_of(seed, flow, positions)
        sequence = FIRST_SEQUENCE + positions.start
        yield frames.record(k, frames.frame(40000 + flow, 9000 + flow, sequence, frames.PSH_ACK, payload))


def main():
    program = pathlib.Path(os.environ.get("ZCRX", TOP / "crates/zcrx_cli/out/zcrx_cli")).resolve()
    wrong = 0
    for seed, count in CASES:
        wanted = frames.FILE_HEADER + b"".join(records(seed, count))
        run = subprocess.run([program, "make", str(seed), str(count)], stdin=subprocess.DEVNULL, stdout=subprocess.PIPE)
        same = run.returncode == 0 and run.stdout == wanted
        wrong += not same
        print(f"make {seed} {count}: {len(wanted)} bytes, {'the same' if same else 'OTHERS'}, status {run.returncode}")
    return 1 if wrong else 0


if __name__ == "__main__":
    sys.exit(main())
