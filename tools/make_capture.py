#!/usr/bin/env python3
"""Writes a capture for benchmarks to standard output, in an order that `zcrx make` doesn't have.

usage: make_capture.py SEED FRAMES [--flows N] [--first-last] > FILE

Frame k belongs to flow f = k modulo N (N is 1 if left out) and goes from port 40000 + f to port 9000 + f. The flow's
piece j holds its positions 1000 j to 1000 j + 999 and has the sequence number (4294960000 + 1000 j) modulo 2^32; the
byte at position p is (p + 31 f + SEED) modulo 256. The pieces come in order.

--first-last  each flow begins with a SYN, all of them ahead of the other frames. Then come its pieces 1, 2, 3 and so
              on in order, and its piece 0 last, so that a receiver has to keep all the others. The SYNs aren't counted
              in FRAMES.
"""

import argparse
import sys

import frames

PIECE = 1000
FIRST_SEQUENCE = 4_294_960_000
FRAMES_A_WRITE = 1000

# Every piece is a slice of this.
PATTERN = bytes(range(256)) * (PIECE // 256 + 2)


def first_last(turn, pieces):
    """The piece that a flow of so many pieces sends at its turn where piece 0 comes last."""
    return (turn + 1) % pieces


def record_of(k, seed, flow, piece):
    """The record at second k with a flow's piece."""
    position = PIECE * piece
    start = (position + 31 * flow + seed) % 256
    payload = PATTERN[start:start + PIECE]
    return frames.record(
        k, frames.frame(40000 + flow, 9000 + flow, FIRST_SEQUENCE + position, frames.PSH_ACK, payload))


def syn_of(flow):
    return frames.record(0, frames.frame(40000 + flow, 9000 + flow, FIRST_SEQUENCE - 1, frames.SYN, b""))


def records(seed, count, flows, is_first_last):
    if is_first_last:
        yield from map(syn_of, range(min(flows, count)))
    for k in range(count):
        turn, flow = divmod(k, flows)
        piece = first_last(turn, len(range(flow, count, flows))) if is_first_last else turn
        yield record_of(k, seed, flow, piece)


def write_capture(out, all_records):
    out.write(frames.FILE_HEADER)
    block = []
    for record in all_records:
        block.append(record)
        if len(block) == FRAMES_A_WRITE:
            out.write(b"".join(block))
            block.clear()
    out.write(b"".join(block))


def flow_count(word):
    count = int(word)
    if not 1 <= count <= 25000:
        raise argparse.ArgumentTypeError("the number of flows is from 1 to 25,000")
    return count


def read_words():
    parser = argparse.ArgumentParser(description="Writes a capture for benchmarks to standard output.")
    parser.add_argument("seed", type=int, metavar="SEED")
    parser.add_argument("frames", type=int, metavar="FRAMES")
    parser.add_argument("--flows", type=flow_count, default=1, metavar="N", help="from 1 to 25,000")
    parser.add_argument("--first-last", action="store_true", help="send a SYN, and each flow's first piece last")
    return parser.parse_args()


if __name__ == "__main__":
    words = read_words()
    write_capture(sys.stdout.buffer, records(words.seed, words.frames, words.flows, words.first_last))
