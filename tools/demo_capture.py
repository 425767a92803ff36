#!/usr/bin/env python3
"""Writes the demo capture to standard output: two flows whose segments are interleaved and out of order.

usage: demo_capture.py > demo-data/hello.pcap

One goes from port 40000 to port 9000 and says `hello, world`. The other goes from port 40001 to port 9001 and says
`across the wrap`, at which its sequence numbers go from 4294967295 to 0; one of its segments comes twice.
demo-data/hello.pcap is what this wrote.
"""

import sys

import frames

HELLO = (40000, 9000)
ACROSS = (40001, 9001)

# Ports, flags, sequence number, payload: SYN and FIN take one sequence number each.
SEGMENTS = [
    (HELLO, frames.SYN, 1000, b""),
    (ACROSS, frames.SYN, 2**32 - 8, b""),
    (HELLO, frames.PSH_ACK, 1008, b"world"),
    (ACROSS, frames.PSH_ACK, 0, b"the wrap"),
    (HELLO, frames.PSH_ACK, 1001, b"hello, "),
    (ACROSS, frames.PSH_ACK, 2**32 - 7, b"across "),
    (ACROSS, frames.PSH_ACK, 0, b"the wrap"),
    (HELLO, frames.FIN_ACK, 1013, b""),
]


def main():
    out = sys.stdout.buffer
    out.write(frames.FILE_HEADER)
    for (source_port, destination_port), flags, sequence, payload in SEGMENTS:
        out.write(frames.record(0, frames.frame(source_port, destination_port, sequence, flags, payload)))


if __name__ == "__main__":
    main()
