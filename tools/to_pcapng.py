#!/usr/bin/env python3
"""Writes a classic pcap capture as pcapng.

usage: tools/to_pcapng.py < CAPTURE > BLOCKS

One section, one interface, and an enhanced packet for each record (draft-ietf-opsawg-pcapng), little-endian, with times in
microseconds.
"""

import struct
import sys

MAGICS = {  # the order of the numbers, and a microsecond's parts
    b"\xd4\xc3\xb2\xa1": ("<", 1),
    b"\xa1\xb2\xc3\xd4": (">", 1),
    b"\x4d\x3c\xb2\xa1": ("<", 1000),
    b"\xa1\xb2\x3c\x4d": (">", 1000),
}


def block(kind, body):
    total = struct.pack("<I", len(body) + 12)
    return struct.pack("<I", kind) + total + body + total


def packet(seconds, micros, captured, original):
    time = seconds * 1_000_000 + micros
    head = struct.pack("<5I", 0, time >> 32, time & 0xFFFF_FFFF, len(captured), original)
    return block(6, head + captured + bytes(-len(captured) % 4))


def main():
    read, write = sys.stdin.buffer.read, sys.stdout.buffer.write
    header = read(24)
    if len(header) < 24 or header[:4] not in MAGICS:
        sys.exit("to_pcapng: no classic capture")
    order, parts = MAGICS[header[:4]]
    snaplen, link = struct.unpack(order + "2I", header[16:])
    write(block(0x0A0D0D0A, struct.pack("<I2Hq", 0x1A2B3C4D, 1, 0, -1)))
    write(block(1, struct.pack("<2HI", link & 0xFFFF, 0, snaplen)))
    while record := read(16):
        seconds, fraction, captured, original = struct.unpack(order + "4I", record)
        write(packet(seconds, fraction // parts, read(captured), original))


if __name__ == "__main__":
    main()
