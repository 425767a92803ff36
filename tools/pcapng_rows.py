#!/usr/bin/env python3
"""Prints what a small pcapng capture reads as where it is cut off or a byte is changed.

usage: tools/pcapng_rows.py

The capture is the section header, the interface of Ethernet and the two packets that are cut off and changed in
crates/capture_runs/src/blocks.rt. It is read here by draft-ietf-opsawg-pcapng, block by block, in another way than
pcapng_reader does. The first line has the status for each number of bytes that are left of it, the second that for each byte
whose bits are all turned; 0 is no fault, and a record that was read before it adds 100.
"""

import struct

NOT_PCAP, VERSION, LINK_TYPE, CUT, LONG_RECORD, BAD_BLOCK = 3, 4, 5, 6, 7, 13
FIXED = {0x0A0D0D0A: 24, 1: 16, 6: 28, 3: 12}

SMALL = bytes.fromhex(
    "0a0d0d0a" "1c000000" "4d3c2b1a" "0100" "0000" "ffffffffffffffff" "1c000000"
    "01000000" "14000000" "0100" "0000" "00000400" "14000000"
    "06000000" "24000000" "00000000" "0000000000000000" "03000000" "3c000000" "aabbcc00" "24000000"
    "03000000" "14000000" "02000000" "ddee0000" "14000000"
)


class Fault(Exception):
    pass


def need(data, count):
    if len(data) < count:
        raise Fault(CUT)


def blocks(data):
    """Yields the packets, as captured bytes and original length, and raises the first fault."""
    order, interfaces = "<", []
    while data:
        need(data, 8)
        kind = struct.unpack(order + "I", data[:4])[0]
        if data[:4] == b"\x0a\x0d\x0d\x0a":
            kind = 0x0A0D0D0A
            need(data, 12)
            order = {b"\x4d\x3c\x2b\x1a": "<", b"\x1a\x2b\x3c\x4d": ">"}.get(data[8:12])
            if order is None:
                raise Fault(BAD_BLOCK)
        fixed = FIXED.get(kind, 8)
        total = struct.unpack(order + "I", data[4:8])[0]
        if total < fixed + 4 or total % 4:
            raise Fault(BAD_BLOCK)
        need(data, fixed)
        packet = None
        if kind == 0x0A0D0D0A:
            if struct.unpack(order + "H", data[12:14])[0] != 1:
                raise Fault(VERSION)
        elif kind in (3, 6):
            if kind == 6:
                which, captured, original = struct.unpack(order + "I8xII", data[8:28])
            else:
                which, original = 0, struct.unpack(order + "I", data[8:12])[0]
            if which >= len(interfaces):
                raise Fault(BAD_BLOCK)
            link, snaplen = interfaces[which]
            if kind == 3:
                captured = min(original, snaplen or original)
            if link != 1:
                raise Fault(LINK_TYPE)
            if captured > 262_144:
                raise Fault(LONG_RECORD)
            if -(-captured // 4) * 4 > total - fixed - 4:
                raise Fault(BAD_BLOCK)
            packet = data[fixed:fixed + captured], original
        need(data, total)
        if struct.unpack(order + "I", data[total - 4:total])[0] != total:
            raise Fault(BAD_BLOCK)
        if kind == 0x0A0D0D0A:
            interfaces = []
        elif kind == 1:
            interfaces.append(struct.unpack(order + "HxxI", data[8:16]))
        if packet:
            yield packet
        data = data[total:]


def status(data):
    """The status, and 100 for each record before it."""
    count = 0
    try:
        if len(data) < 4:
            raise Fault(CUT)
        if data[:4] != b"\x0a\x0d\x0d\x0a":
            raise Fault(NOT_PCAP)
        for _ in blocks(data):
            count += 1
        return 100 * count
    except Fault as fault:
        return 100 * count + fault.args[0]


def main():
    print(", ".join(str(status(SMALL[:n])) for n in range(len(SMALL) + 1)))
    print(", ".join(str(status(SMALL[:n] + bytes([SMALL[n] ^ 255]) + SMALL[n + 1:])) for n in range(len(SMALL))))


if __name__ == "__main__":
    main()
