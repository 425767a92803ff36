#!/usr/bin/env python3
"""Says how many buffers are enough for a replay of a capture: with as many no frame is refused.

usage: tools/need.py CAPTURE PORT.. [--split S] [--size Z]

CAPTURE is a file, and ports, S and Z are those of `zcrx replay`, of several areas Z is the least size; S is 0 and Z 4096 where they
are left out. On standard output stands the number for `--buffers`, and nothing else:

    zcrx replay --buffers $(tools/need.py FILE 9000) 9000 < FILE

It is the sum, over the frames to the ports that the replay would read, of how many buffers the bytes fill that count of a
payload, where these are more than S, and of their number where they are 1 to S; or 1, where that is 0. Bytes count that lie
before the FIN of their flow, and before a RST. Where a pool may not have so many buffers of this size, standard
error names the smallest size of which it may have as many as are enough then. Where the capture has a fault, standard error names
its status, and the number is that of the frames before it. The status is 0, or 1 where there is no capture.
"""

import argparse
import collections
import struct
import sys

SIZES = [1024 << k for k in range(7)]
MOST_BUFFERS, MOST_BYTES = 4096, 67_108_864
MOST_PORTS, MOST_SPLIT = 8, 256
MOST_CAPTURED, MOST_RECORDS, MOST_FLOWS = 262_144, 16_777_216, 65_535
ORDERS = {"d4c3b2a1": "<", "a1b2c3d4": ">", "4d3cb2a1": "<", "a1b23c4d": ">"}
CLASSES = ["tcp", "other", "fragment", "cut", "bad"]
CUT, NOT_PCAP, VERSION, LINK_TYPE, LONG_RECORD, TOO_MANY_FLOWS, TOO_MANY_RECORDS = 6, 3, 4, 5, 7, 10, 11
FIN, SYN, RST = 1, 2, 4


class Fault(Exception):
    """The reading ends by a fault, whose number is a status of `zcrx replay`."""

    def __init__(self, number):
        super().__init__(number)
        self.number = number


# ---- records


def order_of(capture):
    """The byte order of a capture, whose file header it reads."""
    header = capture.read(24)
    if len(header) < 4:
        raise Fault(CUT)
    order = ORDERS.get(header[:4].hex())
    if order is None:
        raise Fault(NOT_PCAP)
    if len(header) < 24:
        raise Fault(CUT)
    if struct.unpack_from(order + "H", header, 4)[0] != 2:
        raise Fault(VERSION)
    if struct.unpack_from(order + "I", header, 20)[0] & 0xFFFF != 1:
        raise Fault(LINK_TYPE)
    return order


def records(capture, order):
    """The frames of the records, one by one, up to the end or a fault."""
    count = 0
    while header := capture.read(16):
        if len(header) < 16:
            raise Fault(CUT)
        length = struct.unpack_from(order + "I", header, 8)[0]
        if length > MOST_CAPTURED:
            raise Fault(LONG_RECORD)
        frame = capture.read(length)
        if len(frame) < length:
            raise Fault(CUT)
        if count == MOST_RECORDS:
            raise Fault(TOO_MANY_RECORDS)
        count += 1
        yield frame


# ---- frames: each function answers a class, and at "tcp" what the segment says


def number_at(frame, place):
    return int.from_bytes(frame[place:place + 2], "big")


def class_of(frame):
    """The class of a frame, and of a TCP segment its flow's key, sequence number, flags, and payload's length."""
    if len(frame) < 14:
        return "cut", None
    begin = 14
    if number_at(frame, 12) == 0x8100:
        if len(frame) < 18:
            return "cut", None
        begin = 18
    kind = number_at(frame, begin - 2)
    if kind == 0x0800:
        return ipv4(frame, begin)
    if kind == 0x86DD:
        return ipv6(frame, begin)
    return "other", None


def ipv4(frame, begin):
    if len(frame) < begin + 20:
        return "cut", None
    header, total = 4 * (frame[begin] & 15), number_at(frame, begin + 2)
    if frame[begin] >> 4 != 4 or header < 20 or total < header:
        return "bad", None
    if number_at(frame, begin + 6) & 0x3FFF:
        return "fragment", None
    if frame[begin + 9] != 6:
        return "other", None
    return tcp(frame, begin + header, begin + total, frame[begin + 12:begin + 20])


def ipv6(frame, begin):
    if len(frame) < begin + 40:
        return "cut", None
    if frame[begin] >> 4 != 6:
        return "bad", None
    end = begin + 40 + number_at(frame, begin + 4)
    kind, place = frame[begin + 6], begin + 40
    while kind in (0, 43, 60):
        if end < place + 8:
            return "bad", None
        if len(frame) < place + 2:
            return "cut", None
        behind = place + 8 * (frame[place + 1] + 1)
        if behind > end:
            return "bad", None
        kind, place = frame[place], behind
    if kind == 44:
        return "fragment", None
    if kind != 6:
        return "other", None
    return tcp(frame, place, end, frame[begin + 8:begin + 40])


def tcp(frame, begin, end, addresses):
    if len(frame) < end:
        return "cut", None
    if end - begin < 20:
        return "bad", None
    header = 4 * (frame[begin + 12] >> 4)
    if header < 20 or begin + header > end:
        return "bad", None
    sequence = int.from_bytes(frame[begin + 4:begin + 8], "big")
    return "tcp", (addresses + frame[begin:begin + 4], sequence, frame[begin + 13], end - begin - header)


def port_of(key):
    return number_at(key, len(key) - 2)


# ---- the need


class Flow:
    """A flow: its base, and how it was closed so far."""

    def __init__(self, base):
        self.base = base
        self.fin = None
        self.reset = False

    def see(self, first, flags, length):
        """Sees a segment of so many bytes from a sequence number on, and says how many of them count."""
        self.reset = self.reset or bool(flags & RST)
        if self.reset:
            return 0
        if flags & FIN and self.fin is None:
            self.fin = (first + length) % 2**32
        if self.fin is None:
            return length
        ahead = (self.fin - first + 2**31) % 2**32 - 2**31
        return min(length, max(ahead, 0))


class Flows:
    """How many flows there are, and the newest of each key."""

    def __init__(self):
        self.count = 0
        self.newest = {}

    def place(self, key, sequence, flags, length):
        """How many bytes of a segment count, which its flow sees, or which begins one."""
        syn = bool(flags & SYN)
        first = (sequence + syn) % 2**32
        if key not in self.newest or syn and first != self.newest[key].base:
            if self.count == MOST_FLOWS:
                raise Fault(TOO_MANY_FLOWS)
            self.count += 1
            self.newest[key] = Flow(first)
        return self.newest[key].see(first, flags, length)


def need_for(length, split, size):
    """How many buffers a payload may use."""
    return -(-length // size) if length > split else length


class Need:
    """What a replay needs: how many payloads to the ports count with each length, and how many frames of each class were read."""

    def __init__(self, ports, split):
        self.ports = set(ports)
        self.split = split
        self.flows = Flows()
        self.lengths = collections.Counter()
        self.classes = dict.fromkeys(CLASSES, 0)
        self.fault = None

    def of_size(self, size):
        """The need with buffers of a size."""
        return sum(count * need_for(length, self.split, size) for length, count in self.lengths.items())

    def take(self, frame):
        kind, segment = class_of(frame)
        if kind == "tcp" and port_of(segment[0]) in self.ports:
            key, sequence, flags, length = segment
            self.lengths[self.flows.place(key, sequence, flags, length)] += 1
        self.classes[kind] += 1

    def read(self, capture):
        """Reads a capture to its end or to a fault. One of its file header is raised."""
        order = order_of(capture)
        try:
            for frame in records(capture, order):
                self.take(frame)
        except Fault as fault:
            self.fault = fault.number
        return self


def may_have(size):
    """How many buffers of a size a pool may have."""
    return min(MOST_BUFFERS, MOST_BYTES // size)


def advice(need, size):
    """What to say where a pool may not have so many buffers of this size."""
    if need.of_size(size) <= may_have(size):
        return None
    fits = [other for other in SIZES if need.of_size(other) <= may_have(other)]
    if not fits:
        return f"a pool has at most {may_have(size)} buffers of {size} bytes, and no other size has enough"
    return f"a pool has at most {may_have(size)} buffers of {size} bytes: use --size {fits[0]} --buffers {max(need.of_size(fits[0]), 1)}"


# ---- words


def within(least, most):
    def read(word):
        number = int(word)
        if not least <= number <= most:
            raise argparse.ArgumentTypeError(f"{word} isn't from {least} to {most}")
        return number
    return read


def read_words():
    parser = argparse.ArgumentParser(description="Says how many buffers are enough for a replay of a capture.")
    parser.add_argument("capture", metavar="CAPTURE")
    parser.add_argument("ports", metavar="PORT", nargs="+", type=within(1, 65535))
    parser.add_argument("--split", metavar="S", type=within(0, MOST_SPLIT), default=0)
    parser.add_argument("--size", metavar="Z", type=int, choices=SIZES, default=4096)
    words = parser.parse_intermixed_args()
    if len(words.ports) > MOST_PORTS or len(set(words.ports)) < len(words.ports):
        parser.error("there are 1 to 8 different ports")
    return words


def main():
    words = read_words()
    try:
        with open(words.capture, "rb") as capture:
            need = Need(words.ports, words.split).read(capture)
    except OSError as error:
        print(f"need: {words.capture}: {error.strerror}", file=sys.stderr)
        return 1
    except Fault as fault:
        print(f"need: {words.capture} is no capture that is read: status {fault.number}", file=sys.stderr)
        return 1
    print(max(need.of_size(words.size), 1))
    if need.fault is not None:
        print(f"need: the reading ends with status {need.fault} behind {sum(need.classes.values())} records", file=sys.stderr)
    if said := advice(need, words.size):
        print(f"need: {said}", file=sys.stderr)
    return 0


if __name__ == "__main__":
    sys.exit(main())
