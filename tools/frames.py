"""A classic pcap capture of TCP frames over IPv4 over Ethernet, as bytes.

Checksums are 0: nothing here reads them.
"""

import struct

# Little-endian, microseconds, version 2.4, no offset, frames of at most 262,144 bytes, Ethernet.
FILE_HEADER = bytes.fromhex("d4c3b2a1 0200 0400 00000000 00000000 00000400 01000000")

FIN, SYN, RST, FIN_ACK, PSH_ACK = 1, 2, 4, 17, 24

_ETHERNET = bytes.fromhex("020000000002 020000000001 0800")
_IPV4_START = bytes.fromhex("4500")
_IPV4_REST = bytes.fromhex("00004000 40060000 0a000001 0a000002")
_HEADERS = struct.Struct(">14s2sH16sHHIIBBHHH")


def frame(source_port, destination_port, sequence, flags, payload):
    """A frame from 10.0.0.1 to 10.0.0.2; the sequence number counts modulo 2^32."""
    headers = _HEADERS.pack(
        _ETHERNET, _IPV4_START, 40 + len(payload), _IPV4_REST,
        source_port, destination_port, sequence % 2**32, 0, 0x50, flags, 0xFFFF, 0, 0)
    return headers + payload


def record(seconds, frame_bytes):
    """A record that holds the whole frame, at a whole second."""
    return struct.pack("<IIII", seconds, 0, len(frame_bytes), len(frame_bytes)) + frame_bytes
